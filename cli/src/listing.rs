//! A listing as text to read and edit, and back.

use crate::cards::{lines, COLUMNS, COUNT};
use aukpocket::LISTING_LENGTH;
use std::env;

/// What the number of a control character is added to, for the character that stands for it in UTF-8.
const CONTROLS: u32 = 0x2400;

/// What some editors put before UTF-8.
const BYTE_ORDER_MARK: &[u8] = b"\xEF\xBB\xBF";

/// What stands before UTF-16.
const UTF_16_MARKS: [&[u8]; 2] = [b"\xFF\xFE", b"\xFE\xFF"];

/// The most characters that a sentence quotes.
const QUOTED: usize = 20;

/// How the characters of a listing stand in a file.
#[derive(Clone, Copy, PartialEq, Eq)]
pub enum Encoding {
    Utf8,
    Latin1,
}

/// A listing in UTF-8. Its control characters are shown, so that every line keeps its 80 columns and nothing is lost on the way back.
pub fn utf8(listing: &[u8; LISTING_LENGTH]) -> String {
    let line = |line: &[u8]| -> String { line.iter().map(|&byte| shown(byte)).collect() };
    lines(listing).map(|bytes| line(bytes) + "\n").collect()
}

/// The character that is shown for a byte of a listing: U+2400 plus the number of a control character, else the character itself.
fn shown(byte: u8) -> char {
    let character = char::from(byte);
    if character.is_control() {
        char::from_u32(CONTROLS + u32::from(byte)).expect("U+2400 to U+249F are characters")
    } else {
        character
    }
}

/// The byte of a character, the other way round; or what is wrong with it.
fn byte_of(character: char, encoding: Encoding) -> Result<u8, String> {
    if character.is_control() {
        return Err(raw_control(character, encoding));
    }
    let control = u32::from(character)
        .checked_sub(CONTROLS)
        .and_then(|number| u8::try_from(number).ok())
        .filter(|&number| char::from(number).is_control());
    control
        .or(u8::try_from(character).ok())
        .ok_or_else(|| format!("{}, which code page 037 doesn't have", named(character)))
}

/// What is wrong with a control character that stands in a file as it is.
fn raw_control(character: char, encoding: Encoding) -> String {
    let taken = match encoding {
        Encoding::Utf8 => format!(
            "in UTF-8 a card's own control characters are written as the character U+2400 plus number, this one as U+{:04X}",
            CONTROLS + u32::from(character)
        ),
        Encoding::Latin1 => {
            "--latin1 takes control characters from exactly 40 lines of 80 characters alone, and \
             --utf8 has a way to write them"
                .to_string()
        }
    };
    let (before, behind) = match character {
        '\t' => ("put blanks there; ", ""),
        '\r' => (
            "",
            "; CR LF is taken as the end of a line where every line has it",
        ),
        '\0' => ("", "; UTF-16, which has it, is to be saved as UTF-8"),
        _ => ("", ""),
    };
    format!(
        "{}, which isn't taken: {before}{taken}{behind}",
        named(character)
    )
}

/// A character in a sentence.
fn named(character: char) -> String {
    let number = format!("U+{:04X}", u32::from(character));
    match character {
        '\t' => format!("a tab ({number})"),
        '\r' => format!("a carriage return ({number})"),
        _ if character.is_control() => format!("the control character {number}"),
        // What would have to be escaped, as a mark that joins the character before it, is never sent to a terminal.
        _ if locale_is_utf8() && character.escape_debug().count() == 1 => {
            format!("`{character}` ({number})")
        }
        _ => number,
    }
}

/// Bytes of a listing in a sentence.
pub fn quoted(bytes: &[u8]) -> String {
    let text: String = bytes.iter().take(QUOTED).map(|&byte| shown(byte)).collect();
    let more = if bytes.len() > QUOTED { "..." } else { "" };
    format!("`{}`{more}", in_locale(text).0)
}

/// Text as the terminal has it, where `?` stands for each character that isn't printable ASCII unless the locale is UTF-8, and how often.
pub fn in_locale(text: String) -> (String, usize) {
    if locale_is_utf8() {
        return (text, 0);
    }
    let others = text.chars().filter(|c| !c.is_ascii()).count();
    let ascii = |c: char| if c.is_ascii() { c } else { '?' };
    (text.chars().map(ascii).collect(), others)
}

/// A sentence about characters that `?` stands for, where there are any.
pub fn not_shown(others: usize) -> Option<String> {
    let (characters, them) = match others {
        0 => return None,
        1 => (
            "a character that isn't printable ASCII is".to_string(),
            "it",
        ),
        _ => (
            format!("{others} characters that aren't printable ASCII are"),
            "them",
        ),
    };
    Some(format!(
        "{characters} shown as `?`, since the locale isn't UTF-8; --utf8 prints {them}"
    ))
}

/// Whether the locale has UTF-8. The first of these that is set names the locale, with the code set behind a dot.
fn locale_is_utf8() -> bool {
    let locale = ["LC_ALL", "LC_CTYPE", "LANG"]
        .into_iter()
        .filter_map(env::var_os)
        .find(|locale| !locale.is_empty())
        .unwrap_or_default();
    let locale = locale.to_string_lossy().to_ascii_lowercase();
    let unmodified = locale.split('@').next();
    let code_set = unmodified.and_then(|locale| locale.rsplit('.').next());
    matches!(code_set, Some("utf-8" | "utf8"))
}

/// A listing that was edited: its lines, what was done to make them, and how many of them were filled.
pub struct Edited {
    pub lines: Vec<Vec<u8>>,
    pub mended: Vec<String>,
    pub filled: usize,
}

impl Edited {
    /// The bytes to be lent: each line is closed by 0A.
    pub fn bytes(&self) -> Vec<u8> {
        let closed = |line: &Vec<u8>| [line, &b"\n"[..]].concat();
        self.lines.iter().flat_map(closed).collect()
    }

    /// Whether a character stands here that isn't ASCII, and another one in the record's own listing.
    pub fn has_new_letters(&self, own: &[u8; LISTING_LENGTH]) -> bool {
        self.changed(own).any(|(_, _, byte)| !byte.is_ascii())
    }

    /// A sentence about control characters that stand here, and others in the record's own listing, where there are any. 00 is none of
    /// them: it becomes a blank.
    pub fn new_controls(&self, own: &[u8; LISTING_LENGTH]) -> Option<String> {
        let is_new =
            |&(_, _, byte): &(usize, usize, u8)| byte != 0 && char::from(byte).is_control();
        let new: Vec<(usize, usize, u8)> = self.changed(own).filter(is_new).collect();
        let &(line, column, byte) = new.first()?;
        let first = named(char::from(byte));
        Some(match new.len() {
            1 => format!("a control character came onto a card: line {line}, column {column} is {first}"),
            count => format!(
                "{count} control characters came onto the cards: line {line}, column {column} is {first}, and so on"
            ),
        })
    }

    /// The bytes that are other ones in the record's own listing, with their lines and columns.
    fn changed<'a>(
        &'a self,
        own: &'a [u8; LISTING_LENGTH],
    ) -> impl Iterator<Item = (usize, usize, u8)> + 'a {
        let pairs = self.lines.iter().zip(lines(own)).zip(1..);
        pairs.flat_map(|((line, own), number)| {
            let columns = line.iter().zip(own).zip(1..);
            columns
                .filter(|((byte, own), _)| byte != own)
                .map(move |((&byte, _), column)| (number, column, byte))
        })
    }
}

/// Takes the bytes of a file as a listing. What an editor does at the ends of lines is mended; a line of more than 80 columns, and another
/// count of lines than 40, are left for the library to refuse. The error says where a character stands that can't be taken. In ISO 8859-1 40
/// lines of 80 characters are taken as they are, unless all end in a carriage return and not all do in the record's own listing: an editor
/// left 79 characters and CR LF.
pub fn edited(
    file: &[u8],
    encoding: Encoding,
    own: &[u8; LISTING_LENGTH],
) -> Result<Edited, String> {
    let (mut mended, mut filled) = (Vec::new(), Vec::new());
    let returns = |listing: &[u8; LISTING_LENGTH]| lines(listing).all(|line| line.ends_with(b"\r"));
    let as_it_is = |listing: &&[u8; LISTING_LENGTH]| {
        encoding == Encoding::Latin1 && (!returns(listing) || returns(own))
    };
    let lines: Vec<Vec<u8>> = match exact(file).filter(as_it_is) {
        Some(listing) => lines(listing).map(<[u8]>::to_vec).collect(),
        None => {
            let text = text_of(file, encoding, &mut mended)?;
            lines_of(&text, encoding, &mut mended, &mut filled)?
        }
    };
    match lines.iter().flatten().filter(|&&byte| byte == 0x00).count() {
        0 => {}
        1 => mended.push("a character 00 became a blank".to_string()),
        nulls => mended.push(format!("{nulls} characters 00 became blanks")),
    }
    let filled = filled.len();
    Ok(Edited {
        lines,
        mended,
        filled,
    })
}

/// Whether a file is UTF-8 and not ASCII alone, which text in ISO 8859-1 hardly ever is.
pub fn is_utf8(file: &[u8]) -> bool {
    !file.is_ascii() && std::str::from_utf8(file).is_ok()
}

/// A file that is 40 lines of 80 characters, each closed by 0A.
pub fn exact(file: &[u8]) -> Option<&[u8; LISTING_LENGTH]> {
    let closed = file
        .chunks(COLUMNS + 1)
        .all(|line| line.get(COLUMNS) == Some(&b'\n'));
    file.try_into().ok().filter(|_| closed)
}

/// The text of a file.
fn text_of(file: &[u8], encoding: Encoding, mended: &mut Vec<String>) -> Result<String, String> {
    if UTF_16_MARKS.iter().any(|mark| file.starts_with(mark)) {
        return Err("the file is UTF-16, which isn't taken: save it as UTF-8".to_string());
    }
    if encoding == Encoding::Latin1 {
        return Ok(file.iter().map(|&byte| char::from(byte)).collect());
    }
    let unmarked = file.strip_prefix(BYTE_ORDER_MARK);
    if unmarked.is_some() {
        mended.push("the byte order mark was dropped".to_string());
    }
    let text = unmarked.unwrap_or(file);
    String::from_utf8(text.to_vec()).map_err(|e| {
        let (before, rest) = text.split_at(e.utf8_error().valid_up_to());
        let before = String::from_utf8_lossy(before);
        format!(
            "line {}, column {} is the byte {:02X}, which isn't UTF-8; --latin1 takes a listing in ISO 8859-1",
            before.matches('\n').count() + 1,
            before.chars().rev().take_while(|&c| c != '\n').count() + 1,
            rest[0]
        )
    })
}

/// The lines of a text, of at least 80 columns each, and which of them were filled.
fn lines_of(
    text: &str,
    encoding: Encoding,
    mended: &mut Vec<String>,
    filled: &mut Vec<usize>,
) -> Result<Vec<Vec<u8>>, String> {
    let mut rows: Vec<&str> = text.split('\n').collect();
    let unclosed = rows.pop().filter(|row| !row.is_empty());
    let without_return: Option<Vec<&str>> = rows.iter().map(|row| row.strip_suffix('\r')).collect();
    if let Some(without_return) = without_return {
        rows = without_return;
        mended.push("CR LF was taken as the end of each line".to_string());
    }
    if unclosed.is_some() {
        mended.push("a line feed was put at the end".to_string());
    }
    rows.extend(unclosed);
    let behind = rows.iter().skip(COUNT);
    if behind.clone().all(|row| row.trim_matches(' ').is_empty()) {
        match behind.count() {
            0 => {}
            1 => mended.push("a blank line at the end was dropped".to_string()),
            blank => mended.push(format!("{blank} blank lines at the end were dropped")),
        }
        rows.truncate(COUNT);
    }
    let (mut lines, mut cut) = (Vec::new(), Vec::new());
    for (row, number) in rows.into_iter().zip(1..) {
        let mut line = Vec::new();
        for character in row.chars() {
            let at = |wrong| format!("line {number}, column {} is {wrong}", line.len() + 1);
            let byte = byte_of(character, encoding).map_err(at)?;
            // There the library would take it for the end of the line.
            if byte == b'\n' && line.len() >= COLUMNS {
                return Err(at(format!("{}, beyond column 80", named(character))));
            }
            line.push(byte);
        }
        if line.len() < COLUMNS {
            filled.push(number);
            line.resize(COLUMNS, b' ');
        }
        if line.len() > COLUMNS && line[COLUMNS..].iter().all(|&byte| byte == b' ') {
            cut.push(number);
            line.truncate(COLUMNS);
        }
        lines.push(line);
    }
    for (numbers, what) in [
        (&*filled, "filled with blanks to column 80"),
        (&cut, "cut after column 80, where blanks stood"),
    ] {
        if !numbers.is_empty() {
            let were = numbered("line", numbers, ["was", "were"]);
            mended.push(format!("{were} {what}"));
        }
    }
    Ok(lines)
}

/// Lines or cards by their numbers, and the verb for one or for more of them: "lines 1 to 3, 7 were".
pub fn numbered(what: &str, numbers: &[usize], verbs: [&str; 2]) -> String {
    let run = |run: &[usize]| match run {
        [first, .., last] => format!("{first} to {last}"),
        _ => run[0].to_string(),
    };
    let runs: Vec<String> = numbers.chunk_by(|a, b| a + 1 == *b).map(run).collect();
    match numbers {
        [one] => format!("{what} {one} {}", verbs[0]),
        _ => format!("{what}s {} {}", runs.join(", "), verbs[1]),
    }
}

#[cfg(test)]
mod tests {
    use super::*;

    /// Every byte is shown as a character of its own that is no control character, and comes back.
    #[test]
    fn bytes_and_characters() {
        for byte in 0..=255 {
            let character = shown(byte);
            assert!(!character.is_control());
            assert_eq!(byte_of(character, Encoding::Utf8), Ok(byte));
        }
        let back = |c: &char| byte_of(*c, Encoding::Utf8).is_ok();
        assert_eq!(('\0'..=char::MAX).filter(back).count(), 256);
    }

    #[test]
    fn numbers() {
        let verbs = ["differs", "differ"];
        assert_eq!(numbered("card", &[7], verbs), "card 7 differs");
        assert_eq!(
            numbered("card", &[1, 2, 3, 5, 39, 40], verbs),
            "cards 1 to 3, 5, 39 to 40 differ"
        );
    }
}
