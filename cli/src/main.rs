//! The command `aukpocket`: reels into records, records into reels, what they hold, and the order of records.

mod cards;
mod codes;
mod compare;
mod fields;
mod files;
mod forms;
mod help;
mod kinds;
mod layout;
mod left_out;
mod listing;
mod not_normal;
mod order;
mod refusals;
mod rounding;
mod scalars;
mod sha256;
mod sort;
mod system;
mod trouble;

use aukpocket::{
    list_cards, look_up, read_reel, record_length, take_cards, write_nearest, write_reel,
    NearestWritten, ReelRead, Refusal, Taken, CODES,
};
use files::{step, Target};
use kinds::{is_record, is_reel, record_fault, reel_fault};
use layout::{Layout, RecordShape, Shape};
use listing::Encoding;
use not_normal::NotNormal;
use rounding::Rounding;
use std::cmp::Ordering;
use std::env;
use std::ffi::{OsStr, OsString};
use std::fmt::Write as _;
use std::io::{self, ErrorKind, IsTerminal, Write};
use std::os::unix::ffi::OsStrExt;
use std::path::Path;
use std::process::ExitCode;
use std::str::FromStr;
use trouble::Trouble;

/// The cards that `info` shows unless told otherwise.
const FIRST_CARDS: usize = 5;

/// What stands on the command line after the command's name.
struct Words {
    words: Vec<OsString>,
    force: bool,
    layout: Layout,
    writing: Writing,
    cards: usize,
    encoding: Option<Encoding>,
}

/// How the samples of a record are written.
#[derive(Clone, Copy, PartialEq, Eq)]
enum Writing {
    /// Each as the value that it is, or not at all.
    Exact,
    /// Each as the nearest value of the code.
    Nearest,
}

impl Writing {
    /// Writes a record as a reel. Exact writing changes no sample.
    fn write(self, record: &[u8], code: u32, reel: &mut [u8]) -> Result<NearestWritten, Refusal> {
        match self {
            Writing::Nearest => write_nearest(record, code, reel),
            Writing::Exact => {
                let Taken {
                    traces,
                    samples,
                    length,
                } = write_reel(record, code, reel)?;
                Ok(NearestWritten {
                    traces,
                    samples,
                    length,
                    changed: 0,
                })
            }
        }
    }
}

impl Words {
    fn path(&self, i: usize) -> &Path {
        Path::new(&self.words[i])
    }

    /// Takes an option that says how a listing is encoded.
    fn set_encoding(&mut self, encoding: Encoding) -> Result<(), String> {
        match self.encoding.replace(encoding) {
            Some(other) if other != encoding => {
                Err("it takes --utf8 or --latin1, not both".to_string())
            }
            _ => Ok(()),
        }
    }

    /// A word that has to be a number.
    fn number<T: FromStr>(&self, i: usize, what: &str) -> Result<T, Trouble> {
        parse(&self.words[i]).ok_or_else(|| {
            Trouble::usage(format!(
                "{what} has to be a number, and `{}` is none, or is too large",
                self.words[i].to_string_lossy()
            ))
        })
    }
}

/// A command: its name, the words that it takes, the last words that may be left out together, whether its last word may be followed by any
/// number of its kind, the options that it knows, its help and its work.
struct Command {
    name: &'static str,
    words: &'static [&'static str],
    optional: &'static [&'static str],
    many: bool,
    options: &'static [&'static str],
    help: fn() -> String,
    run: fn(&Words) -> Result<(), Trouble>,
}

static COMMANDS: [Command; 9] = [
    Command {
        name: "read",
        words: &["REEL", "RECORD"],
        optional: &[],
        many: false,
        options: &["--eagle", "--force"],
        help: help::read,
        run: read,
    },
    Command {
        name: "write",
        words: &["RECORD", "CODE", "REEL"],
        optional: &[],
        many: false,
        options: &["--nearest", "--force"],
        help: help::write,
        run: write,
    },
    Command {
        name: "look",
        words: &["REEL", "TRACE", "BYTE"],
        optional: &[],
        many: false,
        options: &[],
        help: help::look,
        run: look,
    },
    Command {
        name: "info",
        words: &["FILE"],
        optional: &[],
        many: false,
        options: &["--cards"],
        help: help::info,
        run: info,
    },
    Command {
        name: "cards",
        words: &["RECORD"],
        optional: &["LISTING", "NEWRECORD"],
        many: false,
        options: &["--utf8", "--latin1", "--force"],
        help: help::cards,
        run: cards,
    },
    Command {
        name: "verify",
        words: &["REEL"],
        optional: &["RECORD"],
        many: false,
        options: &["--eagle"],
        help: help::verify,
        run: verify,
    },
    Command {
        name: "compare",
        words: &["RECORD", "RECORD"],
        optional: &[],
        many: false,
        options: &[],
        help: help::compare,
        run: compare,
    },
    Command {
        name: "sort",
        words: &["RECORD"],
        optional: &[],
        many: true,
        options: &[],
        help: help::sort,
        run: sort,
    },
    Command {
        name: "check",
        words: &[],
        optional: &[],
        many: false,
        options: &["--eagle"],
        help: help::check,
        run: check,
    },
];

fn main() -> ExitCode {
    system::prepare();
    match run(env::args_os().skip(1).collect()) {
        Ok(()) => ExitCode::SUCCESS,
        Err(trouble) => {
            if !trouble.sentence.is_empty() {
                let _ = writeln!(io::stderr(), "aukpocket: {}", trouble.sentence);
            }
            ExitCode::from(trouble.status)
        }
    }
}

fn run(arguments: Vec<OsString>) -> Result<(), Trouble> {
    let Some((first, rest)) = arguments.split_first() else {
        return Err(Trouble::usage(
            "a command is missing; see `aukpocket --help`",
        ));
    };
    match first.to_str() {
        Some("--help" | "-h" | "help") => {
            let named = rest.first().and_then(|word| found(word));
            return match named {
                Some(command) => print(&(command.help)()),
                None => print(&help::all()),
            };
        }
        Some("--version") => return print(concat!("aukpocket ", env!("CARGO_PKG_VERSION"), "\n")),
        _ => {}
    }
    let Some(command) = found(first) else {
        return Err(Trouble::usage(format!(
            "there is no command `{}`; see `aukpocket --help`",
            first.to_string_lossy()
        )));
    };
    match take_words(command, rest)? {
        Some(words) => (command.run)(&words),
        None => print(&(command.help)()),
    }
}

/// The command of that name.
fn found(word: &OsStr) -> Option<&'static Command> {
    COMMANDS.iter().find(|command| word == command.name)
}

/// Takes a command's words and options apart. None where its help is asked for.
fn take_words(command: &Command, arguments: &[OsString]) -> Result<Option<Words>, Trouble> {
    let wrong = |what: String| {
        let name = command.name;
        Trouble::usage(format!("{name}: {what}; see `aukpocket {name} --help`"))
    };
    let mut taken = Words {
        words: Vec::new(),
        force: false,
        layout: Layout::Plain,
        writing: Writing::Exact,
        cards: FIRST_CARDS,
        encoding: None,
    };
    let mut options = true;
    let mut arguments = arguments.iter();
    while let Some(argument) = arguments.next() {
        match argument.to_str() {
            Some("--") if options => options = false,
            Some("--help" | "-h") if options => return Ok(None),
            Some(option)
                if options && option.starts_with("--") && !command.options.contains(&option) =>
            {
                return Err(wrong(format!("there is no option `{option}`")));
            }
            Some("--force") if options => taken.force = true,
            Some("--eagle") if options => taken.layout = Layout::Eagle,
            Some("--nearest") if options => taken.writing = Writing::Nearest,
            Some("--utf8") if options => taken.set_encoding(Encoding::Utf8).map_err(wrong)?,
            Some("--latin1") if options => taken.set_encoding(Encoding::Latin1).map_err(wrong)?,
            Some("--cards") if options => {
                taken.cards = arguments
                    .next()
                    .and_then(|count| parse(count))
                    .filter(|&count| count <= cards::COUNT)
                    .ok_or_else(|| wrong("--cards wants a number from 0 to 40".to_string()))?;
            }
            _ => taken.words.push(argument.clone()),
        }
    }
    let least = command.words.len();
    let most = least + command.optional.len();
    let count = taken.words.len();
    if count != least && count != most && !(command.many && count > most) {
        return Err(wrong(match (command.words, command.optional) {
            ([], _) => "it takes no words".to_string(),
            (words, []) if command.many => format!("it takes {}..", words.join(" ")),
            (words, []) => format!("it takes {}", words.join(" ")),
            (words, optional) => format!("it takes {} [{}]", words.join(" "), optional.join(" ")),
        }));
    }
    Ok(Some(taken))
}

/// A number without a sign.
fn parse<T: FromStr>(word: &OsStr) -> Option<T> {
    let word = word.to_str()?;
    if word.starts_with('+') {
        return None;
    }
    word.parse().ok()
}

/// Whether a word looks like a number, though it may be none that can be had: -1, or one that is too large.
fn is_number(word: &OsStr) -> bool {
    let word = word.to_string_lossy();
    let digits = word.trim_start_matches(['-', '+']);
    !digits.is_empty() && digits.bytes().all(|byte| byte.is_ascii_digit())
}

/// Says what was done, once it is done: that nobody reads it is no trouble then.
fn tell(text: &str) -> Result<(), Trouble> {
    tell_bytes(text.as_bytes())
}

fn tell_bytes(bytes: &[u8]) -> Result<(), Trouble> {
    match print_bytes(bytes) {
        Err(trouble) if trouble.sentence.is_empty() => Ok(()),
        told => told,
    }
}

/// Prints to standard output. Where its reader has gone there is nobody left to tell.
fn print(text: &str) -> Result<(), Trouble> {
    print_bytes(text.as_bytes())
}

fn print_bytes(bytes: &[u8]) -> Result<(), Trouble> {
    let mut output = io::stdout().lock();
    output
        .write_all(bytes)
        .and_then(|()| output.flush())
        .map_err(|e| match e.kind() {
            ErrorKind::BrokenPipe => Trouble::file(""),
            _ => Trouble::file(format!("standard output: can't be written: {e}")),
        })
}

/// Warns of what the record of a reel that was taken leaves out, and of another meaning that the reel has in the other layout.
fn warn_of_reel(reel: &[u8], layout: Layout, name: &str) {
    warn_of_left_out(reel, layout, name);
    if let Some(also) = kinds::also(reel, layout) {
        warn(name, &format!("it is also {also}"));
    }
}

/// Warns of what the record of a reel that was taken leaves out.
fn warn_of_left_out(reel: &[u8], layout: Layout, name: &str) {
    for sentence in left_out::warnings(reel, layout) {
        warn(name, &sentence);
    }
}

/// Warns of something about a file; the exit status stays as it is.
fn warn(name: &str, sentence: &str) {
    let _ = writeln!(io::stderr(), "aukpocket: warning: {name}: {sentence}");
}

/// Traces and samples, for people.
fn extent(traces: u64, samples: u64) -> String {
    let s = |count| if count == 1 { "" } else { "s" };
    format!(
        "{traces} trace{} of {samples} sample{}",
        s(traces),
        s(samples)
    )
}

/// The traces and samples of a reel that was read, and of which layout it is where that was asked for.
fn extent_of(read: ReelRead, layout: Layout) -> String {
    let extent = extent(read.traces, read.samples);
    match layout {
        Layout::Plain => extent,
        Layout::Eagle => format!("{}, {extent}", layout.named().0),
    }
}

/// How many words aren't normal, behind what joins it to a sentence; nothing where there is nothing to tell.
fn joined(before: &str, counted: Option<NotNormal>) -> String {
    counted.map_or(String::new(), |counted| format!("{before}{counted}"))
}

/// The record of a reel, and what reading answers. Its length is worked out from the reel's header; where that can't be, the library tells
/// it.
fn record_of(reel: &[u8], layout: Layout, name: &str) -> Result<(Vec<u8>, ReelRead), Trouble> {
    let mut room = Shape::of_reel(reel, layout).record_length();
    loop {
        step(format_args!("making the record of {name}"), room);
        let mut record = files::buffer(room, format_args!("{name}: its record"))?;
        match layout.read(reel, &mut record) {
            Ok(read) => {
                record.truncate(read.length);
                return Ok((record, read));
            }
            Err(Refusal { number: 10, beside }) if beside > room => room = beside,
            Err(refusal) => {
                return Err(Trouble::refused(
                    name,
                    refusals::of_reel(reel, layout, refusal),
                ));
            }
        }
    }
}

/// The reel of a record under a code; or the refusal, in the inner result.
fn reel_of(
    record: &[u8],
    code: u32,
    writing: Writing,
    name: &str,
) -> Result<Result<(Vec<u8>, NearestWritten), Refusal>, Trouble> {
    let mut room = RecordShape::of(record).reel_length(code);
    loop {
        step(
            format_args!("making the reel of {name} in code {code}"),
            room,
        );
        let mut reel = files::buffer(room, format_args!("{name}: its reel"))?;
        match writing.write(record, code, &mut reel) {
            Ok(written) => {
                reel.truncate(written.length);
                return Ok(Ok((reel, written)));
            }
            Err(Refusal { number: 10, beside }) if beside > room => room = beside,
            Err(refusal) => return Ok(Err(refusal)),
        }
    }
}

/// The record of a reel that was written from one of so many traces and samples a trace, and what reading answers; or the refusal, in the
/// inner result. It has the new form, and so is longer than one that hadn't.
fn read_again(
    reel: &[u8],
    code: u32,
    (traces, samples): (u64, u64),
    name: &str,
) -> Result<Result<(Vec<u8>, ReelRead), Refusal>, Trouble> {
    let length = record_length(traces, samples).unwrap_or(0);
    let mut back = files::buffer(length, format_args!("{name}: a second record"))?;
    step(
        format_args!("reading the reel in code {code} again"),
        reel.len() as u64,
    );
    Ok(read_reel(reel, &mut back).map(|read| (back, read)))
}

fn read(words: &Words) -> Result<(), Trouble> {
    let (from, to) = (words.path(0), words.path(1));
    let target = Target::new(to, words.force, &[from])?;
    let reel = files::load(from)?;
    let name = from.display().to_string();
    let (record, read) = record_of(&reel, words.layout, &name)?;
    target.put(&record)?;
    warn_of_reel(&reel, words.layout, &name);
    tell(&format!(
        "{name}: {}{}; {}: its record, {} bytes\n",
        extent_of(read, words.layout),
        joined(", ", NotNormal::of(&reel, read)),
        to.display(),
        read.length
    ))
}

fn write(words: &Words) -> Result<(), Trouble> {
    let (from, to) = (words.path(0), words.path(2));
    let code = words.number(1, "CODE")?;
    let target = Target::new(to, words.force, &[from])?;
    let record = files::load(from)?;
    let name = from.display().to_string();
    let (reel, written) = reel_of(&record, code, words.writing, &name)?
        .map_err(|refusal| Trouble::refused(&name, refusals::of_writing(&record, code, refusal)))?;
    let rounding = match words.writing {
        Writing::Exact => None,
        Writing::Nearest => Some(rounding_of(&record, &reel, code, written, &name)?),
    };
    target.put(&reel)?;
    let to = to.display().to_string();
    let extent = extent(written.traces, written.samples);
    let length = written.length;
    let Some(rounding) = rounding else {
        return tell(&format!(
            "{name}: {extent}; {to}: its reel in code {code}, {length} bytes\n"
        ));
    };
    if let Some(sentence) = rounding.beyond() {
        warn(&to, &sentence);
    }
    let mut text = format!(
        "{name}: {extent}; {to}: its reel in code {code} by nearest values, {length} bytes; {}\n",
        rounding.count()
    );
    if let Some(largest) = rounding.largest() {
        let _ = writeln!(text, "{largest}; keep {name}, which {to} doesn't give back");
    }
    tell(&text)
}

/// What nearest writing did to the samples. The written reel is read again, which gives its exact values, and they are compared with the
/// record's: so the record, the reel and a second record are in memory together. What is found has to be what was counted. This is done
/// before the reel has its name: one that isn't what it should be never gets it.
fn rounding_of(
    record: &[u8],
    reel: &[u8],
    code: u32,
    written: NearestWritten,
    name: &str,
) -> Result<Rounding, Trouble> {
    let differs = |what: String| {
        Trouble::differs(format!(
            "{name}: came back otherwise in code {code}: {what}; nothing was written; report this"
        ))
    };
    let (back, read) = read_again(reel, code, (written.traces, written.samples), name)?
        .map_err(|refusal| differs(refusals::of_reel(reel, Layout::Plain, refusal)))?;
    if read.not_normal != 0 {
        let count = read.not_normal;
        return Err(differs(format!("{count} of its words aren't normal")));
    }
    let rounding = Rounding::of(record, &back, code)
        .ok_or_else(|| differs("the records differ in more than samples".to_string()))?;
    match rounding.changed() {
        changed if changed == written.changed => Ok(rounding),
        changed => Err(differs(format!(
            "{changed} samples changed, and {} were counted",
            written.changed
        ))),
    }
}

fn look(words: &Words) -> Result<(), Trouble> {
    let path = words.path(0);
    let trace: usize = words.number(1, "TRACE")?;
    let byte_number = match parse(&words.words[2]) {
        Some(byte_number) => byte_number,
        None if is_number(&words.words[2]) => words.number(2, "BYTE")?,
        None => named(trace, &words.words[2].to_string_lossy())?,
    };
    let reel = files::load(path)?;
    let value = look_up(&reel, trace, byte_number).map_err(|refusal| {
        Trouble::refused(
            path.display(),
            refusals::of_look_up(&reel, trace, byte_number, refusal),
        )
    })?;
    print(&format!("{value}\n"))
}

/// The byte number of a field that is given by its name.
fn named(trace: usize, name: &str) -> Result<u32, Trouble> {
    let (this, other) = match trace {
        0 => (
            "the binary header (trace 0)",
            "a trace header (trace 1 and on)",
        ),
        _ => (
            "a trace header (trace 1 and on)",
            "the binary header (trace 0)",
        ),
    };
    fields::byte_number(fields::header(trace), name).ok_or_else(|| {
        let elsewhere = fields::byte_number(fields::header(usize::from(trace == 0)), name);
        Trouble::usage(match elsewhere {
            Some(_) => format!("look: `{name}` is a field of {other}, not of {this}"),
            None => {
                format!("look: no field of {this} is called `{name}`; see `aukpocket look --help`")
            }
        })
    })
}

fn info(words: &Words) -> Result<(), Trouble> {
    let path = words.path(0);
    let bytes = files::load(path)?;
    let name = path.display().to_string();
    if is_record(&bytes) {
        info_of_record(&bytes, &name, words.cards)
    } else {
        info_of_reel(&bytes, &name, words.cards)
    }
}

fn info_of_reel(reel: &[u8], name: &str, cards: usize) -> Result<(), Trouble> {
    let (layout, refusal) = kinds::judged(reel);
    // Words are counted in reading alone, so the record is made, and dropped. In the other codes there is nothing to count.
    let counted = match refusal {
        None if layout::code_of(reel) == 1 => {
            record_of(reel, layout, name).map(|(_, read)| NotNormal::of(reel, read))
        }
        _ => Ok(None),
    };
    let kind = match (refusal, layout) {
        (None, Layout::Plain) => "reel",
        (None, Layout::Eagle) => "Eagle reel, which `read --eagle` takes",
        (Some(Refusal { number: 1, .. }), _) => "neither a record nor as long as a reel",
        (Some(_), _) => "no record, and refused as a reel; its headers as they stand:",
    };
    let mut text = format!("file      {name}, {} bytes\nkind      {kind}\n", reel.len());
    if reel.len() >= layout::HEADERS {
        let shape = Shape::of_reel(reel, layout);
        // Without a code and samples a trace within their limits there are no traces to count.
        if !matches!(refusal, Some(Refusal { number: 2 | 3, .. })) {
            let _ = writeln!(text, "traces    {}", shape.traces);
        }
        let _ = writeln!(text, "samples   {} a trace", shape.samples as i16);
        let _ = writeln!(text, "interval  {} microseconds", shape.interval as i16);
        let _ = writeln!(
            text,
            "code      {}{}",
            shape.code as i16,
            codes::name(shape.code.into())
        );
        if let Ok(Some(counted)) = &counted {
            let _ = writeln!(text, "words     {}", counted.without_noun());
        }
        if refusal.is_none() {
            let _ = writeln!(text, "record    {} bytes", shape.record_length());
            if let Some(also) = kinds::also(reel, layout) {
                let _ = writeln!(text, "also      {also}");
            }
        }
        let mut card_bytes = reel[..layout::CARDS].to_vec();
        if layout == Layout::Eagle {
            card_bytes[layout::CHECK_PLACE..].fill(0); // which is shown as blanks
        }
        add_cards(&mut text, &card_bytes, cards);
    }
    print(&text)?;
    match refusal {
        None => {
            warn_of_left_out(reel, layout, name);
            if let Err(trouble) = counted {
                warn(
                    &trouble.sentence,
                    "its words that aren't normal weren't counted",
                );
            }
            Ok(())
        }
        Some(refusal) => Err(Trouble::refused(
            name,
            refusals::of_reel(reel, layout, refusal),
        )),
    }
}

fn info_of_record(record: &[u8], name: &str, cards: usize) -> Result<(), Trouble> {
    let tried = CODES.map(|code| (code.number, write_reel(record, code.number, &mut [])));
    let refusal = record_fault(tried[0].1);
    let kind = match refusal {
        None => "record",
        Some(_) => "record, refused; its headers as they stand:",
    };
    let mut text = format!(
        "file      {name}, {} bytes\nkind      {kind}\n",
        record.len()
    );
    if record.len() >= layout::FIRST_TRACE {
        let shape = RecordShape::of(record);
        let _ = writeln!(text, "traces    {}", shape.traces);
        let _ = writeln!(text, "samples   {} a trace", shape.samples as i16);
        if let (None, Some(form)) = (refusal, forms::told(record)) {
            let _ = writeln!(text, "form      {form}");
        }
        let _ = writeln!(text, "interval  {} microseconds", shape.interval as i16);
        if refusal.is_none() {
            text.push_str("code      none: a record has exact values\n");
            for (code, answer) in tried {
                match answer {
                    Err(Refusal { number: 10, beside }) => {
                        let _ =
                            writeln!(text, "code {code}    holds it, as a reel of {beside} bytes");
                    }
                    _ => {
                        let _ = writeln!(text, "code {code}    doesn't hold it");
                    }
                }
            }
        }
        add_cards(&mut text, &record[layout::TAG..layout::BINARY], cards);
    }
    print(&text)?;
    match refusal {
        None => Ok(()),
        Some(refusal) => Err(Trouble::refused(
            name,
            refusals::of_record(record, 1, refusal),
        )),
    }
}

fn add_cards(text: &mut String, bytes: &[u8], count: usize) {
    if count > 0 {
        let _ = writeln!(text, "cards     {count} of {}", cards::COUNT);
        text.push_str(&cards::text(bytes, count));
    }
}

fn cards(words: &Words) -> Result<(), Trouble> {
    match words.words.len() {
        1 => print_cards(words),
        _ => put_cards(words),
    }
}

/// Prints the listing of a record's cards: as the terminal's own text, unless told which encoding.
fn print_cards(words: &Words) -> Result<(), Trouble> {
    let path = words.path(0);
    if words.force {
        return Err(Trouble::usage(
            "cards: --force is for a NEWRECORD; see `aukpocket cards --help`",
        ));
    }
    if words.encoding == Some(Encoding::Latin1) && io::stdout().is_terminal() {
        return Err(Trouble::usage(
            "cards: --latin1 gives control characters as they are, which a terminal would obey; \
             send it to a file, or give --utf8",
        ));
    }
    let record = files::load(path)?;
    let name = path.display().to_string();
    let listing = list_cards(&record)
        .map_err(|refusal| Trouble::refused(&name, refusals::of_record(&record, 1, refusal)))?;
    match words.encoding {
        Some(Encoding::Latin1) => print_bytes(&listing),
        Some(Encoding::Utf8) => print(&listing::utf8(&listing)),
        None => {
            let (text, others) = listing::in_locale(listing::utf8(&listing));
            print(&text)?;
            if let Some(sentence) = listing::not_shown(others) {
                warn(&name, &sentence);
            }
            Ok(())
        }
    }
}

/// Writes a record with the cards of a listing that was edited.
fn put_cards(words: &Words) -> Result<(), Trouble> {
    let (from, edited, to) = (words.path(0), words.path(1), words.path(2));
    let Some(encoding) = words.encoding else {
        return Err(Trouble::usage(
            "cards: how LISTING is encoded is never guessed: give --utf8 for UTF-8, or --latin1 for ISO 8859-1",
        ));
    };
    let target = Target::new(to, words.force, &[from, edited])?;
    let file = files::load(edited)?;
    let record = files::load(from)?;
    let (listing_name, name) = (edited.display().to_string(), from.display().to_string());
    let is_utf8_too = encoding == Encoding::Latin1 && listing::is_utf8(&file);
    let wrong = |fault: String| {
        let kind = match &file {
            file if is_record(file) => "is a record, not a listing: ",
            file if is_reel(file) => "is a reel, not a listing: ",
            _ => "",
        };
        let hint = match is_utf8_too {
            true => "; the file is UTF-8, which --utf8 takes",
            false => "",
        };
        format!("{kind}{fault}{hint}")
    };
    let own = cards::listing_of(record.get(layout::TAG..layout::BINARY).unwrap_or(&[]));
    let listing = listing::edited(&file, encoding, &own)
        .map_err(|fault| Trouble::file(format!("{listing_name}: {}", wrong(fault))))?;
    if is_utf8_too && listing.has_new_letters(&own) {
        return Err(Trouble::file(format!(
            "{listing_name}: the file is UTF-8, which --utf8 takes; as ISO 8859-1 it would have other characters"
        )));
    }
    step(
        format_args!("giving {name} the cards of {listing_name}"),
        record.len() as u64,
    );
    let mut new = files::buffer(record.len() as u64, to.display())?;
    let taken = take_cards(&record, &listing.bytes(), &mut new).map_err(|refusal| match refusal
        .number
    {
        17 => Trouble::refused(
            &listing_name,
            wrong(refusals::of_listing(&listing, refusal)),
        ),
        _ => Trouble::refused(&name, refusals::of_record(&record, 1, refusal)),
    })?;
    target.put(&new[..taken.length])?;
    if !listing.mended.is_empty() {
        let _ = writeln!(
            io::stderr(),
            "aukpocket: {listing_name}: {}",
            listing.mended.join("; ")
        );
    }
    // In UTF-8 no control character comes in unasked.
    if encoding == Encoding::Latin1 {
        if let Some(sentence) = listing.new_controls(&own) {
            warn(&listing_name, &sentence);
        }
    }
    let card = |i: usize| layout::TAG + cards::COLUMNS * i..layout::TAG + cards::COLUMNS * (i + 1);
    let differing: Vec<usize> = (0..cards::COUNT)
        .filter(|&i| record[card(i)] != new[card(i)])
        .map(|i| i + 1)
        .collect();
    tell(&format!(
        "{name}: {}; {}: the record with the cards of {listing_name}, {} bytes; {}\n",
        extent(taken.traces, taken.samples),
        to.display(),
        taken.length,
        match differing[..] {
            [] => "no card differs".to_string(),
            _ => listing::numbered("card", &differing, ["differs", "differ"]),
        }
    ))
}

fn verify(words: &Words) -> Result<(), Trouble> {
    match words.words.len() {
        1 => verify_reel(words.path(0), words.layout),
        _ => verify_record(words.path(0), words.layout, words.path(1)),
    }
}

/// Compares a record on disk with the record of its reel. All of standard output can be handed to `sha256sum -c`.
fn verify_record(reel_path: &Path, layout: Layout, record_path: &Path) -> Result<(), Trouble> {
    let name = reel_path.display().to_string();
    let record_name = record_path.display().to_string();
    let (mut file, length) = files::open(record_path)?;
    let reel = files::load(reel_path)?;
    let (record, read) = record_of(&reel, layout, &name)?;
    let counted = joined("; on the reel ", NotNormal::of(&reel, read));
    warn_of_reel(&reel, layout, &name);
    step(format_args!("summing {name}"), reel.len() as u64);
    let reel_sum = sha256::sum(&reel);
    drop(reel);
    step(format_args!("comparing {record_name}"), length);
    system::forget(&file);
    let compared = compare::compare(&mut file, &record, &record_name)?;
    let difference =
        compare::difference(record, &compared).map(|difference| with_kind(record_path, difference));
    let earlier = forms::in_earlier(compared.earlier.len(), read.traces as usize);
    let said = match (&difference, &earlier) {
        (Some(_), _) => "is NOT the record of".to_string(),
        (None, None) => "is the record, byte for byte, of".to_string(),
        (None, Some(form)) => {
            let same = format!("it holds what the reel's record holds, {form}");
            let new = format!("`read` gives the new form, {} bytes", read.length);
            warn(&record_name, &format!("{same}; {new}"));
            format!("is the record, {form}, of")
        }
    };
    let length = match difference {
        None => compared.length,
        Some(_) => read.length as u64,
    };
    let mut text = b"# ".to_vec();
    text.extend(listed(record_path).1);
    text.extend(format!(" {said} ").as_bytes());
    text.extend(listed(reel_path).1);
    text.extend(format!(": {}, {length} bytes{counted}\n", extent_of(read, layout)).as_bytes());
    for (sum, path) in [(reel_sum, reel_path), (compared.sum, record_path)] {
        let (escaped, name) = listed(path);
        text.extend(format!("{}{sum}  ", if escaped { "\\" } else { "" }).as_bytes());
        text.extend(name);
        text.push(b'\n');
    }
    print_bytes(&text)?;
    match difference {
        None => Ok(()),
        Some(difference) => Err(Trouble::differs(format!(
            "{record_name}: isn't the record of {name}: {difference}; keep the tape"
        ))),
    }
}

/// What is wrong with a file that isn't the record it should be: its difference; where it is refused at a scalar, as earlier records are,
/// that too; or else that it is a reel. Of one that can't be read twice there is the difference alone.
fn with_kind(path: &Path, difference: String) -> String {
    let bytes = match path.is_file() {
        true => files::load(path).unwrap_or_default(),
        false => Vec::new(),
    };
    if is_reel(&bytes) {
        return "it is a reel, not a record".to_string();
    }
    match record_fault(write_reel(&bytes, 1, &mut [])) {
        Some(refusal) if refusals::is_at_scalar(&bytes, refusal) => {
            let refused = refusals::of_record(&bytes, 1, refusal);
            format!("{difference}; it is {refused}")
        }
        _ => difference,
    }
}

/// A file's name as `sha256sum` lists it: a name with a line's end or a backslash is escaped, which a backslash before the sum says.
fn listed(path: &Path) -> (bool, Vec<u8>) {
    let bytes = match path.as_os_str().as_bytes() {
        b"-" => b"./-", // the name alone would be standard input
        bytes => bytes,
    };
    let name = escaped(bytes);
    (name != bytes, name)
}

/// A name on one line.
fn escaped(name: &[u8]) -> Vec<u8> {
    let escaped = name.iter().flat_map(|byte| match byte {
        b'\n' => b"\\n".to_vec(),
        b'\r' => b"\\r".to_vec(),
        b'\\' => b"\\\\".to_vec(),
        other => vec![*other],
    });
    escaped.collect()
}

/// Writes a reel's record in each code, as plain reels, and reads it again.
fn verify_reel(path: &Path, layout: Layout) -> Result<(), Trouble> {
    let name = path.display().to_string();
    let reel = files::load(path)?;
    let (record, read) = record_of(&reel, layout, &name)?;
    let own = u32::from(layout::code_of(&reel));
    let counted = NotNormal::of(&reel, read);
    print(&format!(
        "{name}: {} in code {own}, {} bytes{}; its record, {} bytes\n",
        extent_of(read, layout),
        reel.len(),
        joined(", ", counted),
        record.len()
    ))?;
    warn_of_reel(&reel, layout, &name);
    drop(reel);
    let written = match layout {
        Layout::Plain => "written",
        Layout::Eagle => "written as a plain reel",
    };
    let mut holding = Vec::new();
    let mut differences = Vec::new();
    for code in CODES.map(|code| code.number) {
        match again(&record, read, code, &name)? {
            Again::Same(length) => {
                holding.push(code.to_string());
                // `again` has counted the written words too.
                let normal = match counted {
                    Some(counted) if code == own && counted.any() => ", and all words are normal",
                    _ => "",
                };
                print(&format!("code {code}: holds it; {written} ({length} bytes) and read again, the record is the same{normal}\n"))?;
            }
            Again::Refused(sentence) if code != own => {
                print(&format!("code {code}: doesn't hold it; {sentence}\n"))?;
            }
            Again::Refused(sentence) | Again::Differs(sentence) => {
                print(&format!("code {code}: DIFFERENT; {sentence}\n"))?;
                differences.push(code.to_string());
            }
        }
    }
    print(&format!("codes that hold it: {}\n", holding.join(" ")))?;
    if differences.is_empty() {
        Ok(())
    } else {
        Err(Trouble::differs(format!(
            "{name}: came back otherwise in code {}; keep the tape, and report this",
            differences.join(" ")
        )))
    }
}

/// What writing a record and reading it again comes to.
enum Again {
    Same(usize),
    Refused(String),
    Differs(String),
}

/// Writes a record and reads it again. All words of a written reel are normal.
fn again(record: &[u8], read: ReelRead, code: u32, name: &str) -> Result<Again, Trouble> {
    let expected = ReelRead {
        not_normal: 0,
        ..read
    };
    let (reel, written) = match reel_of(record, code, Writing::Exact, name)? {
        Ok(made) => made,
        Err(refusal) if refusal.number == 14 => {
            return Ok(Again::Refused(refusals::of_record(record, code, refusal)));
        }
        Err(refusal) => {
            return Ok(Again::Differs(refusals::of_record(record, code, refusal)));
        }
    };
    let back = read_again(&reel, code, (read.traces, read.samples), name)?;
    Ok(match back {
        Err(refusal) => Again::Differs(refusals::of_reel(&reel, Layout::Plain, refusal)),
        Ok((_, ReelRead { not_normal, .. })) if not_normal != 0 => Again::Differs(format!(
            "{not_normal} words of the written reel aren't normal"
        )),
        Ok((_, found)) if found != expected || written.traces != expected.traces => {
            Again::Differs("the counts of the record differ".to_string())
        }
        Ok((back, _)) if record == back => Again::Same(written.length),
        Ok((back, _)) => {
            let same = record.iter().zip(&back).take_while(|(a, b)| a == b);
            Again::Differs(format!("the records differ from place {} on", same.count()))
        }
    })
}

/// Says which of two records is the lesser, by its exit status too.
fn compare(words: &Words) -> Result<(), Trouble> {
    let paths = [words.path(0), words.path(1)];
    let (order, reason) = order::of_files(paths)?;
    let [first, second] = paths.map(|path| escaped(path.as_os_str().as_bytes()));
    let mut text = first;
    text.extend(format!(" is {} ", order::in_words(order)).as_bytes());
    text.extend(second);
    text.extend(format!(": {reason}\n").as_bytes());
    tell_bytes(&text)?;
    match order {
        Ordering::Equal => Ok(()),
        Ordering::Less => Err(Trouble::answered(4)),
        Ordering::Greater => Err(Trouble::answered(5)),
    }
}

/// Lists records by their names, the least first. All that aren't taken are named, and then there is no list: it would be taken for whole.
fn sort(words: &Words) -> Result<(), Trouble> {
    // The list doesn't depend on the order in which they were named.
    let mut paths: Vec<&Path> = words.words.iter().map(Path::new).collect();
    paths.sort_by_key(|path| path.as_os_str().as_bytes());
    let mut records = Vec::new();
    let mut status = None;
    for path in &paths {
        match sort::Record::of(path) {
            Ok(record) => records.push(record),
            Err(trouble) if trouble.status > 2 => return Err(trouble),
            Err(trouble) => {
                let _ = writeln!(io::stderr(), "aukpocket: {}", trouble.sentence);
                status = Some(status.map_or(trouble.status, |status| trouble.status.min(status)));
            }
        }
    }
    if let Some(status) = status {
        let (faults, all) = (paths.len() - records.len(), paths.len());
        let were = if faults == 1 { "wasn't" } else { "weren't" };
        return Err(Trouble {
            status,
            sentence: format!("sort: {faults} of {all} {were} taken, so there is no list"),
        });
    }
    let mut text = Vec::new();
    for group in sort::sorted(records)? {
        for (i, record) in group.iter().enumerate() {
            text.extend(if i > 0 { &b"= "[..] } else { b"" });
            text.extend(in_list(record.path));
            text.push(b'\n');
        }
    }
    print_bytes(&text)
}

/// A record's name on a line of its own. One that has a line's end or a backslash, or begins as the mark of an equal record does, is escaped,
/// which a backslash before it says.
fn in_list(path: &Path) -> Vec<u8> {
    let bytes = path.as_os_str().as_bytes();
    let name = escaped(bytes);
    match bytes {
        _ if bytes.starts_with(b"= ") => [b"\\\\", &name[..]].concat(),
        _ if name != bytes => [b"\\", &name[..]].concat(),
        _ => name,
    }
}

fn check(words: &Words) -> Result<(), Trouble> {
    let reel = files::load_from(&mut io::stdin().lock(), 0, "standard input")?;
    step("checking standard input", reel.len() as u64);
    match reel_fault(&reel, words.layout) {
        None => {
            let (_, read) = record_of(&reel, words.layout, "standard input")?;
            print(&format!(
                "taken {} {} {} {}\n",
                read.traces, read.samples, read.length, read.not_normal
            ))
        }
        Some(refusal) => {
            print(&format!("refused {} {}\n", refusal.number, refusal.beside))?;
            Err(Trouble::refused(
                "standard input",
                refusals::of_reel(&reel, words.layout, refusal),
            ))
        }
    }
}
