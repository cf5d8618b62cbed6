//! A record on disk against the record of its reel.

use crate::cards;
use crate::forms::{in_earlier, trace_at, traces, with_earlier, Form, SINGLE};
use crate::layout::{number, BINARY, END, FIRST_PAIR, FIRST_TRACE, PAIR, SAMPLES, TAG};
use crate::refusals::{field, pair_value};
use crate::scalars;
use crate::sha256::Sum;
use crate::trouble::Trouble;
use std::fmt::Display;
use std::io::{BufReader, Read};
use std::ops::Range;

/// What is read at a time.
const PIECE: usize = 1 << 20;

/// What is kept of a file from its first difference on: as many bytes as the groups of a trace header have, with their scalars. No other
/// part of a record is as long.
const KEPT: usize = scalars::GROUPS.end - scalars::GROUPS.start;

/// What a file turned out to be beside the bytes that it should have.
pub struct Compared {
    pub sum: String,
    pub length: u64,
    /// How many bytes differ, of those that both have.
    pub differing: u64,
    /// The first place that differs, or at which one of the two has ended, and the file's bytes from there on.
    pub first: Option<(usize, Vec<u8>)>,
    /// The numbers of the traces that have the earlier form in the file. All of the above go by the forms that it has.
    pub earlier: Vec<usize>,
}

/// Reads a file to its end and compares it with a record in the new form. A trace that has the earlier form in the file should have the same
/// samples in that form.
pub fn compare(
    file: &mut impl Read,
    expected: &[u8],
    name: impl Display,
) -> Result<Compared, Trouble> {
    let mut beside = Beside::new(file, name);
    let mut earlier = Vec::new();
    let mut place = 0;
    for trace in traces(expected).filter(|trace| SINGLE.contains(&trace.samples)) {
        let (length, pairs) = (trace.start + SAMPLES + 1, trace.start + FIRST_PAIR);
        beside.take(&expected[place..length])?;
        beside.read(pairs - length)?;
        place = pairs;
        let single = trace.in_form(Form::Earlier).field_at(length).head();
        if beside.piece != single[1..] {
            beside.compare(&expected[length..pairs]);
            continue;
        }
        beside.compare(&single[1..]);
        for field in trace.fields() {
            beside.take(&expected[field.pairs()])?;
        }
        place = trace.end();
        earlier.push(trace.number);
    }
    beside.take(&expected[place..])?;
    beside.end()?;
    Ok(Compared {
        sum: beside.sum.finish(),
        length: beside.length as u64,
        differing: beside.differing,
        first: beside.first,
        earlier,
    })
}

/// A file that is read beside the bytes that it should have: a piece that was read, and what was found so far.
struct Beside<R, N> {
    file: BufReader<R>,
    name: N,
    piece: Vec<u8>,
    ended: bool,
    sum: Sum,
    length: usize,
    differing: u64,
    first: Option<(usize, Vec<u8>)>,
}

impl<R: Read, N: Display> Beside<R, N> {
    fn new(file: R, name: N) -> Beside<R, N> {
        Beside {
            file: BufReader::with_capacity(PIECE, file),
            name,
            piece: Vec::with_capacity(PIECE),
            ended: false,
            sum: Sum::new(),
            length: 0,
            differing: 0,
            first: None,
        }
    }

    /// Reads as many bytes, or what there are.
    fn read(&mut self, count: usize) -> Result<(), Trouble> {
        self.piece.clear();
        if !self.ended {
            self.file
                .by_ref()
                .take(count as u64)
                .read_to_end(&mut self.piece)
                .map_err(|e| Trouble::file(format!("{}: can't be read: {e}", self.name)))?;
        }
        self.ended = self.piece.len() < count;
        Ok(())
    }

    /// Compares what was read with what it should be.
    fn compare(&mut self, expected: &[u8]) {
        let piece = &self.piece;
        self.sum.add(piece);
        if let Some((_, found)) = &mut self.first {
            found.extend(piece.iter().take(KEPT.saturating_sub(found.len())));
        }
        if piece != expected {
            let both = || piece.iter().zip(expected);
            self.differing += both().filter(|(a, b)| a != b).count() as u64;
            if self.first.is_none() {
                let same = both().take_while(|(a, b)| a == b).count();
                let found = piece[same..].iter().take(KEPT).copied().collect();
                self.first = Some((self.length + same, found));
            }
        }
        self.length += piece.len();
    }

    /// Reads as many bytes as there should be, and compares them.
    fn take(&mut self, expected: &[u8]) -> Result<(), Trouble> {
        for expected in expected.chunks(PIECE) {
            self.read(expected.len())?;
            self.compare(expected);
        }
        Ok(())
    }

    /// Reads to the end, where there should be nothing.
    fn end(&mut self) -> Result<(), Trouble> {
        while !self.ended {
            self.read(PIECE)?;
            self.compare(&[]);
        }
        Ok(())
    }
}

/// The first difference in words: where it stands, what the reel's record has there and what the file has. All goes by the forms that the
/// file has, which the record is given.
pub fn difference(record: Vec<u8>, compared: &Compared) -> Option<String> {
    let (place, found) = compared.first.as_ref()?;
    let place = *place;
    let form = in_earlier(compared.earlier.len(), traces(&record).count());
    let form = form.map_or(String::new(), |form| format!(", {form}"));
    let record = &with_earlier(record, &compared.earlier)[..];
    if place == record.len() {
        let more = compared.length - place as u64;
        return Some(format!(
            "{more} bytes follow the record's end (place {place}{form})"
        ));
    }
    let part = part_at(record, place);
    if found.is_empty() {
        return Some(format!(
            "it has {} bytes of {}, and {} is missing or cut short (place {place}{form})",
            compared.length,
            record.len(),
            part.name
        ));
    }
    let record_byte = |at: usize| record.get(at).copied();
    // What stands before the first difference is as in the record.
    let file_byte = |at: usize| match at.checked_sub(place) {
        None => record_byte(at),
        Some(behind) => found.get(behind).copied(),
    };
    let unlike = unlike_value(record, place, file_byte);
    let (part, remark) = match unlike {
        Some(Some(other)) => (other, ""),
        Some(None) => (part, ", the same value"),
        None => (part, ""),
    };
    let place = part
        .places()
        .find(|&at| record_byte(at) != file_byte(at))
        .unwrap_or(place);
    let shown = |text: Option<String>| text.unwrap_or_else(|| "cut short".to_string());
    let short = if compared.length < record.len() as u64 {
        format!("; the file has {} bytes", compared.length)
    } else {
        String::new()
    };
    Some(format!(
        "{} is {} by the reel's record and {} in the file{remark} (place {place}; {} of {} bytes differ{form}{short})",
        part.name,
        shown(part.shown(record_byte)),
        shown(part.shown(file_byte)),
        compared.differing,
        record.len()
    ))
}

/// Where a place falls in the groups of a trace header: the first elevation or coordinate of that trace whose value differs, or none where
/// all have the same values. None at all elsewhere, where the file ends before, and where a scalar isn't allowed.
fn unlike_value(
    record: &[u8],
    place: usize,
    file_byte: impl Fn(usize) -> Option<u8>,
) -> Option<Option<Part>> {
    let header = trace_at(record, place).start + TAG;
    let groups = header + scalars::GROUPS.start..header + scalars::GROUPS.end;
    if !groups.contains(&place) {
        return None;
    }
    let file = |range: Range<usize>| range.map(&file_byte).collect::<Option<Vec<u8>>>();
    for number in (groups.start..groups.end).step_by(4) {
        let part = part_at(record, number);
        let Some(scalar) = part.scalar.clone() else {
            continue;
        };
        let alike = scalars::same_value(
            (record.get(part.bytes.clone())?, record.get(scalar.clone())?),
            (&file(part.bytes.clone())?, &file(scalar)?),
        )?;
        if !alike {
            return Some(Some(part));
        }
    }
    Some(None)
}

/// A part of a record that has one meaning: its name, its bytes, how these are shown, and the bytes of the scalar that acts on it.
pub struct Part {
    pub name: String,
    pub bytes: Range<usize>,
    in_words: fn(&[u8]) -> String,
    scalar: Option<Range<usize>>,
}

impl Part {
    /// The part in words, by the byte at each place. None where one is missing.
    pub fn shown(&self, byte_at: impl Fn(usize) -> Option<u8>) -> Option<String> {
        let bytes = |range: &Range<usize>| range.clone().map(&byte_at).collect::<Option<Vec<u8>>>();
        let text = (self.in_words)(&bytes(&self.bytes)?);
        Some(match &self.scalar {
            Some(scalar) => match bytes(scalar) {
                Some(scalar) => format!("{text} under scalar {}", whole(&scalar)),
                None => format!("{text}, its scalar cut short,"),
            },
            None => text,
        })
    }

    /// The places of its bytes, and of its scalar's.
    fn places(&self) -> impl Iterator<Item = usize> + '_ {
        let scalar = self.scalar.clone().unwrap_or(0..0);
        self.bytes.clone().chain(scalar)
    }
}

/// The part that a place in a record falls in.
pub fn part_at(record: &[u8], place: usize) -> Part {
    let tag = |start: usize, name: String| Part {
        name,
        bytes: start..start + TAG,
        in_words: tag_and_length,
        scalar: None,
    };
    if place < TAG {
        return tag(0, "the tag and length of the cards".to_string());
    }
    if place < BINARY {
        let from = place - TAG;
        return Part {
            name: format!(
                "card {}, column {}",
                from / cards::COLUMNS + 1,
                from % cards::COLUMNS + 1
            ),
            bytes: place..place + 1,
            in_words: card,
            scalar: None,
        };
    }
    if place < BINARY + TAG {
        return tag(
            BINARY,
            "the tag and length of the binary header".to_string(),
        );
    }
    if place < FIRST_TRACE {
        return header_field(0, BINARY + TAG, place, "binary header".to_string());
    }
    let at = trace_at(record, place);
    let (trace, start, rest) = (at.number, at.start, place - at.start);
    if start + END == record.len() {
        return if rest < TAG {
            tag(
                start,
                "the tag and length of the count of traces".to_string(),
            )
        } else {
            Part {
                name: "the count of traces".to_string(),
                bytes: start + TAG..record.len(),
                in_words: whole,
                scalar: None,
            }
        };
    }
    if rest < TAG {
        return tag(
            start,
            format!("the tag and length of trace {trace}'s header"),
        );
    }
    if rest < SAMPLES {
        return header_field(trace, start + TAG, place, format!("trace {trace}"));
    }
    let field = at.field_at(place);
    if place < field.pairs().start {
        return tag(
            field.place,
            format!("the tag and length of trace {trace}'s {}", at.named(field)),
        );
    }
    let sample = at.sample_at(place);
    let first = at.pair(sample);
    Part {
        name: format!("trace {trace}, sample {sample}"),
        bytes: first..first + PAIR,
        in_words: |pair| pair_value(pair, 0),
        scalar: None,
    }
}

/// The field of a header, whose content begins at a place in the record, that another place falls in.
fn header_field(trace: usize, content: usize, place: usize, of: String) -> Part {
    let numbers = crate::fields::header(trace);
    let first = numbers[0].0 as usize;
    let end = if trace == 0 { 60 } else { 180 };
    let starts = || numbers.iter().map(|field| field.0 as usize - first);
    let from = place - content;
    let start = starts()
        .take_while(|&start| start <= from)
        .last()
        .unwrap_or(0);
    let next = starts().find(|&start| start > from).unwrap_or(end);
    Part {
        name: format!("{of}, {}", field(trace, first + start)),
        bytes: content + start..content + next,
        in_words: whole,
        scalar: scalars::acting_on(first + start).map(|scalar| {
            let place = content + scalar - 1;
            place..place + 2
        }),
    }
}

fn tag_and_length(bytes: &[u8]) -> String {
    format!("tag {:02X}, length {}", bytes[0], number(bytes, 1))
}

fn card(bytes: &[u8]) -> String {
    let text = cards::text(bytes, 1);
    match text.trim() {
        "" => format!("{:02X}", bytes[0]),
        character => format!("{:02X}, `{character}`,", bytes[0]),
    }
}

/// A signed number of two or four bytes.
fn whole(bytes: &[u8]) -> String {
    match *bytes {
        [a, b] => i16::from_be_bytes([a, b]).to_string(),
        [a, b, c, d] => i32::from_be_bytes([a, b, c, d]).to_string(),
        _ => String::new(),
    }
}

#[cfg(test)]
mod tests {
    use super::*;
    use crate::forms::tests::long;
    use crate::layout::CARDS;

    /// The part of every place of a record: each begins where the one before ends, and all have a name of their own.
    #[test]
    fn parts_make_up_a_record() {
        for (samples, earlier, heads) in [
            (3, &[][..], [1, 1]),
            (6001, &[], [2, 2]),
            (6001, &[1], [1, 2]),
            (6002, &[2], [2, 1]),
            (6001, &[1, 2], [1, 1]),
            (12_001, &[], [3, 3]),
        ] {
            let record = with_earlier(long(2, samples), earlier);
            let mut names = std::collections::HashSet::new();
            let mut place = 0;
            while place < record.len() {
                let part = part_at(&record, place);
                assert_eq!(part.bytes.start, place, "{}", part.name);
                for within in part.bytes.clone() {
                    assert_eq!(part_at(&record, within).bytes, part.bytes);
                }
                place = part.bytes.end;
                assert!(names.insert(part.name));
            }
            assert_eq!(place, record.len());
            let of_traces: usize = heads.map(|heads| 1 + 71 + heads + samples).iter().sum();
            assert_eq!(names.len(), 1 + CARDS + 1 + 27 + of_traces + 2);
        }
    }

    /// A file in any mixture of forms is as the record where it holds the same; what differs is found at its place in the file.
    #[test]
    fn forms() {
        let new = long(3, 6100);
        for earlier in [&[][..], &[1], &[2], &[3], &[1, 3], &[1, 2, 3]] {
            let file = with_earlier(new.clone(), earlier);
            let compared = compare(&mut &file[..], &new, "").ok().unwrap();
            assert_eq!((compared.first.is_none(), compared.differing), (true, 0));
            assert_eq!(compared.earlier, earlier);
            assert_eq!(compared.length, file.len() as u64);
            for (i, sample) in [(1, 1), (1, 6000), (2, 6001), (3, 6000), (3, 6100)] {
                let trace = traces(&file).nth(i - 1).unwrap();
                let place = trace.pair(sample) + 5;
                let mut other = file.clone();
                other[place] ^= 0x10;
                let compared = compare(&mut &other[..], &new, "").ok().unwrap();
                assert_eq!(compared.differing, 1);
                let said = difference(new.clone(), &compared).unwrap();
                let of = format!("trace {i}, sample {sample} is ");
                let at = format!("(place {place}; 1 of {} bytes differ", file.len());
                assert!(said.starts_with(&of) && said.contains(&at), "{said}");
            }
            let cut = &file[..file.len() - END - 1];
            let compared = compare(&mut &cut[..], &new, "").ok().unwrap();
            let said = difference(new.clone(), &compared).unwrap();
            let of = format!("it has {} bytes of {}, and ", cut.len(), file.len());
            assert!(
                said.starts_with(&format!("{of}trace 3, sample 6100 ")),
                "{said}"
            );
        }
    }

    /// A difference is found wherever it stands, also where a piece that is read ends within it.
    #[test]
    fn pieces() {
        let record: Vec<u8> = (0..3 * PIECE).map(|i| (i % 251) as u8).collect();
        for place in [
            0,
            1,
            PIECE - 3,
            PIECE - 1,
            PIECE,
            2 * PIECE + 7,
            3 * PIECE - 1,
        ] {
            let mut other = record.clone();
            other[place] ^= 0x10;
            let compared = compare(&mut &other[..], &record, "").ok().unwrap();
            let (first, found) = compared.first.unwrap();
            assert_eq!((first, compared.differing), (place, 1));
            assert_eq!(found, other[place..(place + KEPT).min(other.len())]);
        }
        for length in [0, 1, PIECE, 3 * PIECE - 1] {
            let compared = compare(&mut &record[..length], &record, "").ok().unwrap();
            assert_eq!(compared.first, Some((length, Vec::new())));
            let compared = compare(&mut &record[..], &record[..length], "")
                .ok()
                .unwrap();
            assert_eq!(compared.first.unwrap().0, length);
            assert_eq!((compared.length, compared.differing), (3 * PIECE as u64, 0));
        }
        assert!(compare(&mut &record[..], &record, "")
            .ok()
            .unwrap()
            .first
            .is_none());
    }
}
