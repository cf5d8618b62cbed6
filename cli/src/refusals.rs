//! A refusal in a sentence: the number, what is wrong, the place, and the trace and field that it falls in.

use crate::cards::{COLUMNS, COUNT};
use crate::codes;
use crate::fields::{header, meaning};
use crate::forms::{trace_at, Trace, SINGLE};
use crate::kinds::{is_record, is_reel, reel_fault};
use crate::layout::{
    binary_place, number, Layout, RecordShape, Shape, BINARY, CARDS, FIRST_TRACE, HEADERS,
    MOST_SAMPLES, MOST_TRACES, PAIR, SAMPLES, TAG, TRACE_HEADER,
};
use crate::listing::{exact, quoted, Edited};
use crate::scalars::{self, COORDINATES, ELEVATIONS};
use aukpocket::{Refusal, LISTING_LENGTH};

/// The scalars that a reel may have.
const ALLOWED: &str = "0, 1, -1, or plus or minus 10, 100, 1000 or 10000";

/// Where a user with an earlier record reads on.
const EARLIER: &str = "a damaged record is refused so, and one made before the rule of the smallest power: compare its SHA-256 with the \
                       one that was kept, then see EARLIER RECORDS in aukpocket(1), or README.md";

/// The refusal of a reel that was read in a layout, by 1 to 10 or 18 to 20. That it is a record is said first; last, that the other layout
/// takes it, or that it has whole traces in the other layout alone, and what that one refuses it by.
pub fn of_reel(reel: &[u8], layout: Layout, refusal: Refusal) -> String {
    let refused = as_reel(reel, layout, refusal);
    if is_record(reel) {
        return format!("is a record, not a reel: {refused}");
    }
    let other = layout.other();
    let (kind, reads) = other.named();
    match reel_fault(reel, other) {
        None => format!("{refused}; it is {kind}, which {reads} takes"),
        Some(fault) if refusal.number == 5 && fault.number > 6 => {
            format!("{refused}; as {kind} it is {}", as_reel(reel, other, fault))
        }
        Some(_) => refused,
    }
}

fn as_reel(reel: &[u8], layout: Layout, refusal: Refusal) -> String {
    let shape = Shape::of_reel(reel, layout);
    let place = place_of(refusal);
    let signed = number(reel, place) as i16;
    let what = match refusal.number {
        1 => format!(
            "it has {} bytes, and the cards and binary header of a reel alone have {HEADERS}",
            refusal.beside
        ),
        2 => format!(
            "the format code is {signed}, not {} ({})",
            match layout {
                Layout::Plain => codes::numbers(),
                Layout::Eagle => "1, which every Eagle reel has".to_string(),
            },
            binary_at(place)
        ),
        3 => format!(
            "the samples a trace are {signed}, not 1 to {MOST_SAMPLES} ({})",
            binary_at(place)
        ),
        4 => format!(
            "the sample interval is {signed}, not 1 to 32767 ({})",
            binary_at(place)
        ),
        5 => format!(
            "{} bytes follow the last whole trace (place {place}: trace {} would take {} bytes{})",
            reel.len().saturating_sub(place),
            shape.traces + 1,
            shape.trace_length,
            match layout {
                Layout::Plain => "",
                Layout::Eagle => " with its trailer",
            }
        ),
        6 => format!(
            "it has {} traces, more than {MOST_TRACES} (place {place}: trace {})",
            shape.traces,
            MOST_TRACES + 1
        ),
        7 => format!(
            "the sample count of a trace is {signed}, neither 0 nor the reel's {} ({})",
            shape.samples,
            reel_at(&shape, place)
        ),
        8 => format!(
            "the sample interval of a trace is {signed}, neither 0 nor the reel's {} ({})",
            shape.interval,
            reel_at(&shape, place)
        ),
        9 => format!(
            "a gain word begins with {:02X}, not 00 ({})",
            reel.get(place).copied().unwrap_or(0),
            reel_at(&shape, place)
        ),
        18 => {
            let (trace, rest) = reel_trace_at(&shape, place);
            format!(
                "the {} is {signed}, not {ALLOWED} (place {place}: trace {trace}, {})",
                meaning(rest + 1),
                field(trace, rest + 1)
            )
        }
        19 => {
            let word = u32::from(number(reel, place)) << 16 | u32::from(number(reel, place + 2));
            let kind = match word & 0x007F_FFFF {
                0 => "an infinity",
                _ => "a not-a-number",
            };
            format!(
                "an IEEE word is {word:08X}, {kind} ({})",
                reel_at(&shape, place)
            )
        }
        20 => format!(
            "the last two bytes of a trailer are {:04X}, not FFFF ({})",
            number(reel, place),
            reel_at(&shape, place)
        ),
        _ => return other(refusal),
    };
    sentence(refusal, &what)
}

/// A look-up's refusal: those of a reel, and 15 and 16.
pub fn of_look_up(reel: &[u8], trace: usize, byte_number: u32, refusal: Refusal) -> String {
    let what = match refusal.number {
        15 => format!(
            "there is no trace {trace}: the reel has {} traces",
            Shape::of_reel(reel, Layout::Plain).traces
        ),
        16 => format!(
            "no assigned field of {} begins at byte number {byte_number}",
            if trace == 0 {
                "the binary header"
            } else {
                "a trace header"
            }
        ),
        _ => return of_reel(reel, Layout::Plain, refusal),
    };
    sentence(refusal, &what)
}

/// A record's refusal under a target code, by 10 to 14. That it is a reel or a listing is said first.
pub fn of_record(record: &[u8], code: u32, refusal: Refusal) -> String {
    let kind = match (refusal.number, refusal.beside) {
        (12, 0) if is_reel(record) => "is a reel, not a record: ",
        (12, 0) if exact(record).is_some() => "is a listing, not a record: ",
        _ => "",
    };
    format!("{kind}{}", as_record(record, code, refusal))
}

fn as_record(record: &[u8], code: u32, refusal: Refusal) -> String {
    let place = place_of(refusal);
    let what = match refusal.number {
        11 => format!("the target code is {code}, not {}", codes::numbers()),
        12 => wrong_form(record, place),
        13 => wrong_number(record, place),
        14 => format!(
            "a sample, {}, doesn't fit code {code} ({})",
            pair_value(record, place),
            record_at(record, place)
        ),
        _ => return other(refusal),
    };
    sentence(refusal, &what)
}

/// The refusal of `write`: a record's, and beside 14 what else there is.
pub fn of_writing(record: &[u8], code: u32, refusal: Refusal) -> String {
    let hint = match refusal.number {
        14 => "; --nearest rounds such samples to the nearest value of the code",
        _ => "",
    };
    format!("{}{hint}", of_record(record, code, refusal))
}

/// A listing's refusal, by 17. Each of its lines has 80 columns or more.
pub fn of_listing(listing: &Edited, refusal: Refusal) -> String {
    let lines = &listing.lines;
    let beside = match lines.iter().map(|line| line.len() + 1).sum() {
        LISTING_LENGTH => format!("place {}", refusal.beside),
        _ => {
            let filled = if listing.filled > 0 {
                " once its lines are filled"
            } else {
                ""
            };
            format!(
                "{} characters{filled}, not {LISTING_LENGTH}",
                refusal.beside
            )
        }
    };
    let what = match lines.iter().position(|line| line.len() > COLUMNS) {
        Some(i) => format!(
            "a line has {} columns, not {COLUMNS} ({beside}: line {}, column {}, {})",
            lines[i].len(),
            i + 1,
            COLUMNS + 1,
            quoted(&lines[i][COLUMNS..])
        ),
        None => {
            let s = if lines.len() == 1 { "" } else { "s" };
            format!("it has {} line{s}, not {COUNT} ({beside})", lines.len())
        }
    };
    sentence(refusal, &what)
}

/// A refusal with what is wrong.
pub fn sentence(refusal: Refusal, what: &str) -> String {
    format!("refused by {}: {what}", refusal.number)
}

/// A refusal that the command doesn't run into, since it asks for a length first.
fn other(refusal: Refusal) -> String {
    match refusal.number {
        10 => sentence(
            refusal,
            &format!(
                "the output is too short: {} bytes are needed",
                refusal.beside
            ),
        ),
        _ => sentence(refusal, &format!("{} stands beside it", refusal.beside)),
    }
}

fn place_of(refusal: Refusal) -> usize {
    usize::try_from(refusal.beside).unwrap_or(usize::MAX)
}

/// The name of the field that begins at a byte number.
pub fn field(trace: usize, byte_number: usize) -> String {
    let name = header(trace)
        .iter()
        .find(|field| field.0 as usize == byte_number)
        .map_or("unassigned", |field| field.1);
    format!("field {byte_number}, {name}")
}

/// A place in the binary header of a reel.
pub fn binary_at(place: usize) -> String {
    format!("place {place}: binary header, {}", field(0, place + 1))
}

/// A place in a trace of a reel: the trace, from 1, and the bytes from its first.
fn reel_trace_at(shape: &Shape, place: usize) -> (usize, usize) {
    let from = place.saturating_sub(HEADERS);
    (from / shape.trace_length + 1, from % shape.trace_length)
}

/// A place in a trace of a reel, by what it belongs to.
pub fn reel_at(shape: &Shape, place: usize) -> String {
    let (trace, rest) = reel_trace_at(shape, place);
    let trailer = shape.trace_length - shape.trailer;
    let part = if rest < TRACE_HEADER {
        field(trace, rest + 1)
    } else if rest < trailer {
        format!("sample {}", (rest - TRACE_HEADER) / shape.sample_length + 1)
    } else {
        format!("byte {} of its trailer", rest - trailer + 1)
    };
    format!("place {place}: trace {trace}, {part}")
}

/// The bytes from the tag 03 of a trace to a place in it.
fn rest_at(record: &[u8], place: usize) -> usize {
    place.saturating_sub(trace_at(record, place).start)
}

/// The number in a record at a place, by what it belongs to.
fn record_at(record: &[u8], place: usize) -> String {
    let part = if place < BINARY {
        let from = place.saturating_sub(TAG);
        format!("card {}, column {}", from / COLUMNS + 1, from % COLUMNS + 1)
    } else if place < FIRST_TRACE {
        let byte_number = (place + 3201).saturating_sub(BINARY + TAG);
        format!("binary header, {}", field(0, byte_number))
    } else {
        let trace = trace_at(record, place);
        let part = match rest_at(record, place) {
            rest if rest < SAMPLES => field(trace.number, (rest + 1).saturating_sub(TAG)),
            _ => format!("sample {}", trace.sample_at(place)),
        };
        format!("trace {}, {part}", trace.number)
    };
    format!("place {place}: {part}")
}

/// Whether a record is refused by 13 at a scalar.
pub fn is_at_scalar(record: &[u8], refusal: Refusal) -> bool {
    refusal.number == 13 && scalar_at(record, place_of(refusal)).is_some()
}

/// The byte number of the scalar that stands at a place in a record, where one does.
fn scalar_at(record: &[u8], place: usize) -> Option<usize> {
    if place < FIRST_TRACE {
        return None;
    }
    let rest = rest_at(record, place);
    [ELEVATIONS, COORDINATES]
        .into_iter()
        .find(|scalar| rest == TAG + scalar - 1)
}

/// Number 13: what is wrong with the number at a place.
fn wrong_number(record: &[u8], place: usize) -> String {
    let at = record_at(record, place);
    let signed = number(record, place) as i16;
    let shape = RecordShape::of(record);
    if place < BINARY {
        return format!("a card byte is 00 ({at})");
    }
    if place < FIRST_TRACE {
        return if place == binary_place(3217) {
            format!("the sample interval is {signed}, not 1 to 32767 ({at})")
        } else if place == binary_place(3221) {
            format!("the samples a trace are {signed}, not 1 to {MOST_SAMPLES} ({at})")
        } else {
            format!("the format code is {signed}, where a record has 0 ({at})")
        };
    }
    if let Some(scalar) = scalar_at(record, place) {
        let header = record.get(place + 1 - scalar..).unwrap_or(&[]);
        let what = match scalars::of_record(header, scalar) {
            Some(smallest) => {
                format!("where a record has these values under {smallest}")
            }
            None => "which isn't allowed".to_string(),
        };
        return format!(
            "the {} is {signed}, {what} ({at}); {EARLIER}",
            meaning(scalar)
        );
    }
    match rest_at(record, place) {
        rest if rest == TAG + 114 => format!(
            "the sample count of a trace is {signed}, not the reel's {} ({at})",
            shape.samples
        ),
        rest if rest < SAMPLES => format!(
            "the sample interval of a trace is {signed}, not the reel's {} ({at})",
            shape.interval
        ),
        _ => format!(
            "a pair, {}, isn't canonical ({at})",
            pair_value(record, place)
        ),
    }
}

/// Number 12: what is wrong with the field whose tag stands, or should stand, at a place.
fn wrong_form(record: &[u8], place: usize) -> String {
    let tag = record.get(place).copied();
    if place == 0 {
        return wrong_field(record, place, 0x01, CARDS, "the cards");
    }
    if place == BINARY {
        return wrong_field(record, place, 0x02, 60, "the binary header");
    }
    let trace = trace_at(record, place);
    let i = trace.number;
    match rest_at(record, place) {
        0 if tag == Some(0x03) && i > MOST_TRACES => {
            format!("trace {i} begins, and a record has at most {MOST_TRACES} (place {place})")
        }
        0 if tag == Some(0x03) => wrong_field(
            record,
            place,
            0x03,
            180,
            &format!("the header of trace {i}"),
        ),
        0 if tag == Some(0x05) => {
            let whole = number(record, place + 1) == 4 && record.len() >= place + TAG + 4;
            if whole {
                let count = u32::from(number(record, place + 3)) << 16
                    | u32::from(number(record, place + 5));
                format!(
                    "the count of traces is {count}, and {} stand before it (place {place}: tag 05)",
                    i - 1
                )
            } else {
                wrong_field(record, place, 0x05, 4, "the count of traces")
            }
        }
        0 => {
            let found = match tag {
                Some(tag) => format!("tag {tag:02X} stands"),
                None => "the record ends".to_string(),
            };
            let wanted = if i > MOST_TRACES {
                String::new()
            } else {
                format!("tag 03 of trace {i} or ")
            };
            format!("{found} where {wanted}tag 05 should stand (place {place})")
        }
        rest if rest < SAMPLES => format!(
            "{} bytes follow the record's end (place {place})",
            record.len().saturating_sub(place)
        ),
        _ => wrong_samples(record, place, trace),
    }
}

/// What is wrong with a field of samples.
fn wrong_samples(record: &[u8], place: usize, trace: Trace) -> String {
    let field = trace.field_at(place);
    let the = if field.count == trace.samples {
        "the "
    } else {
        ""
    };
    let what = format!("{the}{} of trace {}", trace.named(field), trace.number);
    wrong_field(record, place, 0x04, field.content(), &what)
}

/// What is wrong with a field that should have that tag and length.
fn wrong_field(record: &[u8], place: usize, tag: u8, length: usize, what: &str) -> String {
    let at = format!("place {place}: tag {tag:02X}, {what}");
    match record.get(place) {
        None => format!("the record ends where a field should begin ({at})"),
        Some(&found) if found != tag => {
            format!("tag {found:02X} stands where a field should begin ({at})")
        }
        _ if record.len() < place + TAG => format!("the record ends within a field ({at})"),
        _ if usize::from(number(record, place + 1)) != length => format!(
            "a field's length is {}, not {length}{} ({at})",
            number(record, place + 1),
            or_earlier(record, place)
        ),
        _ => format!("the record ends within a field ({at})"),
    }
}

/// The other length that a trace's first field of samples may have, in words, where the field at a place is such a one.
fn or_earlier(record: &[u8], place: usize) -> String {
    let trace = trace_at(record, place);
    match place == trace.start + SAMPLES && SINGLE.contains(&trace.samples) {
        true => format!(", nor {} as in the earlier form", PAIR * trace.samples),
        false => String::new(),
    }
}

/// The value of the pair at a place.
pub fn pair_value(bytes: &[u8], place: usize) -> String {
    let e = number(bytes, place) as i16;
    let m =
        (u32::from(number(bytes, place + 2)) << 16 | u32::from(number(bytes, place + 4))) as i32;
    format!("{m} * 2^{e}")
}
