//! Whether a file is a reel or a record, and of which layout a reel is, by its content.

use crate::extent;
use crate::layout::{Layout, Shape, HEADERS};
use aukpocket::{write_reel, Refusal, Taken};

/// Whether a file is to be judged as a record: it begins as one, and isn't refused as one and taken as a reel.
pub fn is_record(bytes: &[u8]) -> bool {
    begins_as_record(bytes)
        && (record_fault(write_reel(bytes, 1, &mut [])).is_none() || judged(bytes).1.is_some())
}

/// Whether a file that is no record is a reel: the cards and headers of one (1 to 4) are there, whatever is wrong with its traces. Those of
/// an Eagle reel are those of a plain one.
pub fn is_reel(bytes: &[u8]) -> bool {
    !begins_as_record(bytes)
        && reel_fault(bytes, Layout::Plain).map_or(true, |fault| fault.number > 4)
}

/// Why a record isn't valid. With no room for the reel, a code that holds a valid record is refused by 10, one that doesn't by 14.
pub fn record_fault(answer: Result<Taken, Refusal>) -> Option<Refusal> {
    answer.err().filter(|r| matches!(r.number, 12 | 13))
}

/// Why a reel isn't taken. With no room for the record, a reel that would be taken is refused by 10 with the length of its record.
pub fn reel_fault(reel: &[u8], layout: Layout) -> Option<Refusal> {
    let answer = layout.read(reel, &mut []);
    answer.err().filter(|r| r.number != 10)
}

/// Whether bytes are taken as a reel of a layout.
pub fn is_taken(bytes: &[u8], layout: Layout) -> bool {
    reel_fault(bytes, layout).is_none()
}

/// The layout by which a reel is judged where none is asked for, and why it isn't taken: the plain one, unless the other alone takes it.
pub fn judged(reel: &[u8]) -> (Layout, Option<Refusal>) {
    let fault = reel_fault(reel, Layout::Plain);
    match fault.is_some() && is_taken(reel, Layout::Eagle) {
        true => (Layout::Eagle, None),
        false => (Layout::Plain, fault),
    }
}

/// What a reel that is taken in a layout is in the other one too. Nothing is said of a reel without traces, whose layouts differ by the check
/// alone.
pub fn also(reel: &[u8], layout: Layout) -> Option<String> {
    let other = layout.other();
    (reel.len() > HEADERS && is_taken(reel, other)).then(|| {
        let (kind, reads) = other.named();
        let shape = Shape::of_reel(reel, other);
        let extent = extent(shape.traces as u64, shape.samples.into());
        format!(
            "{kind}, {extent}, which {reads} takes: each layout gives the bytes its own meaning"
        )
    })
}

/// Whether a file begins as a record does, with tag 01 and its length. On a reel these would be three control characters.
fn begins_as_record(bytes: &[u8]) -> bool {
    bytes.starts_with(&[0x01, 0x0C, 0x80])
}
