//! Where things stand on a reel and in a record. Only sizes and the sentences of refusals are worked out from here: what a reel holds is
//! for the library to say.

use crate::forms;
use aukpocket::{
    blank_eight, read_eagle, read_reel, record_length, reel_length, Code, ReelRead, Refusal,
};

/// The most traces that a reel or record has, and the most samples of a trace.
pub const MOST_TRACES: usize = 100_000;
pub const MOST_SAMPLES: u16 = 32_767;

/// A reel's cards, and its cards and binary header.
pub const CARDS: usize = 3200;
pub const HEADERS: usize = 3600;

/// A trace's header on a reel.
pub const TRACE_HEADER: usize = 240;

/// The place of columns 79 and 80 of card 40, where an Eagle reel has a check.
pub const CHECK_PLACE: usize = CARDS - 2;

/// The places on a reel of the interval, the samples a trace and the format code.
pub const INTERVAL_PLACE: usize = 3216;
pub const COUNT_PLACE: usize = 3220;
pub const CODE_PLACE: usize = 3224;

/// The bytes of a field's tag and length in a record, and the places of its tag 02 and of its first trace.
pub const TAG: usize = 3;
pub const BINARY: usize = TAG + CARDS;
pub const FIRST_TRACE: usize = BINARY + TAG + 60;

/// A trace's tag 04 and its first pair, counted from its tag 03.
pub const SAMPLES: usize = TAG + 180;
pub const FIRST_PAIR: usize = SAMPLES + TAG;

/// The bytes of a pair, which is a sample of a record.
pub const PAIR: usize = 6;

/// The bytes of a record's last field, with its tag and length: the count of its traces.
pub const END: usize = TAG + 4;

/// The layouts of reels that are read. A reel doesn't say which it has.
#[derive(Clone, Copy, PartialEq, Eq, Debug)]
pub enum Layout {
    /// That of 1975.
    Plain,
    /// That of the Eagle recorder: a trailer behind each trace, a check on card 40, and code 1 alone.
    Eagle,
}

impl Layout {
    /// Reads a reel of this layout.
    pub fn read(self, reel: &[u8], record: &mut [u8]) -> Result<ReelRead, Refusal> {
        match self {
            Layout::Plain => read_reel(reel, record),
            Layout::Eagle => read_eagle(reel, record),
        }
    }

    /// The other one.
    pub fn other(self) -> Layout {
        match self {
            Layout::Plain => Layout::Eagle,
            Layout::Eagle => Layout::Plain,
        }
    }

    /// A reel of this layout, in words, and what reads it.
    pub fn named(self) -> (&'static str, &'static str) {
        match self {
            Layout::Plain => ("a plain reel", "`read` without --eagle"),
            Layout::Eagle => ("an Eagle reel", "`read --eagle`"),
        }
    }

    /// The bytes of a trace's trailer.
    pub fn trailer(self) -> usize {
        match self {
            Layout::Plain => 0,
            Layout::Eagle => 960,
        }
    }
}

/// The format code of a reel, as it stands.
pub fn code_of(reel: &[u8]) -> u16 {
    number(reel, CODE_PLACE)
}

/// The check of an Eagle reel, where it is anything but blanks.
pub fn check_of(reel: &[u8]) -> Option<u16> {
    let check = number(reel, CHECK_PLACE);
    (blank_eight(check.into()) != blank_eight(0)).then_some(check)
}

/// The two-byte number at a place, 0 beyond the end.
pub fn number(bytes: &[u8], place: usize) -> u16 {
    match place.checked_add(2).and_then(|end| bytes.get(place..end)) {
        Some(two) => u16::from_be_bytes([two[0], two[1]]),
        None => 0,
    }
}

/// The numbers of a reel's header as they stand, and the count of whole traces that its length gives.
pub struct Shape {
    pub interval: u16,
    pub samples: u16,
    pub code: u16,
    pub sample_length: usize,
    pub trace_length: usize,
    /// The bytes of a trace that its trailer takes.
    pub trailer: usize,
    pub traces: usize,
    /// Whether nothing follows the last whole trace.
    whole: bool,
}

impl Shape {
    /// Of a reel. One that is too short for its headers has no traces. Without a code its samples count as four bytes each.
    pub fn of_reel(reel: &[u8], layout: Layout) -> Shape {
        let code = code_of(reel);
        let samples = number(reel, COUNT_PLACE);
        let sample_length = Code::of(code.into()).map_or(4, |code| code.sample_length as usize);
        let trailer = layout.trailer();
        let trace_length = TRACE_HEADER + sample_length * usize::from(samples) + trailer;
        let traces = reel.len().saturating_sub(HEADERS) / trace_length;
        Shape {
            interval: number(reel, INTERVAL_PLACE),
            samples,
            code,
            sample_length,
            trace_length,
            trailer,
            traces,
            whole: HEADERS + traces * trace_length == reel.len(),
        }
    }

    /// The length of the record, where the headers tell it: 0 for a shape that is sure to be refused.
    pub fn record_length(&self) -> u64 {
        let length = record_length(self.traces as u64, self.samples.into());
        made(self.whole, self.traces, self.samples, length)
    }
}

/// The same of a record.
pub struct RecordShape {
    pub interval: u16,
    pub samples: u16,
    pub traces: usize,
    whole: bool,
}

impl RecordShape {
    pub fn of(record: &[u8]) -> RecordShape {
        let mut shape = RecordShape {
            interval: number(record, binary_place(3217)),
            samples: number(record, binary_place(3221)),
            traces: 0,
            whole: false,
        };
        let mut end = FIRST_TRACE;
        for trace in forms::traces(record) {
            shape.traces = trace.number;
            end = trace.end();
        }
        shape.whole = end + END == record.len();
        shape
    }

    /// The length of the reel under a code, as above.
    pub fn reel_length(&self, code: u32) -> u64 {
        let length = reel_length(self.traces as u64, self.samples.into(), code);
        made(self.whole, self.traces, self.samples, length)
    }
}

/// A length that was worked out for so many traces and samples a trace, where nothing follows the traces and they are within their limits.
fn made(whole: bool, traces: usize, samples: u16, length: Option<u64>) -> u64 {
    if whole && traces <= MOST_TRACES && (1..=MOST_SAMPLES).contains(&samples) {
        length.unwrap_or(0)
    } else {
        0
    }
}

/// The place in a record of a binary header field.
pub fn binary_place(byte_number: usize) -> usize {
    BINARY + TAG + byte_number - 3201
}
