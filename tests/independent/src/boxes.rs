//! A box of reels that hold one line, by document 02's CR 10: what each reel must have is worked out from
//! the reels before it, as numbers that don't wrap, and compared field by field.

use super::{
    check_reel, signed, Layout, Refused, Shape, CARD_BYTES, COUNT, INTERVAL, REEL_HEADERS,
};

// Offsets in the binary header: line number and reel number, fields 3205 and 3209.
const LINE: usize = 4;
const REEL_NUMBER: usize = 8;

// Offsets in a trace header: the trace's number in the line and on its reel, fields 1 and 5.
const IN_LINE: usize = 0;
const ON_REEL: usize = 4;

/// What checking a box answers where it is taken.
#[derive(Clone, Copy, Debug, PartialEq, Eq)]
pub struct BoxTaken {
    pub reels: u64,
    pub traces: u64,
}

/// What the first reel of a box fixes for all: line number, interval and N.
#[derive(Clone, Copy)]
struct Fixed {
    line: i64,
    interval: i64,
    samples: i64,
}

/// A field on a reel: its place there, its bytes, and the number that it must have, if the box has one for
/// it.
struct Ruled {
    place: usize,
    width: usize,
    wanted: Option<i64>,
}

/// Checks a box: the slice has its reels one behind the other, as long as the list says.
pub fn check_box(slice: &[u8], lengths: &[u64]) -> Result<BoxTaken, Refused> {
    let sum: u128 = lengths.iter().map(|&length| u128::from(length)).sum();
    if sum != slice.len() as u128 {
        return Err(Refused {
            number: 21,
            beside: 0,
        });
    }

    let mut fixed = None;
    let mut reel_before = None;
    let mut trace_before = None;
    let mut traces = 0;
    let mut start = 0;
    for &length in lengths {
        let reel = &slice[start..][..length as usize];
        let (code, shape) =
            check_reel(Layout::Plain, reel).map_err(|cause| in_slice(cause, start))?;

        let trace_length = shape.trace_length(code);
        let first: Fixed = *fixed.get_or_insert_with(|| own(reel));
        let mut fields = binary_fields(first, reel_before);
        fields.extend(trace_fields(reel, &shape, trace_length, trace_before));
        if let Some(broken) = fields.iter().find(|field| !field.holds(reel)) {
            return Err(Refused {
                number: 22,
                beside: (start + broken.place) as u64,
            });
        }

        reel_before = Some(number(reel, CARD_BYTES + REEL_NUMBER, 4));
        if shape.traces > 0 {
            let last = REEL_HEADERS + (shape.traces - 1) * trace_length;
            trace_before = Some(number(reel, last + IN_LINE, 4));
        }
        traces += shape.traces as u64;
        start += reel.len();
    }
    Ok(BoxTaken {
        reels: lengths.len() as u64,
        traces,
    })
}

/// A reel's own cause, its place counted in the slice. Beside number 1 stands a length, which is no place.
fn in_slice(cause: Refused, start: usize) -> Refused {
    match cause.number {
        1 => cause,
        _ => Refused {
            beside: cause.beside + start as u64,
            ..cause
        },
    }
}

/// The signed number in a field of a reel.
fn number(reel: &[u8], place: usize, width: usize) -> i64 {
    i64::from(signed(&reel[place..][..width]))
}

/// Line number, interval and N of a reel.
fn own(reel: &[u8]) -> Fixed {
    Fixed {
        line: number(reel, CARD_BYTES + LINE, 4),
        interval: number(reel, CARD_BYTES + INTERVAL, 2),
        samples: number(reel, CARD_BYTES + COUNT, 2),
    }
}

impl Ruled {
    /// Whether the reel has the number there that it must have.
    fn holds(&self, reel: &[u8]) -> bool {
        match self.wanted {
            Some(wanted) => number(reel, self.place, self.width) == wanted,
            None => true,
        }
    }
}

/// The ruled fields of a binary header, the first in the slice first. The first reel's number is free.
fn binary_fields(first: Fixed, reel_before: Option<i64>) -> Vec<Ruled> {
    let field = |offset, width, wanted| Ruled {
        place: CARD_BYTES + offset,
        width,
        wanted,
    };
    vec![
        field(LINE, 4, Some(first.line)),
        field(REEL_NUMBER, 4, reel_before.map(|before| before + 1)),
        field(INTERVAL, 2, Some(first.interval)),
        field(COUNT, 2, Some(first.samples)),
    ]
}

/// The ruled fields of a reel's traces, the first in the slice first. The number in the line is one more
/// than that of the trace before, on whichever reel that stands; the first trace of the box has none before.
fn trace_fields(
    reel: &[u8],
    shape: &Shape,
    trace_length: usize,
    mut trace_before: Option<i64>,
) -> Vec<Ruled> {
    let mut fields = Vec::new();
    for index in 0..shape.traces {
        let place = REEL_HEADERS + index * trace_length;
        fields.push(Ruled {
            place: place + IN_LINE,
            width: 4,
            wanted: trace_before.map(|before| before + 1),
        });
        fields.push(Ruled {
            place: place + ON_REEL,
            width: 4,
            wanted: Some(index as i64 + 1),
        });
        trace_before = Some(number(reel, place + IN_LINE, 4));
    }
    fields
}
