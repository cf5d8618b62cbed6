//! Comparing two records, beside memcmp of their bytes and beside judging one of them alone: records that are
//! equal, in one form and in two, and such as differ early and late.

use crate::passes::{held_stride, FIELD_HEAD, MOST_TRACES, PAIR_BYTES};
use crate::passes::{RECORD_END, RECORD_HEAD, REEL_HEADERS};
use crate::{cards, in_turns, library, record_length, reels, tables, Options, MEGABYTE};
use independent::RefusedOf;
use std::cmp::Ordering;
use std::ffi::{c_int, c_void};
use std::hint::black_box;
use std::time::Instant;

/// The code of the reels whose records are compared.
const CODE: u32 = 1;

/// The size of the large records, in megabytes, and how many runs there are.
const SIZE: usize = 256;
const RUNS: usize = 25;

/// What the second record is to the first.
#[derive(Clone, Copy, Debug, PartialEq)]
pub enum Second {
    Equal,
    OtherForm,
    OtherSample,
    OtherHeader,
    OtherCard,
}

/// These by their names, with the order that the first record then has to the second.
pub const SECONDS: [(Second, &str, Ordering); 5] = [
    (Second::Equal, "equal, the same bytes", Ordering::Equal),
    (
        Second::OtherForm,
        "equal, the second in the earlier form",
        Ordering::Equal,
    ),
    (Second::OtherSample, "another last sample", Ordering::Less),
    (
        Second::OtherHeader,
        "another number in the first trace's header",
        Ordering::Greater,
    ),
    (
        Second::OtherCard,
        "another card byte, the first",
        Ordering::Less,
    ),
];

/// The kinds that a record of every N has.
const ONE_FORM: &[Second] = &[
    Second::Equal,
    Second::OtherSample,
    Second::OtherHeader,
    Second::OtherCard,
];

/// N of the large records, and what each is compared with.
pub const LARGE: [(u16, &[Second]); 3] = [
    (2_000, ONE_FORM),
    (8_000, &[Second::Equal, Second::OtherForm]),
    (100, &[Second::Equal]),
];

/// The same of the small record, which has one trace.
pub const SMALL: (u16, &[Second]) = (cards::SAMPLES, ONE_FORM);

/// A record, and those that it is compared with.
pub struct Held {
    pub samples: u16,
    pub first: Vec<u8>,
    pub seconds: Vec<(Second, Vec<u8>)>,
}

/// The best seconds of the records of one N: of both yardsticks, and of comparing with each second record.
pub struct Row {
    pub samples: u16,
    pub bytes: usize,
    pub memcmp: f64,
    pub judging: f64,
    pub comparing: Vec<(Second, f64)>,
}

/// The large records with one call a turn, the small one with many.
pub fn compare(options: &Options) {
    let megabytes = options.megabytes.unwrap_or(SIZE);
    let runs = options.runs.unwrap_or(RUNS);
    let small_runs = options.runs.unwrap_or(cards::RUNS);
    let large = LARGE.map(|kinds| Held::new(kinds, megabytes * MEGABYTE));
    let small = [Held::new(SMALL, 0)];
    for held in large.iter().chain(&small) {
        agree(held, library::compare);
    }
    let large = measure(&large, runs, once);
    let small = measure(&small, small_runs, |call| cards::timed(call));
    tables::order(&large, runs, &small[0], small_runs);
}

/// All calls on all records in turn in each run, each run beginning with another of them; the best run counts.
fn measure(all: &[Held], runs: usize, timed: impl Fn(&mut dyn FnMut()) -> f64) -> Vec<Row> {
    let turns: Vec<(&Held, What)> = all
        .iter()
        .flat_map(|held| {
            let comparing = held.seconds.iter().map(|(second, _)| *second);
            [What::Memcmp, What::Judging]
                .into_iter()
                .chain(comparing.map(What::Comparing))
                .map(move |what| (held, what))
        })
        .collect();
    let best = in_turns(runs, turns.len(), |_, turn| {
        let (held, what) = turns[turn];
        let first = &held.first;
        match what {
            What::Memcmp => {
                let second = held.second(Second::Equal);
                timed(&mut || assert!(same_bytes(black_box(first), black_box(second))))
            }
            What::Judging => timed(&mut || assert!(is_valid(black_box(first)))),
            What::Comparing(kind) => {
                let second = held.second(kind);
                let order = Ok(kind.order());
                timed(&mut || {
                    assert!(library::compare(black_box(first), black_box(second)) == order)
                })
            }
        }
    });
    let mut best = best.into_iter();
    let mut next = || best.next().expect("a turn of each");
    all.iter()
        .map(|held| Row {
            samples: held.samples,
            bytes: held.first.len(),
            memcmp: next(),
            judging: next(),
            comparing: held
                .seconds
                .iter()
                .map(|(kind, _)| (*kind, next()))
                .collect(),
        })
        .collect()
}

/// What is timed.
#[derive(Clone, Copy)]
enum What {
    Memcmp,
    Judging,
    Comparing(Second),
}

/// The seconds of a call.
fn once(call: &mut dyn FnMut()) -> f64 {
    let start = Instant::now();
    call();
    start.elapsed().as_secs_f64()
}

// ## Yardsticks

extern "C" {
    fn memcmp(first: *const c_void, second: *const c_void, length: usize) -> c_int;
}

/// Whether two parts of one length have the same bytes, by the C library.
pub fn same_bytes(first: &[u8], second: &[u8]) -> bool {
    assert_eq!(first.len(), second.len());
    // SAFETY: both have so many bytes.
    let order = unsafe { memcmp(first.as_ptr().cast(), second.as_ptr().cast(), first.len()) };
    black_box(order) == 0
}

/// Whether neither 12 nor 13 applies to a record, by the library: nearest writing looks for both before it
/// asks for room, and here has none.
pub fn is_valid(record: &[u8]) -> bool {
    let refused = library::write_nearest(record, CODE, &mut []).expect_err("there is no room");
    refused.number == 10
}

// ## Records

impl Second {
    /// The order of the first record to this.
    pub fn order(self) -> Ordering {
        let (_, _, order) = SECONDS[self as usize];
        order
    }

    /// Makes it of the first record, which has N samples a trace.
    fn of(self, first: &[u8], samples: u16) -> Vec<u8> {
        let mut record = first.to_vec();
        let mut put = |at: usize, bytes: &[u8]| record[at..][..bytes.len()].copy_from_slice(bytes);
        match self {
            Second::Equal => {}
            Second::OtherForm => return reels::earlier(first, samples),
            // The largest value that a record holds, which no reel of code 1 has.
            Second::OtherSample => put(
                first.len() - RECORD_END - PAIR_BYTES,
                &[0x00, 0xFB, 0x7F, 0xFF, 0xFF, 0xFF],
            ),
            // The number of the trace is 1 in the first record, and -1 here.
            Second::OtherHeader => put(RECORD_HEAD + FIELD_HEAD, &[0xFF; 4]),
            // All cards are blank in the first record, 40.
            Second::OtherCard => put(FIELD_HEAD, &[0xC1]),
        }
        record
    }
}

impl Held {
    /// A record of about so many bytes, or of the most traces that there may be, by the independent
    /// implementation; and those that it is compared with.
    pub fn new((samples, kinds): (u16, &[Second]), bytes: usize) -> Held {
        let n = usize::from(samples);
        let traces = bytes.saturating_sub(RECORD_HEAD + RECORD_END) / held_stride(n);
        let traces = traces.clamp(1, MOST_TRACES);
        let reel = reels::make(CODE, samples, REEL_HEADERS + traces * (240 + 4 * n));
        let mut first = vec![1; record_length(&reel, CODE)];
        independent::read_reel(&reel, &mut first).expect("a valid reel");
        let second = |&kind: &Second| (kind, kind.of(&first, samples));
        Held {
            samples,
            seconds: kinds.iter().map(second).collect(),
            first,
        }
    }

    /// The second record of a kind.
    pub fn second(&self, kind: Second) -> &[u8] {
        let found = self.seconds.iter().find(|(one, _)| *one == kind);
        let (_, record) = found.expect("a record of that kind");
        record
    }
}

/// A way to compare two records.
pub type Comparing = fn(&[u8], &[u8]) -> Result<Ordering, RefusedOf>;

/// A comparing has to give the order that each second record was made for, its reverse the other way round,
/// and what the independent implementation gives.
pub fn agree(held: &Held, compare: Comparing) {
    for (kind, second) in &held.seconds {
        let order = kind.order();
        let first = &held.first;
        assert_eq!(compare(first, second), Ok(order), "{kind:?}");
        assert_eq!(compare(second, first), Ok(order.reverse()), "{kind:?}");
        let independent = independent::compare(first, second);
        assert_eq!(independent, Ok(order), "the independent one, {kind:?}");
        assert_eq!(*kind == Second::Equal, first == second);
    }
}
