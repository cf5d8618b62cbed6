//! Cards: 3,200 bytes with 40 in place of each 00, by loops in plain Rust; and the library's calls on a small
//! reel and its record, which are cards for the larger part.

use crate::passes::{CARD_BYTES, FIELD_HEAD, REEL_HEADERS};
use crate::reels::{self, Zeros, ZEROS};
use crate::versions::Version;
use crate::{in_turns, record_length, tables, Options};
use aukpocket::LISTING_LENGTH;
use std::array;
use std::hint::black_box;
use std::sync::atomic::{compiler_fence, Ordering};
use std::time::Instant;

/// How many runs there are, and how many calls in a row are timed as one.
pub const RUNS: usize = 1_001;
pub const CALLS: usize = 256;

/// How far an output lies behind its input matters, so there are so many of each, every one so much farther
/// than the one before, and each run takes the next.
pub const PLACES: usize = 8;
const FARTHER: usize = 528;

/// The code of the small reel, and the samples of its only trace.
pub const CODE: u32 = 1;
pub const SAMPLES: u16 = 100;

/// What is timed: a loop over the cards of the small reel, or a call of the library.
#[derive(Clone, Copy)]
enum What {
    Loop(Blanking),
    Call(Small),
}

/// The best seconds of a loop or a call, by which card bytes are 00.
pub struct Row {
    pub name: &'static str,
    pub seconds: [f64; ZEROS.len()],
}

/// All loops and calls on all kinds of cards in turn in each run, each run beginning with another of them;
/// the best run counts.
pub fn compare(options: &Options) {
    let runs = options.runs.unwrap_or(RUNS);
    let library = Version::linked();
    let mut kinds = ZEROS.map(|(zeros, _)| lents(zeros));
    for lents in &mut kinds {
        agree(&library, lents);
    }
    let mut places = in_places(&kinds[0]);

    let loops = LOOPS.map(|(name, blanking)| (name, What::Loop(blanking)));
    let memcpy = [("memcpy", What::Loop(copy))];
    let calls = SMALL.map(|(call, name)| (name, What::Call(call)));
    let all = [&loops[..], &memcpy, &calls].concat();
    let best = in_turns(runs, all.len() * ZEROS.len(), |run, turn| {
        let (_, what) = all[turn / ZEROS.len()];
        let call = match what {
            What::Loop(_) => Small::Read,
            What::Call(call) => call,
        };
        // All kinds stand in the same buffers.
        let lent = &mut places[run % PLACES][call as usize];
        lent.fill(&kinds[turn % ZEROS.len()][call as usize]);
        match what {
            What::Loop(blanking) => {
                let (cards, out) = lent.cards();
                timed(|| blanking(black_box(cards), black_box(out)))
            }
            What::Call(call) => timed(|| assert!(library.small(call, lent))),
        }
    });
    let rows: Vec<Row> = all
        .iter()
        .zip(best.chunks_exact(ZEROS.len()))
        .map(|(&(name, _), seconds)| Row {
            name,
            seconds: seconds.try_into().expect("one of each kind"),
        })
        .collect();
    let (loops, calls) = rows.split_at(all.len() - SMALL.len());
    tables::cards(loops, calls, runs);
}

/// All have to give what the independent implementation gives.
pub fn agree(library: &Version, lents: &mut Lents) {
    for (call, name) in SMALL {
        let lent = &mut lents[call as usize];
        lent.out.fill(1);
        assert!(library.small(call, lent), "{name} is refused");
        assert!(lent.out == lent.given, "{name} gives other bytes");
    }
    let lent = &mut lents[Small::Read as usize];
    for (name, blanking) in LOOPS {
        lent.out.fill(1);
        let (cards, out) = lent.cards();
        blanking(cards, out);
        assert!(
            held_cards(&lent.out) == held_cards(&lent.given),
            "{name} gives other bytes"
        );
    }
}

/// The seconds of a call, by many in a row behind one that isn't timed.
pub fn timed(mut call: impl FnMut()) -> f64 {
    call();
    let start = Instant::now();
    for _ in 0..CALLS {
        call();
    }
    start.elapsed().as_secs_f64() / CALLS as f64
}

// ## Loops in Rust

pub type CardBytes = [u8; CARD_BYTES];
pub type Blanking = fn(&CardBytes, &mut CardBytes);

/// The loops that put 40 in place of each 00, by their names.
pub const LOOPS: [(&str, Blanking); 5] = [
    ("bytes, no vectors", bytes_alone),
    ("bytes", bytes),
    ("words of eight, no vectors", words_alone),
    ("words of eight", words),
    ("400 calls of aukpocket_blank_eight", calls),
];

const WORD: usize = 8;

fn blank(byte: u8) -> u8 {
    if byte == 0 {
        0x40
    } else {
        byte
    }
}

/// As the library does it: a byte whose high bit is set, less 1, has lost that bit where the other seven are 0.
fn blank_eight(cards: u64) -> u64 {
    let high = cards | 0x8080_8080_8080_8080;
    let less = high - 0x0101_0101_0101_0101;
    let some = (less | cards) & 0x8080_8080_8080_8080;
    cards ^ ((some ^ 0x8080_8080_8080_8080) / 2)
}

fn bytes(cards: &CardBytes, out: &mut CardBytes) {
    for (to, &byte) in out.iter_mut().zip(cards) {
        *to = blank(byte);
    }
}

fn words(cards: &CardBytes, out: &mut CardBytes) {
    by_words(cards, out, blank_eight);
}

/// The compiler makes no vectors across a fence, which is no instruction.
fn bytes_alone(cards: &CardBytes, out: &mut CardBytes) {
    for (to, &byte) in out.iter_mut().zip(cards) {
        *to = blank(byte);
        compiler_fence(Ordering::SeqCst);
    }
}

fn words_alone(cards: &CardBytes, out: &mut CardBytes) {
    by_words(cards, out, |word| {
        compiler_fence(Ordering::SeqCst);
        blank_eight(word)
    });
}

fn calls(cards: &CardBytes, out: &mut CardBytes) {
    by_words(cards, out, aukpocket::blank_eight);
}

/// Eight bytes at a time, fetched and stored with the first lowest, as the library does.
#[inline(always)]
fn by_words(cards: &CardBytes, out: &mut CardBytes, blanked: impl Fn(u64) -> u64) {
    for (to, word) in out.chunks_exact_mut(WORD).zip(cards.chunks_exact(WORD)) {
        let word = u64::from_le_bytes(word.try_into().expect("eight bytes"));
        to.copy_from_slice(&blanked(word).to_le_bytes());
    }
}

fn copy(cards: &CardBytes, out: &mut CardBytes) {
    out.copy_from_slice(cards);
}

// ## Calls of the library

/// A call on the small reel, on its headers alone, or on its record.
#[derive(Clone, Copy, PartialEq)]
pub enum Small {
    ReadHeaders,
    Read,
    Write,
    Nearest,
    List,
    Take,
}

/// These calls, by their names.
pub const SMALL: [(Small, &str); 6] = [
    (Small::ReadHeaders, "reading a reel without traces"),
    (Small::Read, "reading"),
    (Small::Write, "writing"),
    (Small::Nearest, "nearest writing"),
    (Small::List, "listing the cards"),
    (Small::Take, "taking the listing back"),
];

/// What a call is lent, with a listing where it takes one back; room for its output; and what it has to
/// give, by the independent implementation.
pub struct Lent {
    pub input: Vec<u8>,
    pub listing: Vec<u8>,
    pub out: Vec<u8>,
    pub given: Vec<u8>,
}

/// What each of the calls is lent.
pub type Lents = [Lent; SMALL.len()];

pub fn lents(zeros: Zeros) -> Lents {
    SMALL.map(|(call, _)| Lent::new(call, zeros))
}

/// The same at each place.
pub fn in_places(lents: &Lents) -> [Lents; PLACES] {
    array::from_fn(|place| lents.each_ref().map(|lent| lent.farther(place * FARTHER)))
}

impl Lent {
    fn new(call: Small, zeros: Zeros) -> Lent {
        let mut reel = reels::make_small(CODE, SAMPLES, zeros);
        if call == Small::ReadHeaders {
            reel.truncate(REEL_HEADERS);
        }
        let mut record = vec![1; record_length(&reel, CODE)];
        independent::read_reel(&reel, &mut record).expect("a valid reel");
        let mut listing = vec![1; LISTING_LENGTH];
        independent::list_cards(&record, &mut listing).expect("a valid record");

        let none = Vec::new();
        let (input, listing, given) = match call {
            Small::ReadHeaders | Small::Read => (reel, none, record),
            Small::Write | Small::Nearest => {
                independent::write_reel(&record, CODE, &mut reel).expect("a valid record");
                (record, none, reel)
            }
            Small::List => (record, none, listing),
            Small::Take => (record.clone(), listing, record),
        };
        Lent {
            input,
            listing,
            out: vec![1; given.len()],
            given,
        }
    }

    /// The same, with so much room left behind the input.
    fn farther(&self, bytes: usize) -> Lent {
        let mut input = Vec::with_capacity(self.input.len() + bytes);
        input.extend_from_slice(&self.input);
        Lent {
            input,
            listing: self.listing.clone(),
            out: self.out.clone(),
            given: self.given.clone(),
        }
    }

    /// Takes the input of another, which has the same lengths.
    fn fill(&mut self, other: &Lent) {
        self.input.copy_from_slice(&other.input);
        self.listing.copy_from_slice(&other.listing);
    }

    /// The cards of a reel that is read, and room for those of its record.
    fn cards(&mut self) -> (&CardBytes, &mut CardBytes) {
        let cards = self.input.first_chunk().expect("a reel's cards");
        let room = self.out[FIELD_HEAD..].first_chunk_mut();
        (cards, room.expect("a record's cards"))
    }
}

/// The cards of a record.
fn held_cards(record: &[u8]) -> &[u8] {
    &record[FIELD_HEAD..][..CARD_BYTES]
}
