//! The reels that are read and written, and the records that are written to the nearest, made on the spot
//! and the same at every run.

use crate::passes::{field_bytes, held_pairs, held_stride, sample_bytes};
use crate::passes::{CARD_BYTES, FIELD_HEAD, FIELD_SAMPLES, MOST_TRACES, PAIR_BYTES, REEL_HEADERS};
use crate::passes::{CHECK, RECORD_END, RECORD_HEAD, TRACE_FIELDS, TRAILER, TRAILER_END};

const TRACE_HEADER: usize = 240;
const INTERVAL: u16 = 2_000;

/// The check of an Eagle reel. A record has blanks in its place, whatever it is.
const EAGLE_CHECK: [u8; 2] = [0xC1, 0xF7];

/// What the samples of each code are, for the reader of a table.
pub const SAMPLES: [(u32, &str); 6] = [
    (1, "normal IBM words, characteristics 58 to 70 (most near 64), both signs, random fractions; 1 in 64 is zero"),
    (2, "32-bit numbers of 8 to 32 bits, both signs; 1 in 64 is zero"),
    (3, "16-bit numbers of 4 to 16 bits, both signs; 1 in 64 is zero"),
    (4, "gain words, gains 0 to 15, 16-bit numbers of both signs; 1 in 64 is zero"),
    (5, "IEEE words, exponents 103 to 151 (most near 127), both signs, random fractions; 1 in 64 is zero"),
    (8, "8-bit numbers of 4 to 8 bits, both signs; 1 in 64 is zero; the reel ends at 100,000 traces"),
];

/// Of the reel that is compared for its words that aren't normal: one word in so many, and what those are.
pub const ONE_IN: u32 = 16;
pub const NOT_NORMAL: &str =
    "1 in 16 not normal: of these 6 in 8 have 1 to 5 zeros in front of their fraction, 1 in 8 is zero with a characteristic, 1 in 8 is 80000000";

/// What the samples of a record are to the code under which it is written to the nearest.
#[derive(Clone, Copy, PartialEq)]
pub enum Kind {
    Fit,
    Half,
    Rounded,
    Beyond,
}

/// These kinds by their names, and for the reader of a table.
pub const KINDS: [(Kind, &str, &str); 4] = [
    (
        Kind::Fit,
        "all fit",
        "the samples of the code's reel, none of which changes",
    ),
    (
        Kind::Half,
        "1 in 2 rounded",
        "as the next, but 1 in 2, at random, is a whole number of 1 to 7 bits, which doesn't change",
    ),
    (
        Kind::Rounded,
        "all rounded",
        "odd mantissas of 25 to 31 bits, both signs; before the point -24 to 24 bits under codes 1 and 5, 0 to 23 under code 2, 0 to 15 under codes 3 and 4, 0 to 7 under code 8; 1 in 64 is zero, and all others change",
    ),
    (
        Kind::Beyond,
        "1 in 8 beyond",
        "the same, but 1 in 8, at random, is 1 to 8 bits beyond the range",
    ),
];

/// Which card bytes of a small reel are 00.
#[derive(Clone, Copy)]
pub enum Zeros {
    No,
    All,
    Third,
}

/// These kinds, for the reader of a table. All other card bytes are drawn from 01 to FF.
pub const ZEROS: [(Zeros, &str); 3] = [
    (Zeros::No, "no 00"),
    (Zeros::All, "all 00"),
    (Zeros::Third, "1 in 3 is 00, at random"),
];

/// How many bits values have before the point, the least and the most: of those that are within the range
/// of a code and have to be rounded, and of those that are beyond it.
fn bits_within(code: u32) -> (i16, i16) {
    match code {
        1 | 5 => (-24, 24),
        2 => (0, 23),
        3 | 4 => (0, 15),
        _ => (0, 7),
    }
}

fn bits_beyond(code: u32) -> (i16, i16) {
    let within = match code {
        1 => 252,
        2 => 31,
        3 | 4 => 15,
        5 => 128,
        _ => 7,
    };
    (within + 1, within + 8)
}

/// What the trace headers are: the elevations and the coordinates. Either scalar is drawn anew for each
/// trace, which is harder than a reel that has one.
pub const HEADERS: &str =
    "elevations and depths of 10 to 9,999 under scalar 1 or -10, both signs, 1 in 4 zero; coordinates of 100,000 to 9,999,999 under 1, -10 or -100, both signs, 1 in 16 zero";

/// Offsets in a trace header, and the scalars that are drawn.
const ELEVATIONS: usize = 40;
const ELEVATION_SCALAR: usize = 68;
const ELEVATION_SCALARS: [i16; 2] = [1, -10];
const COORDINATE_SCALAR: usize = 70;
const COORDINATES: usize = 72;
const COORDINATES_END: usize = 88;
const COORDINATE_SCALARS: [i16; 3] = [1, -10, -100];

/// Knuth's multiplier and increment, and the permuted output of O'Neill's PCG.
pub struct Random(pub u64);

impl Random {
    fn next(&mut self) -> u32 {
        let state = self.0;
        self.0 = state
            .wrapping_mul(6_364_136_223_846_793_005)
            .wrapping_add(1_442_695_040_888_963_407);
        let mixed = ((state >> 18 ^ state) >> 27) as u32;
        mixed.rotate_right((state >> 59) as u32)
    }

    pub fn below(&mut self, limit: u32) -> u32 {
        ((u64::from(self.next()) * u64::from(limit)) >> 32) as u32
    }

    /// Any bytes.
    fn fill(&mut self, bytes: &mut [u8]) {
        for some in bytes.chunks_mut(4) {
            let any = self.next().to_be_bytes();
            some.copy_from_slice(&any[..some.len()]);
        }
    }

    fn one_of(&mut self, scalars: &[i16]) -> [u8; 2] {
        let scalar = scalars[self.below(scalars.len() as u32) as usize];
        scalar.to_be_bytes()
    }

    /// A number of so many decimal digits, of either sign; one in so many is zero.
    fn number(&mut self, least_digits: u32, most_digits: u32, one_in: u32) -> [u8; 4] {
        if self.below(one_in) == 0 {
            return [0; 4];
        }
        let least = 10u32.pow(least_digits - 1 + self.below(most_digits - least_digits + 1));
        let magnitude = (least + self.below(9 * least)) as i32;
        let number = if self.next() >> 31 == 0 {
            magnitude
        } else {
            -magnitude
        };
        number.to_be_bytes()
    }

    /// The elevations and the coordinates, each with their scalar.
    fn put_groups(&mut self, header: &mut [u8]) {
        for number in header[ELEVATIONS..ELEVATION_SCALAR].chunks_exact_mut(4) {
            number.copy_from_slice(&self.number(2, 4, 4));
        }
        let scalar = self.one_of(&ELEVATION_SCALARS);
        header[ELEVATION_SCALAR..][..2].copy_from_slice(&scalar);
        let scalar = self.one_of(&COORDINATE_SCALARS);
        header[COORDINATE_SCALAR..][..2].copy_from_slice(&scalar);
        for number in header[COORDINATES..COORDINATES_END].chunks_exact_mut(4) {
            number.copy_from_slice(&self.number(6, 7, 16));
        }
    }

    /// The first byte of a normal IBM word other than zero, and its fraction.
    fn ibm(&mut self) -> (u32, u32) {
        let characteristic = 58 + self.below(5) + self.below(5) + self.below(5);
        let fraction = 0x10_0000 + self.below(0xF0_0000);
        let sign = self.next() >> 31;
        (sign << 7 | characteristic, fraction)
    }

    /// An IBM word that isn't normal.
    pub fn not_normal(&mut self) -> [u8; 4] {
        let (first, fraction) = self.ibm();
        let word = match self.below(8) {
            0 => 0x8000_0000,
            1 => first << 24,
            _ => first << 24 | fraction >> (4 + 4 * self.below(5)),
        };
        word.to_be_bytes()
    }

    fn word(&mut self, code: u32) -> [u8; 4] {
        if self.below(64) == 0 {
            return [0; 4];
        }
        match code {
            1 => {
                let (first, fraction) = self.ibm();
                (first << 24 | fraction).to_be_bytes()
            }
            2 => {
                let number = self.next() as i32;
                (number >> self.below(25)).to_be_bytes()
            }
            3 => {
                let number = self.next() as i32 >> (16 + self.below(13));
                ((number as u32) << 16).to_be_bytes()
            }
            4 => {
                let number = self.next() & 0xFFFF;
                (self.below(16) << 16 | number).to_be_bytes()
            }
            5 => {
                let exponent = 103 + self.below(17) + self.below(17) + self.below(17);
                let fraction = self.below(0x80_0000);
                let sign = self.next() >> 31;
                (sign << 31 | exponent << 23 | fraction).to_be_bytes()
            }
            _ => {
                let number = self.next() as i32 >> (24 + self.below(5));
                ((number as u32) << 24).to_be_bytes()
            }
        }
    }
}

impl Random {
    /// The pair of a sample of a kind, but for those that fit.
    pub fn pair(&mut self, code: u32, kind: Kind) -> [u8; PAIR_BYTES] {
        if self.below(64) == 0 {
            return [0; PAIR_BYTES];
        }
        if kind == Kind::Half && self.below(2) == 0 {
            let odd = self.below(128) as i32 | 1;
            return self.with_sign(0, odd);
        }
        let (least, most) = if kind == Kind::Beyond && self.below(8) == 0 {
            bits_beyond(code)
        } else {
            bits_within(code)
        };
        let bits = 25 + self.below(7);
        let odd = ((0x8000_0000 | self.next()) >> (32 - bits) | 1) as i32;
        let before = least + self.below((most - least + 1) as u32) as i16;
        self.with_sign(before - bits as i16, odd)
    }

    /// The pair of an exponent and a mantissa of either sign.
    fn with_sign(&mut self, e: i16, odd: i32) -> [u8; PAIR_BYTES] {
        let m = if self.next() >> 31 == 0 { odd } else { -odd };
        let ([a, b], [c, d, e, f]) = (e.to_be_bytes(), m.to_be_bytes());
        [a, b, c, d, e, f]
    }
}

/// A record for a code whose reel has about so many bytes.
pub fn make_record(code: u32, samples: u16, bytes: usize, kind: Kind) -> Vec<u8> {
    let reel = make(code, samples, bytes);
    let mut record = vec![1; crate::record_length(&reel, code)];
    independent::read_reel(&reel, &mut record).expect("a valid reel");
    if kind == Kind::Fit {
        return record;
    }
    let mut random = Random(1980 + u64::from(code));
    for pairs in held_pairs(&mut record, usize::from(samples)) {
        for pair in pairs.chunks_exact_mut(PAIR_BYTES) {
            pair.copy_from_slice(&random.pair(code, kind));
        }
    }
    record
}

/// A record in the new form, with the samples of each trace in fields of another share, by its number from
/// 0 on. A length that has no room in two bytes loses what is beyond them.
pub fn with_shares(
    record: &[u8],
    samples: u16,
    mut share_of: impl FnMut(usize) -> usize,
) -> Vec<u8> {
    let (front, behind) = record.split_at(RECORD_HEAD);
    let (traces, end) = behind.split_at(behind.len() - RECORD_END);
    let mut shared = front.to_vec();
    let stride = held_stride(usize::from(samples));
    for (held, trace) in traces.chunks_exact(stride).zip(0..) {
        let (header, fields) = held.split_at(FIELD_HEAD + TRACE_FIELDS);
        shared.extend_from_slice(header);
        let pairs: Vec<&[u8]> = fields
            .chunks(field_bytes(FIELD_SAMPLES))
            .map(|field| &field[FIELD_HEAD..])
            .collect();
        for pairs in pairs.concat().chunks(share_of(trace) * PAIR_BYTES) {
            let [high, low] = (pairs.len() as u16).to_be_bytes();
            shared.extend_from_slice(&[4, high, low]);
            shared.extend_from_slice(pairs);
        }
    }
    shared.extend_from_slice(end);
    shared
}

/// A record in the new form, of 6,001 to 8,000 samples a trace, in the earlier form.
pub fn earlier(record: &[u8], samples: u16) -> Vec<u8> {
    with_shares(record, samples, |_| usize::from(samples))
}

/// A reel of code 1 of about so many bytes, in which one word in so many isn't normal.
pub fn make_not_normal(samples: u16, bytes: usize, one_in: u32) -> Vec<u8> {
    let mut reel = make(1, samples, bytes);
    let mut random = Random(u64::from(one_in));
    let stride = TRACE_HEADER + 4 * usize::from(samples);
    for trace in reel[REEL_HEADERS..].chunks_exact_mut(stride) {
        for word in trace[TRACE_HEADER..].chunks_exact_mut(4) {
            if random.below(one_in) == 0 {
                word.copy_from_slice(&random.not_normal());
            }
        }
    }
    reel
}

/// The Eagle reel of a plain one of code 1: the same traces, each with a trailer of any bytes behind it, and
/// a check on card 40.
pub fn with_trailers(plain: &[u8], samples: u16) -> Vec<u8> {
    let (headers, behind) = plain.split_at(REEL_HEADERS);
    let stride = TRACE_HEADER + 4 * usize::from(samples);
    let traces = behind.len() / stride;
    let mut reel = vec![0; plain.len() + traces * TRAILER];
    let mut random = Random(1983);

    let (to, rest) = reel.split_at_mut(REEL_HEADERS);
    to.copy_from_slice(headers);
    to[CHECK].copy_from_slice(&EAGLE_CHECK);
    for (to, trace) in rest
        .chunks_exact_mut(stride + TRAILER)
        .zip(behind.chunks_exact(stride))
    {
        let (to, trailer) = to.split_at_mut(stride);
        to.copy_from_slice(trace);
        let (any, end) = trailer.split_at_mut(TRAILER - TRAILER_END.len());
        random.fill(any);
        end.copy_from_slice(&TRAILER_END);
    }
    reel
}

/// A reel of a code, of one trace, with any bytes on its cards.
pub fn make_small(code: u32, samples: u16, zeros: Zeros) -> Vec<u8> {
    let mut reel = make(code, samples, 0);
    let mut random = Random(1964);
    for byte in &mut reel[..CARD_BYTES] {
        let other = 1 + random.below(255) as u8;
        *byte = match zeros {
            Zeros::All => 0,
            Zeros::Third if random.below(3) == 0 => 0,
            Zeros::No | Zeros::Third => other,
        };
    }
    reel
}

/// A reel of a code, of about so many bytes, or of the most traces that there may be. All words of code 1
/// are normal.
pub fn make(code: u32, samples: u16, bytes: usize) -> Vec<u8> {
    let width = sample_bytes(code);
    let stride = TRACE_HEADER + usize::from(samples) * width;
    let traces = (bytes.saturating_sub(REEL_HEADERS) / stride).clamp(1, MOST_TRACES);
    let mut reel = vec![0; REEL_HEADERS + traces * stride];
    let mut random = Random(1975 + u64::from(code));

    let (headers, behind) = reel.split_at_mut(REEL_HEADERS);
    headers[..CARD_BYTES].fill(0x40);
    headers[3_216..3_218].copy_from_slice(&INTERVAL.to_be_bytes());
    headers[3_220..3_222].copy_from_slice(&samples.to_be_bytes());
    headers[3_224..3_226].copy_from_slice(&(code as u16).to_be_bytes());
    for (trace, number) in behind.chunks_exact_mut(stride).zip(1u32..) {
        let (header, words) = trace.split_at_mut(TRACE_HEADER);
        random.fill(&mut header[8..114]);
        random.put_groups(header);
        header[..4].copy_from_slice(&number.to_be_bytes());
        header[4..8].copy_from_slice(&number.to_be_bytes());
        header[114..116].copy_from_slice(&samples.to_be_bytes());
        header[116..118].copy_from_slice(&INTERVAL.to_be_bytes());
        for word in words.chunks_exact_mut(width) {
            word.copy_from_slice(&random.word(code)[..width]);
        }
    }
    reel
}
