//! The library's passes in plain Rust, tuned by what measured faster: signed numbers in place of
//! sign and magnitude, no branch on a sign, and no test for a canonical pair in the second pass, for
//! which the first has looked. IBM words, and IEEE words for their exponents, are looked at with their first
//! byte lowest. A group of a trace header is raised by tables, without a loop. The loops that read samples and
//! that look at pairs are functions of their own: within the loop over a trace's fields a register is wanting.

use crate::passes::{self, Steps, NOT_CANONICAL, PAIR_BYTES, UNFIT};
use crate::passes::{COORDINATES, COORDINATE_SCALAR, ELEVATIONS, ELEVATION_SCALAR};
use independent::{ReelRead, Refused, Taken};
use std::array;

const DENOMINATOR_POWER: i32 = 280;
const LEAST_EXPONENT: i16 = -280;
const MOST_EXPONENT: i16 = 251;

struct Tuned;

#[inline(never)]
pub fn read_reel(reel: &[u8], out: &mut [u8]) -> Result<ReelRead, Refused> {
    passes::read_reel::<Tuned, false>(reel, out)
}

#[inline(never)]
pub fn write_reel(record: &[u8], code: u32, out: &mut [u8]) -> Result<Taken, Refused> {
    passes::write_reel::<Tuned>(record, code, out)
}

impl Steps for Tuned {
    #[inline(always)]
    fn is_allowed(scalar: i16) -> bool {
        matches!(scalar.unsigned_abs(), 0 | 1 | 10 | 100 | 1_000 | 10_000)
    }

    #[inline(always)]
    fn put_groups(header: &[u8], fields: &mut [u8]) {
        put_group::<7>(header, ELEVATIONS, ELEVATION_SCALAR, fields);
        put_group::<4>(header, COORDINATES, COORDINATE_SCALAR, fields);
    }

    #[inline(always)]
    fn refused_scalar(fields: &[u8]) -> Option<usize> {
        if !is_smallest::<7>(fields, ELEVATIONS, ELEVATION_SCALAR) {
            return Some(ELEVATION_SCALAR);
        }
        if !is_smallest::<4>(fields, COORDINATES, COORDINATE_SCALAR) {
            return Some(COORDINATE_SCALAR);
        }
        None
    }

    #[inline(always)]
    fn refused_gain(words: &[u8]) -> Option<usize> {
        words.chunks_exact(4).position(|word| word[0] != 0)
    }

    #[inline(always)]
    fn refused_ieee(words: &[u8]) -> Option<usize> {
        let words = words.as_chunks().0.iter();
        let mut words = words.map(|&word| u32::from_le_bytes(word));
        let any = words
            .clone()
            .fold(false, |any, word| any | is_not_finite(word));
        any.then(|| words.position(is_not_finite)).flatten()
    }

    #[inline(always)]
    fn count_words(code: u32, words: &[u8]) -> u64 {
        let words = words
            .as_chunks()
            .0
            .iter()
            .map(|&word| u32::from_le_bytes(word));
        if code != 1 || !words.clone().fold(false, |any, word| any | may_count(word)) {
            return 0;
        }
        words
            .map(|word| u32::from(counts(word)))
            .sum::<u32>()
            .into()
    }

    #[inline(never)]
    fn put_pairs(code: u32, words: &[u8], pairs: &mut [u8]) {
        match code {
            1 => put_pairs(words, pairs, ibm),
            2 => put_pairs(words, pairs, |word| whole32(i32::from_be_bytes(word))),
            3 => put_pairs(words, pairs, |word| whole16(i16::from_be_bytes(word))),
            4 => put_pairs(words, pairs, gain),
            5 => put_pairs(words, pairs, |word| ieee(u32::from_be_bytes(word))),
            _ => put_pairs(words, pairs, |word| whole8(i8::from_be_bytes(word))),
        }
    }

    #[inline(never)]
    fn check_pairs(code: u32, pairs: &[u8]) -> Result<(), (u64, usize)> {
        match code {
            1 => check_pairs(pairs, Pair::ibm_word),
            2 => check_pairs(pairs, Pair::whole32_word),
            3 => check_pairs(pairs, Pair::whole16_word),
            4 => check_pairs(pairs, Pair::gain_word),
            5 => check_pairs(pairs, Pair::ieee_word),
            _ => check_pairs(pairs, Pair::whole8_word),
        }
    }

    fn uncanonical_pair(pairs: &[u8]) -> Option<usize> {
        pairs
            .chunks_exact(PAIR_BYTES)
            .position(|pair| !Pair::of(pair).is_canonical())
    }

    #[inline(always)]
    fn put_words(code: u32, pairs: &[u8], words: &mut [u8]) {
        match code {
            1 => put_words(pairs, words, Pair::ibm_word),
            2 => put_words(pairs, words, Pair::whole32_word),
            3 => put_words(pairs, words, Pair::whole16_word),
            4 => put_words(pairs, words, Pair::gain_word),
            5 => put_words(pairs, words, Pair::ieee_word),
            _ => put_words(pairs, words, Pair::whole8_word),
        }
    }
}

// ## Elevations and coordinates

/// The scalars of the powers of ten from -4 to 4.
const SCALARS: [i16; 9] = [-10_000, -1_000, -100, -10, 1, 10, 100, 1_000, 10_000];

/// Ten to the powers of 0 to 8, and the largest magnitudes behind which 1 to 8 zeros can be put.
const TENS: [i32; 9] = {
    let mut tens = [1; 9];
    let mut zeros = 1;
    while zeros < 9 {
        tens[zeros] = tens[zeros - 1] * 10;
        zeros += 1;
    }
    tens
};
const LARGEST: [u32; 8] = {
    let mut largest = [0; 8];
    let mut zeros = 1;
    while zeros < 9 {
        largest[zeros - 1] = (i32::MAX / TENS[zeros]) as u32;
        zeros += 1;
    }
    largest
};

#[inline(always)]
fn numbers_at<const K: usize>(fields: &[u8], at: usize) -> [i32; K] {
    let numbers = fields[at..at + 4 * K].as_chunks().0;
    array::from_fn(|k| i32::from_be_bytes(numbers[k]))
}

#[inline(always)]
fn scalar_at(fields: &[u8], at: usize) -> i16 {
    i16::from_be_bytes([fields[at], fields[at + 1]])
}

#[inline(always)]
fn largest_of<const K: usize>(numbers: [i32; K]) -> u32 {
    numbers.map(i32::unsigned_abs).into_iter().fold(0, u32::max)
}

/// Puts the K numbers and the scalar of a group as a record holds them.
#[inline(always)]
fn put_group<const K: usize>(header: &[u8], at: usize, scalar: usize, fields: &mut [u8]) {
    let numbers = numbers_at::<K>(header, at);
    let power = match scalar_at(header, scalar) {
        -10_000 => 0,
        -1_000 => 1,
        -100 => 2,
        -10 => 3,
        10 => 5,
        100 => 6,
        1_000 => 7,
        10_000 => 8,
        _ => 4,
    };
    let magnitude = largest_of(numbers);
    let fit = LARGEST.map(|largest| usize::from(magnitude <= largest));
    let zeros = power.min(fit.into_iter().sum());
    let (bytes, _) = fields[at..at + 4 * K].as_chunks_mut();
    for (bytes, number) in bytes.iter_mut().zip(numbers) {
        *bytes = (number * TENS[zeros]).to_be_bytes();
    }
    fields[scalar..scalar + 2].copy_from_slice(&SCALARS[power - zeros].to_be_bytes());
}

/// A scalar is that of the smallest power where it is the least, or where the numbers take no zero.
#[inline(always)]
fn is_smallest<const K: usize>(fields: &[u8], at: usize, scalar: usize) -> bool {
    match scalar_at(fields, scalar) {
        -10_000 => true,
        -1_000 | -100 | -10 | 1 | 10 | 100 | 1_000 | 10_000 => {
            largest_of(numbers_at::<K>(fields, at)) > LARGEST[0]
        }
        _ => false,
    }
}

// ## Counting

/// Whether the first digit of F is 0 and the first byte, under a mask, isn't. The word has
/// its first byte lowest; 15 less the digit stands over that byte, so that one comparison is enough.
#[inline(always)]
fn is_low(word: u32, mask: u32) -> bool {
    (word & (0xF000 | mask) ^ 0xF000) as i32 > 0xF000
}

#[inline(always)]
fn may_count(word: u32) -> bool {
    is_low(word, 0xFF)
}

#[inline(always)]
fn counts(word: u32) -> bool {
    is_low(word, 0x7F) | (word == 0x80)
}

// ## Reading

/// Whether the exponent is 255, of a word that has its first byte lowest.
#[inline(always)]
fn is_not_finite(word: u32) -> bool {
    word & 0x807F == 0x807F
}

fn put_pairs<const W: usize>(words: &[u8], pairs: &mut [u8], pair_of: impl Fn([u8; W]) -> Pair) {
    for (word, pair) in words
        .chunks_exact(W)
        .zip(pairs.chunks_exact_mut(PAIR_BYTES))
    {
        let Pair { e, m } = pair_of(word.try_into().unwrap());
        pair[..2].copy_from_slice(&e.to_be_bytes());
        pair[2..].copy_from_slice(&m.to_be_bytes());
    }
}

#[derive(Clone, Copy)]
struct Pair {
    e: i16,
    m: i32,
}

/// The canonical pair of `number` × 2^`exponent`: the power of two is counted out of the number.
/// Signs and zeros come in no order that a processor could foresee, so neither is branched on.
#[inline(always)]
fn canonical(number: i32, exponent: i32) -> Pair {
    let twos = number.trailing_zeros();
    let e = exponent as i16 + twos as i16;
    Pair {
        e: if number == 0 { 0 } else { e },
        m: number.wrapping_shr(twos),
    }
}

/// Sign and magnitude. The first byte is taken before the bytes are swapped.
#[inline(always)]
fn ibm(word: [u8; 4]) -> Pair {
    let first = word[0];
    let magnitude = (u32::from_be_bytes(word) & 0xFF_FFFF) as i32;
    let number = if first < 0x80 { magnitude } else { -magnitude };
    canonical(number, i32::from(first) * 4 % 512 - DENOMINATOR_POWER)
}

#[inline(always)]
fn whole32(number: i32) -> Pair {
    canonical(number, 0)
}

#[inline(always)]
fn whole16(number: i16) -> Pair {
    canonical(i32::from(number), 0)
}

#[inline(always)]
fn whole8(number: i8) -> Pair {
    canonical(i32::from(number), 0)
}

/// The exponent has been found not to be 255. Few are 0, so that is branched on: a normal number has the
/// hidden bit, and isn't zero.
#[inline(always)]
fn ieee(word: u32) -> Pair {
    let fraction = (word & 0x7F_FFFF) as i32;
    let with_sign = |magnitude: i32| {
        if (word as i32) < 0 {
            -magnitude
        } else {
            magnitude
        }
    };
    match (word >> 23 & 0xFF) as i32 {
        0 => canonical(with_sign(fraction), -149),
        exponent => canonical(with_sign(fraction | 0x80_0000), exponent - 150),
    }
}

/// The first byte has been found to be 00.
#[inline(always)]
fn gain([_, g, high, low]: [u8; 4]) -> Pair {
    let number = i16::from_be_bytes([high, low]);
    canonical(i32::from(number), -i32::from(g))
}

// ## Writing

fn check_pairs<const W: usize>(
    pairs: &[u8],
    word_of: impl Fn(Pair) -> Option<[u8; W]>,
) -> Result<(), (u64, usize)> {
    for (k, pair) in pairs.chunks_exact(PAIR_BYTES).map(Pair::of).enumerate() {
        if !pair.is_canonical() {
            return Err((NOT_CANONICAL, k));
        }
        if word_of(pair).is_none() {
            return Err((UNFIT, k));
        }
    }
    Ok(())
}

fn put_words<const W: usize>(
    pairs: &[u8],
    words: &mut [u8],
    word_of: impl Fn(Pair) -> Option<[u8; W]>,
) {
    for (pair, word) in pairs
        .chunks_exact(PAIR_BYTES)
        .zip(words.chunks_exact_mut(W))
    {
        word.copy_from_slice(&word_of(Pair::of(pair)).unwrap_or([0; W]));
    }
}

impl Pair {
    #[inline(always)]
    fn of(bytes: &[u8]) -> Pair {
        let (e, m) = bytes.split_at(2);
        Pair {
            e: i16::from_be_bytes(e.try_into().unwrap()),
            m: i32::from_be_bytes(m.try_into().unwrap()),
        }
    }

    /// The most negative mantissa is even, so an odd one is within its limits.
    #[inline(always)]
    fn is_canonical(self) -> bool {
        if self.m == 0 {
            self.e == 0
        } else {
            self.m % 2 != 0 && (LEAST_EXPONENT..=MOST_EXPONENT).contains(&self.e)
        }
    }

    /// The largest characteristic that leaves the fraction whole, then digit by digit down from it.
    #[inline(always)]
    fn ibm_word(self) -> Option<[u8; 4]> {
        if self.m == 0 {
            return Some([0; 4]);
        }
        let power = (i32::from(self.e) + DENOMINATOR_POWER) as u32;
        let top = (power / 4).min(127);
        let wide = u64::from(self.m.unsigned_abs()) << (power - 4 * top);
        if wide >= 1 << 24 {
            return None;
        }
        let fraction = wide as u32;
        let digits = ((fraction.leading_zeros() - 8) / 4).min(top);
        let sign = self.m as u32 & 0x8000_0000;
        Some((sign | (top - digits) << 24 | fraction << (4 * digits)).to_be_bytes())
    }

    #[inline(always)]
    fn whole32_word(self) -> Option<[u8; 4]> {
        let whole = i32::try_from(self.whole()?).ok()?;
        Some(whole.to_be_bytes())
    }

    #[inline(always)]
    fn whole16_word(self) -> Option<[u8; 2]> {
        let whole = i16::try_from(self.whole()?).ok()?;
        Some(whole.to_be_bytes())
    }

    #[inline(always)]
    fn whole8_word(self) -> Option<[u8; 1]> {
        let whole = i8::try_from(self.whole()?).ok()?;
        Some(whole.to_be_bytes())
    }

    /// The value as a double, which has every pair's, to the nearest single: the word, if it is the value.
    #[inline(always)]
    fn ieee_word(self) -> Option<[u8; 4]> {
        let power = f64::from_bits(((i64::from(self.e) + 1_023) << 52) as u64);
        let value = f64::from(self.m) * power;
        let single = value as f32;
        if f64::from(single) != value {
            return None;
        }
        Some(single.to_be_bytes())
    }

    /// The least gain that leaves the number whole.
    #[inline(always)]
    fn gain_word(self) -> Option<[u8; 4]> {
        let twos = self.e.max(0);
        let gain = u8::try_from(twos - self.e).ok()?;
        let number = i64::from(self.m) << twos.min(32);
        let [high, low] = i16::try_from(number).ok()?.to_be_bytes();
        Some([0, gain, high, low])
    }

    /// The value, where it is whole; one beyond 32 bits where it is far beyond.
    #[inline(always)]
    fn whole(self) -> Option<i64> {
        let twos = u32::try_from(self.e).ok()?;
        Some(i64::from(self.m) << twos.min(32))
    }
}
