//! The library's own algorithm in plain Rust: its two passes, with its steps and its tests for each
//! group of a trace header and for each sample, one for one, in nearest writing too. It is what the proved
//! code would be if a Rust programmer had written it. Nothing in it was chosen by measuring but the loop over a trace's fields and how far
//! it follows the library in code 1: there it takes a word's first byte before the bytes are swapped, as the
//! library does.

use crate::passes::{self, NearestSteps, Steps, PAIR_BYTES};
use crate::passes::{BAD_GAIN, NOT_CANONICAL, NOT_FINITE, UNFIT};
use crate::passes::{COORDINATES, COORDINATE_SCALAR, ELEVATIONS, ELEVATION_SCALAR};
use independent::{NearestWritten, ReelRead, Refused, Taken};
use std::array;

const DENOMINATOR_POWER: u32 = 280;
const HIGHEST_SHIFT: u32 = 531;

/// The five numbers of a sample format: the bits of a digit and of a fraction, how many characteristics
/// there are, the power of the last place at characteristic 0, over 2^280, and whether there is one more
/// number below zero.
#[derive(Clone, Copy)]
struct Format {
    digit: u32,
    fraction: u32,
    characteristics: u32,
    base: u32,
    more: bool,
}

const IBM: Format = Format {
    digit: 4,
    fraction: 24,
    characteristics: 128,
    base: DENOMINATOR_POWER - 280,
    more: false,
};

/// An IEEE single word. Its exponent is the characteristic and the hidden bit.
const SINGLE: Format = Format {
    digit: 1,
    fraction: 24,
    characteristics: 254,
    base: DENOMINATOR_POWER - 149,
    more: false,
};

const fn whole_format(bits: u32) -> Format {
    Format {
        digit: 1,
        fraction: bits - 1,
        characteristics: 1,
        base: DENOMINATOR_POWER,
        more: true,
    }
}

/// The power of the last bit at gain 255.
const GAIN_BASE: u32 = DENOMINATOR_POWER - 255;

/// A gain word. 255 less its gain is the characteristic.
const GAIN: Format = Format {
    digit: 1,
    fraction: 15,
    characteristics: 256,
    base: GAIN_BASE,
    more: true,
};

struct Same;

#[inline(never)]
pub fn read_reel(reel: &[u8], out: &mut [u8]) -> Result<ReelRead, Refused> {
    passes::read_reel::<Same, false>(reel, out)
}

/// Reads an Eagle reel.
#[inline(never)]
pub fn read_eagle(reel: &[u8], out: &mut [u8]) -> Result<ReelRead, Refused> {
    passes::read_reel::<Same, true>(reel, out)
}

#[inline(never)]
pub fn write_reel(record: &[u8], code: u32, out: &mut [u8]) -> Result<Taken, Refused> {
    passes::write_reel::<Same>(record, code, out)
}

/// Each sample as the nearest value of the code.
#[inline(never)]
pub fn write_nearest(record: &[u8], code: u32, out: &mut [u8]) -> Result<NearestWritten, Refused> {
    passes::write_nearest::<Same>(record, code, out)
}

impl Steps for Same {
    #[inline(always)]
    fn is_allowed(scalar: i16) -> bool {
        matches!(scalar.unsigned_abs(), 0 | 1 | 10 | 100 | 1_000 | 10_000)
    }

    #[inline(always)]
    fn put_groups(header: &[u8], fields: &mut [u8]) {
        let elevations = seven_at(header, ELEVATIONS);
        let Scale { factor, scalar } = scale_of(elevations, scalar_at(header, ELEVATION_SCALAR));
        put_numbers(
            &header[ELEVATIONS..],
            factor,
            &mut fields[ELEVATIONS..ELEVATION_SCALAR],
        );
        put_scalar(scalar, ELEVATION_SCALAR, fields);

        let coordinates = four_at(header, COORDINATES);
        let Scale { factor, scalar } = scale_of(coordinates, scalar_at(header, COORDINATE_SCALAR));
        put_scalar(scalar, COORDINATE_SCALAR, fields);
        put_numbers(
            &header[COORDINATES..],
            factor,
            &mut fields[COORDINATES..COORDINATES + 16],
        );
    }

    #[inline(always)]
    fn refused_scalar(fields: &[u8]) -> Option<usize> {
        let scalar = scalar_at(fields, ELEVATION_SCALAR);
        if !is_smallest(seven_at(fields, ELEVATIONS), scalar) {
            return Some(ELEVATION_SCALAR);
        }
        let scalar = scalar_at(fields, COORDINATE_SCALAR);
        if !is_smallest(four_at(fields, COORDINATES), scalar) {
            return Some(COORDINATE_SCALAR);
        }
        None
    }

    #[inline(always)]
    fn refused_gain(words: &[u8]) -> Option<usize> {
        words
            .chunks_exact(4)
            .position(|word| gain(word.try_into().unwrap()).is_err())
    }

    #[inline(always)]
    fn refused_ieee(words: &[u8]) -> Option<usize> {
        words
            .chunks_exact(4)
            .position(|word| ieee(u32::from_be_bytes(word.try_into().unwrap())).is_err())
    }

    #[inline(always)]
    fn count_words(code: u32, words: &[u8]) -> u64 {
        if code != 1 {
            return 0;
        }
        if count_passing(words, may_count) == 0 {
            return 0;
        }
        u64::from(count_passing(words, counts))
    }

    #[inline(always)]
    fn put_pairs(code: u32, words: &[u8], pairs: &mut [u8]) {
        match code {
            1 => put_pairs(words, pairs, ibm),
            2 => put_pairs(words, pairs, |word| whole32(i32::from_be_bytes(word))),
            3 => put_pairs(words, pairs, |word| whole16(i16::from_be_bytes(word))),
            4 => put_pairs(words, pairs, gain_number),
            5 => put_pairs(words, pairs, |word| ieee_number(u32::from_be_bytes(word))),
            _ => put_pairs(words, pairs, |word| whole8(i8::from_be_bytes(word))),
        }
    }

    #[inline(always)]
    fn check_pairs(code: u32, pairs: &[u8]) -> Result<(), (u64, usize)> {
        match code {
            1 => check_pairs(pairs, ibm_of),
            2 => check_pairs(pairs, whole32_of),
            3 => check_pairs(pairs, whole16_of),
            4 => check_pairs(pairs, gain_of),
            5 => check_pairs(pairs, ieee_of),
            _ => check_pairs(pairs, whole8_of),
        }
    }

    fn uncanonical_pair(pairs: &[u8]) -> Option<usize> {
        pairs
            .chunks_exact(PAIR_BYTES)
            .position(|pair| !Pair::of(pair).is_canonical())
    }

    #[inline(always)]
    fn put_words(code: u32, pairs: &[u8], words: &mut [u8]) {
        match code {
            1 => put_words::<4>(pairs, words, ibm_of),
            2 => put_words::<4>(pairs, words, whole32_of),
            3 => put_words::<2>(pairs, words, whole16_of),
            4 => put_words::<4>(pairs, words, gain_of),
            5 => put_words::<4>(pairs, words, ieee_of),
            _ => put_words::<1>(pairs, words, whole8_of),
        }
    }
}

impl NearestSteps for Same {
    #[inline(always)]
    fn put_nearest(code: u32, pairs: &[u8], words: &mut [u8]) -> u64 {
        match code {
            1 => put_nearest::<4>(pairs, words, near_ibm),
            2 => put_nearest::<4>(pairs, words, near_whole32),
            3 => put_nearest::<2>(pairs, words, near_whole16),
            4 => put_nearest::<4>(pairs, words, near_gain),
            5 => put_nearest::<4>(pairs, words, near_ieee),
            _ => put_nearest::<1>(pairs, words, near_whole8),
        }
    }
}

// ## Elevations and coordinates

/// What takes a group to its smallest power: the factor of its numbers, and the scalar of that power.
struct Scale {
    factor: i32,
    scalar: i16,
}

fn number_at(fields: &[u8], at: usize) -> i32 {
    i32::from_be_bytes(fields[at..at + 4].try_into().unwrap())
}

fn scalar_at(fields: &[u8], at: usize) -> i16 {
    i16::from_be_bytes(fields[at..at + 2].try_into().unwrap())
}

fn seven_at(fields: &[u8], at: usize) -> [i32; 7] {
    array::from_fn(|k| number_at(fields, at + 4 * k))
}

fn four_at(fields: &[u8], at: usize) -> [i32; 7] {
    let [a, b, c, d] = array::from_fn(|k| number_at(fields, at + 4 * k));
    [a, b, c, d, 0, 0, 0]
}

fn put_numbers(numbers: &[u8], factor: i32, out: &mut [u8]) {
    for (number, bytes) in numbers.chunks_exact(4).zip(out.chunks_exact_mut(4)) {
        bytes.copy_from_slice(&(number_at(number, 0) * factor).to_be_bytes());
    }
}

fn put_scalar(scalar: i16, at: usize, fields: &mut [u8]) {
    fields[at..at + 2].copy_from_slice(&scalar.to_be_bytes());
}

/// What takes a group to the smallest power that serves it. A group of four has zeros behind it, which
/// every power serves.
fn scale_of(group: [i32; 7], scalar: i16) -> Scale {
    let p = power(scalar);
    let d = raised(largest(group), p);
    Scale {
        factor: ten_to(d),
        scalar: scalar_of(p - d),
    }
}

fn is_smallest(group: [i32; 7], scalar: i16) -> bool {
    let p = power(scalar);
    scalar == scalar_of(p - raised(largest(group), p))
}

/// The largest magnitude of a group.
fn largest(group: [i32; 7]) -> u32 {
    group.map(i32::unsigned_abs).into_iter().fold(0, u32::max)
}

/// The power of a scalar, 0 to 8 for the powers of ten from -4 to 4.
fn power(scalar: i16) -> u32 {
    let zeros = match scalar.unsigned_abs() {
        10 => 1,
        100 => 2,
        1_000 => 3,
        10_000 => 4,
        _ => 0,
    };
    if scalar < 0 {
        4 - zeros
    } else {
        4 + zeros
    }
}

/// How many zeros, `p` at most, can be put behind a magnitude within 2^31.
fn raised(magnitude: u32, p: u32) -> u32 {
    let mut f = magnitude;
    let mut d = 0;
    while d < p {
        if f > 214_748_364 {
            return d;
        }
        f *= 10;
        d += 1;
    }
    d
}

fn ten_to(d: u32) -> i32 {
    match d {
        0 => 1,
        1 => 10,
        2 => 100,
        3 => 1_000,
        4 => 10_000,
        5 => 100_000,
        6 => 1_000_000,
        7 => 10_000_000,
        _ => 100_000_000,
    }
}

fn scalar_of(power: u32) -> i16 {
    match power {
        0 => -10_000,
        1 => -1_000,
        2 => -100,
        3 => -10,
        4 => 1,
        5 => 10,
        6 => 100,
        7 => 1_000,
        _ => 10_000,
    }
}

// ## Counting

/// How many words pass a test. It takes a word with its first byte lowest, as the library's does.
fn count_passing(words: &[u8], test: impl Fn(u32) -> u32) -> u32 {
    words
        .chunks_exact(4)
        .map(|word| test(u32::from_le_bytes(word.try_into().unwrap())))
        .sum()
}

/// 1 where the first digit of F is 0 and the first byte, under a mask, isn't.
fn low_digit(word: u32, mask: u32) -> u32 {
    u32::from(word & 0xF000 == 0 && word & mask != 0)
}

/// 1 where a word may be one that isn't normal.
fn may_count(word: u32) -> u32 {
    low_digit(word, 0xFF)
}

/// 1 only where it is one.
fn counts(word: u32) -> u32 {
    low_digit(word, 0x7F) + u32::from(word == 0x80)
}

// ## Reading

fn put_pairs<const W: usize>(words: &[u8], pairs: &mut [u8], pair_of: impl Fn([u8; W]) -> Pair) {
    for (word, pair) in words
        .chunks_exact(W)
        .zip(pairs.chunks_exact_mut(PAIR_BYTES))
    {
        let Pair { e, m } = pair_of(word.try_into().unwrap());
        pair[..2].copy_from_slice(&e.to_be_bytes());
        pair[2..].copy_from_slice(&m.to_be_bytes());
    }
}

#[derive(Clone, Copy)]
struct Pair {
    e: i16,
    m: i32,
}

/// The canonical pair of ± `magnitude` × 2^(`power` - 280): the power of two in the magnitude is
/// counted out of it. Zero has the exponent 0.
#[inline(always)]
fn canonical(negative: bool, magnitude: u32, power: u32) -> Pair {
    let twos = magnitude.trailing_zeros();
    let e = (power + twos) as i16 - DENOMINATOR_POWER as i16;
    let odd = (magnitude >> (twos % 32)) as i32;
    Pair {
        e: if magnitude == 0 { 0 } else { e },
        m: if negative { -odd } else { odd },
    }
}

#[inline(always)]
fn ibm(word: [u8; 4]) -> Pair {
    let first = word[0];
    let fraction = u32::from_be_bytes(word) & 0xFF_FFFF;
    canonical(first >= 0x80, fraction, u32::from(first) * 4 % 512)
}

#[inline(always)]
fn whole32(number: i32) -> Pair {
    canonical(number < 0, number.unsigned_abs(), DENOMINATOR_POWER)
}

#[inline(always)]
fn whole16(number: i16) -> Pair {
    let magnitude = u32::from(number.unsigned_abs());
    canonical(number < 0, magnitude, DENOMINATOR_POWER)
}

#[inline(always)]
fn whole8(number: i8) -> Pair {
    let magnitude = u32::from(number.unsigned_abs());
    canonical(number < 0, magnitude, DENOMINATOR_POWER)
}

/// A gain word as it is converted, whatever its first byte.
#[inline(always)]
fn gain_number([_, g, high, low]: [u8; 4]) -> Pair {
    let number = i16::from_be_bytes([high, low]);
    let magnitude = u32::from(number.unsigned_abs());
    canonical(number < 0, magnitude, DENOMINATOR_POWER - u32::from(g))
}

#[inline(always)]
fn gain(word: [u8; 4]) -> Result<Pair, u64> {
    if word[0] != 0 {
        return Err(BAD_GAIN);
    }
    Ok(gain_number(word))
}

/// An IEEE word as it is converted, whatever its exponent. A normal number has the hidden bit; a subnormal
/// one has none, and the last place of the least normal.
#[inline(always)]
fn ieee_number(word: u32) -> Pair {
    let (exponent, fraction) = (word >> 23 & 0xFF, word & 0x7F_FFFF);
    let significand = if exponent == 0 {
        fraction
    } else {
        0x80_0000 + fraction
    };
    let counted = if exponent == 0 { 1 } else { exponent };
    canonical(word >= 0x8000_0000, significand, SINGLE.base - 1 + counted)
}

#[inline(always)]
fn ieee(word: u32) -> Result<Pair, u64> {
    if word & 0x7FFF_FFFF >= 0x7F80_0000 {
        return Err(NOT_FINITE);
    }
    Ok(ieee_number(word))
}

// ## Writing

/// What the word of ± `odd` × 2^(`power` - 280) is under a code, or the number of the cause.
trait WordOf: Fn(bool, u32, u32) -> Result<u32, u64> {}

impl<F: Fn(bool, u32, u32) -> Result<u32, u64>> WordOf for F {}

fn check_pairs(pairs: &[u8], word_of: impl WordOf) -> Result<(), (u64, usize)> {
    for (k, pair) in pairs.chunks_exact(PAIR_BYTES).enumerate() {
        if let Err(number) = Pair::of(pair).word(&word_of) {
            return Err((number, k));
        }
    }
    Ok(())
}

fn put_words<const W: usize>(pairs: &[u8], words: &mut [u8], word_of: impl WordOf) {
    for (pair, word) in pairs
        .chunks_exact(PAIR_BYTES)
        .zip(words.chunks_exact_mut(W))
    {
        let bits = Pair::of(pair).bits(&word_of);
        word.copy_from_slice(&bits.to_be_bytes()[4 - W..]);
    }
}

/// A pair taken apart: not canonical, zero, or ± `odd` × 2^(`power` - 280).
enum Parts {
    NotCanonical,
    Zero,
    Odd {
        negative: bool,
        odd: u32,
        power: u32,
    },
}

impl Pair {
    #[inline(always)]
    fn of(bytes: &[u8]) -> Pair {
        let (e, m) = bytes.split_at(2);
        Pair {
            e: i16::from_be_bytes(e.try_into().unwrap()),
            m: i32::from_be_bytes(m.try_into().unwrap()),
        }
    }

    #[inline(always)]
    fn parts(self) -> Parts {
        let odd = self.m.unsigned_abs();
        if odd == 0 {
            if self.e == 0 {
                return Parts::Zero;
            }
            return Parts::NotCanonical;
        }
        let power = u32::from((self.e as u16).wrapping_add(DENOMINATOR_POWER as u16));
        if odd & 1 == 0 {
            return Parts::NotCanonical;
        }
        if power > HIGHEST_SHIFT {
            return Parts::NotCanonical;
        }
        Parts::Odd {
            negative: self.m < 0,
            odd,
            power,
        }
    }

    fn is_canonical(self) -> bool {
        !matches!(self.parts(), Parts::NotCanonical)
    }

    #[inline(always)]
    fn word(self, word_of: impl WordOf) -> Result<u32, u64> {
        match self.parts() {
            Parts::NotCanonical => Err(NOT_CANONICAL),
            Parts::Zero => Ok(0),
            Parts::Odd {
                negative,
                odd,
                power,
            } => word_of(negative, odd, power),
        }
    }

    /// The bits of the pair's word, 0 where it has none.
    #[inline(always)]
    fn bits(self, word_of: impl WordOf) -> u32 {
        match self.parts() {
            Parts::NotCanonical => 0,
            Parts::Zero => 0,
            Parts::Odd {
                negative,
                odd,
                power,
            } => word_of(negative, odd, power).unwrap_or(0),
        }
    }

    /// The word of the nearest value to the pair's, 0 where it isn't canonical.
    #[inline(always)]
    fn nearest(self, nearest_of: impl NearestOf) -> Rounded {
        match self.parts() {
            Parts::NotCanonical => Rounded {
                bits: 0,
                changed: 0,
            },
            Parts::Zero => Rounded {
                bits: 0,
                changed: 0,
            },
            Parts::Odd {
                negative,
                odd,
                power,
            } => nearest_of(negative, odd, power),
        }
    }
}

/// The bits of an odd number, or one fewer for 1 where `less` is set.
#[inline(always)]
fn length(odd: u32, less: bool) -> u32 {
    u32::BITS - (odd - u32::from(less)).leading_zeros()
}

/// The characteristic and the fraction of ± odd × 2^power: the least characteristic whose fraction reaches
/// up to the first 1, if it reaches down to the last.
#[inline(always)]
fn place(format: Format, negative: bool, odd: u32, power: u32) -> Option<(u32, u32)> {
    let first = length(odd, format.more && negative) + power;
    let above = first.saturating_sub(format.fraction + format.base);
    let characteristic = above.div_ceil(format.digit);
    if characteristic >= format.characteristics {
        return None;
    }
    let last = format.base + format.digit * characteristic;
    if power < last {
        return None;
    }
    Some((characteristic, odd << (power - last)))
}

#[inline(always)]
fn float_of(format: Format, low: u32, negative: bool, odd: u32, power: u32) -> Result<u32, u64> {
    let (characteristic, fraction) = place(format, negative, odd, power).ok_or(UNFIT)?;
    let sign = if negative { 0x8000_0000 } else { 0 };
    Ok(sign + ((characteristic << low) + fraction))
}

#[inline(always)]
fn ibm_of(negative: bool, odd: u32, power: u32) -> Result<u32, u64> {
    float_of(IBM, 24, negative, odd, power)
}

#[inline(always)]
fn ieee_of(negative: bool, odd: u32, power: u32) -> Result<u32, u64> {
    float_of(SINGLE, 23, negative, odd, power)
}

#[inline(always)]
fn whole_of(bits: u32, negative: bool, odd: u32, power: u32) -> Result<u32, u64> {
    if power < DENOMINATOR_POWER {
        return Err(UNFIT);
    }
    let (_, whole) = place(whole_format(bits), negative, odd, power).ok_or(UNFIT)?;
    Ok(complement(bits, negative, whole))
}

#[inline(always)]
fn whole32_of(negative: bool, odd: u32, power: u32) -> Result<u32, u64> {
    whole_of(32, negative, odd, power)
}

#[inline(always)]
fn whole16_of(negative: bool, odd: u32, power: u32) -> Result<u32, u64> {
    whole_of(16, negative, odd, power)
}

#[inline(always)]
fn whole8_of(negative: bool, odd: u32, power: u32) -> Result<u32, u64> {
    whole_of(8, negative, odd, power)
}

/// With the least gain that leaves the number whole.
#[inline(always)]
fn gain_of(negative: bool, odd: u32, power: u32) -> Result<u32, u64> {
    if power < GAIN_BASE {
        return Err(UNFIT);
    }
    let characteristic = (power - GAIN_BASE).min(255);
    if length(odd, negative) + power > 15 + GAIN_BASE + characteristic {
        return Err(UNFIT);
    }
    let whole = odd << (power - (GAIN_BASE + characteristic));
    Ok(((255 - characteristic) << 16) + complement(16, negative, whole))
}

#[inline(always)]
fn complement(bits: u32, negative: bool, whole: u32) -> u32 {
    if negative {
        ((1u64 << bits) - u64::from(whole)) as u32
    } else {
        whole
    }
}

// ## Writing to the nearest

/// The word of the nearest value to ± `odd` × 2^(`power` - 280) under a code.
trait NearestOf: Fn(bool, u32, u32) -> Rounded {}

impl<F: Fn(bool, u32, u32) -> Rounded> NearestOf for F {}

/// The bits of the word of the nearest value, and 1 where that is another value.
struct Rounded {
    bits: u32,
    changed: u32,
}

/// A place of the nearest value in a format, and 1 where that is another value.
struct RoundedPlace {
    characteristic: u32,
    fraction: u32,
    changed: u32,
}

/// Puts the words of a trace and counts those with another value.
fn put_nearest<const W: usize>(pairs: &[u8], words: &mut [u8], nearest_of: impl NearestOf) -> u64 {
    let mut count = 0;
    for (pair, word) in pairs
        .chunks_exact(PAIR_BYTES)
        .zip(words.chunks_exact_mut(W))
    {
        let Rounded { bits, changed } = Pair::of(pair).nearest(&nearest_of);
        word.copy_from_slice(&bits.to_be_bytes()[4 - W..]);
        count += u64::from(changed);
    }
    count
}

/// `odd` / 2^`places` to the nearest whole number, of two equally near to the lower one.
#[inline(always)]
fn rounded_whole(odd: u32, places: u32) -> u32 {
    if places > 31 {
        return 0;
    }
    let under_half = ((1 << places) - 1) / 2;
    (odd + under_half) >> places
}

/// The largest fraction of a sign.
#[inline(always)]
fn most(format: Format, negative: bool) -> u32 {
    let power = 1 << format.fraction;
    if format.more && negative {
        power
    } else {
        power - 1
    }
}

/// The place of the nearest value to ± odd × 2^power: the least characteristic whose fraction reaches up to
/// the first 1, or the end where there is none; where that fraction doesn't reach down to the last 1, the
/// rounded number of last places, which may be the first number of the next characteristic, or beyond the
/// end.
#[inline(always)]
fn near_place(format: Format, negative: bool, odd: u32, power: u32) -> RoundedPlace {
    let first = length(odd, format.more && negative) + power;
    let above = first.saturating_sub(format.fraction + format.base);
    let characteristic = above.div_ceil(format.digit);
    let end = format.characteristics - 1;
    if characteristic > end {
        return RoundedPlace {
            characteristic: end,
            fraction: most(format, negative),
            changed: 1,
        };
    }
    let last = format.base + format.digit * characteristic;
    if last <= power {
        return RoundedPlace {
            characteristic,
            fraction: odd << (power - last),
            changed: 0,
        };
    }
    let fraction = rounded_whole(odd, last - power);
    if characteristic == end {
        return RoundedPlace {
            characteristic,
            fraction: fraction.min(most(format, negative)),
            changed: 1,
        };
    }
    if fraction == 1 << format.fraction {
        return RoundedPlace {
            characteristic: characteristic + 1,
            fraction: 1 << (format.fraction - format.digit),
            changed: 1,
        };
    }
    RoundedPlace {
        characteristic,
        fraction,
        changed: 1,
    }
}

/// The word of the nearest value in a format of sign and magnitude. Zero has no sign.
#[inline(always)]
fn near_float(format: Format, low: u32, negative: bool, odd: u32, power: u32) -> Rounded {
    let RoundedPlace {
        characteristic,
        fraction,
        changed,
    } = near_place(format, negative, odd, power);
    let sign = if negative && fraction != 0 {
        0x8000_0000
    } else {
        0
    };
    Rounded {
        bits: sign + ((characteristic << low) + fraction),
        changed,
    }
}

/// To the nearest IBM word.
#[inline(always)]
fn near_ibm(negative: bool, odd: u32, power: u32) -> Rounded {
    near_float(IBM, 24, negative, odd, power)
}

/// To the nearest finite IEEE word.
#[inline(always)]
fn near_ieee(negative: bool, odd: u32, power: u32) -> Rounded {
    near_float(SINGLE, 23, negative, odd, power)
}

/// The word of the nearest number of so many bits.
#[inline(always)]
fn near_whole(bits: u32, negative: bool, odd: u32, power: u32) -> Rounded {
    let RoundedPlace {
        fraction, changed, ..
    } = near_place(whole_format(bits), negative, odd, power);
    Rounded {
        bits: if fraction == 0 {
            0
        } else {
            complement(bits, negative, fraction)
        },
        changed,
    }
}

/// To the nearest number of 32 bits.
#[inline(always)]
fn near_whole32(negative: bool, odd: u32, power: u32) -> Rounded {
    near_whole(32, negative, odd, power)
}

/// To the nearest number of 16 bits.
#[inline(always)]
fn near_whole16(negative: bool, odd: u32, power: u32) -> Rounded {
    near_whole(16, negative, odd, power)
}

/// To the nearest number of 8 bits.
#[inline(always)]
fn near_whole8(negative: bool, odd: u32, power: u32) -> Rounded {
    near_whole(8, negative, odd, power)
}

/// To the nearest gain word. The rounded number is halved as often as it is even and the gain isn't 0.
#[inline(always)]
fn near_gain(negative: bool, odd: u32, power: u32) -> Rounded {
    let RoundedPlace {
        characteristic,
        fraction,
        changed,
    } = near_place(GAIN, negative, odd, power);
    if fraction == 0 {
        return Rounded { bits: 0, changed };
    }
    let twos = fraction.trailing_zeros().min(255 - characteristic);
    let number = complement(16, negative, fraction >> twos);
    Rounded {
        bits: ((255 - characteristic - twos) << 16) + number,
        changed,
    }
}
