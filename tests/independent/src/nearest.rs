//! The nearest value of a code, by document 02's CR 5: every step at which the code has words is tried,
//! and distances are compared as exact whole numbers.

use super::{Code, Pair};

/// The 64-bit digits of a whole number: |m| × 2^(e + 280) is below 2^31 × 2^531.
const DIGITS: usize = 9;

/// The value of a sample is a whole number over 16^70, which is 2^280.
const SCALE: i32 = 280;

/// A whole number from 0 to below 2^576, the most significant digit first: so the order of the digits
/// is that of the numbers.
#[derive(Clone, Copy, Debug, PartialEq, Eq, PartialOrd, Ord)]
pub struct Whole([u64; DIGITS]);

impl Whole {
    /// `number` × 2^`power`.
    pub fn of(number: u64, power: u32) -> Whole {
        let mut digits = [0; DIGITS];
        let place = DIGITS - 1 - power as usize / 64;
        let moved = u128::from(number) << (power % 64);
        digits[place] = moved as u64;
        if moved >> 64 != 0 {
            digits[place - 1] = (moved >> 64) as u64;
        }
        Whole(digits)
    }

    /// The sum.
    pub fn plus(self, other: Whole) -> Whole {
        let mut sum = self;
        let mut carried = false;
        for (digit, added) in sum.0.iter_mut().zip(other.0).rev() {
            let (once, first) = digit.overflowing_add(added);
            let (twice, second) = once.overflowing_add(u64::from(carried));
            (*digit, carried) = (twice, first || second);
        }
        assert!(!carried, "no sum here is as long");
        sum
    }

    /// The difference from a number that isn't larger.
    pub fn minus(self, other: Whole) -> Whole {
        let mut difference = self;
        let mut borrowed = false;
        for (digit, taken) in difference.0.iter_mut().zip(other.0).rev() {
            let (once, first) = digit.overflowing_sub(taken);
            let (twice, second) = once.overflowing_sub(u64::from(borrowed));
            (*digit, borrowed) = (twice, first || second);
        }
        assert!(!borrowed, "the smaller is taken from the larger");
        difference
    }

    /// The whole part of the number over 2^`power`, or `most` where it is larger than that.
    pub fn over(self, power: u32, most: u64) -> u64 {
        let place = DIGITS - 1 - power as usize / 64;
        let (higher, rest) = self.0.split_at(place.saturating_sub(1));
        if higher.iter().any(|&digit| digit != 0) {
            return most;
        }
        let above = if place == 0 { 0 } else { rest[0] };
        let at = self.0[place];
        let part = (u128::from(above) << 64 | u128::from(at)) >> (power % 64);
        part.min(u128::from(most)) as u64
    }
}

/// The exact value of a sample times 16^70: sign and size.
#[derive(Clone, Copy)]
struct Value {
    negative: bool,
    size: Whole,
}

impl Value {
    /// `number` × 2^`power`, times 16^70.
    fn of(number: i64, power: i32) -> Value {
        Value {
            negative: number < 0,
            size: Whole::of(number.unsigned_abs(), (power + SCALE) as u32),
        }
    }

    /// How far two values are apart.
    fn distance(self, other: Value) -> Whole {
        if self.negative != other.negative {
            self.size.plus(other.size)
        } else if self.size < other.size {
            other.size.minus(self.size)
        } else {
            self.size.minus(other.size)
        }
    }
}

/// The values that some words of a code have: the whole numbers from `least` to `most`, each times
/// 2^`power`.
pub struct Row {
    least: i64,
    most: i64,
    power: i32,
}

/// More than any number of a row.
const BEYOND: u64 = 1 << 40;

impl Row {
    /// The row's numbers about a value: the next toward zero and the next away from it, or the row's
    /// end where it ends before them.
    fn about(&self, value: Value) -> [i64; 2] {
        let toward_zero = value.size.over((self.power + SCALE) as u32, BEYOND) as i64;
        [toward_zero, toward_zero + 1].map(|size| {
            let number = if value.negative { -size } else { size };
            number.clamp(self.least, self.most)
        })
    }
}

/// All values of a code: under code 1 a row for each characteristic, under code 4 for each gain, under
/// code 5 for each exponent that words with a value have, the lowest with the subnormal words and the
/// zeros, and the others with the negative and the positive words. The others have one row.
pub fn rows(code: Code) -> Vec<Row> {
    let row = |least, most, power| Row { least, most, power };
    match code {
        Code::Ibm => (0..128)
            .map(|characteristic| row(-0xFF_FFFF, 0xFF_FFFF, 4 * (characteristic - 70)))
            .collect(),
        Code::Whole32 => vec![row(-0x8000_0000, 0x7FFF_FFFF, 0)],
        Code::Whole16 => vec![row(-0x8000, 0x7FFF, 0)],
        Code::Gain => (0..256).map(|gain| row(-0x8000, 0x7FFF, -gain)).collect(),
        Code::Ieee => {
            let mut rows = vec![row(-0x7F_FFFF, 0x7F_FFFF, -126 - 23)];
            for exponent in 1..255 {
                let power = exponent - 127 - 23;
                rows.push(row(-0xFF_FFFF, -0x80_0000, power));
                rows.push(row(0x80_0000, 0xFF_FFFF, power));
            }
            rows
        }
        Code::Whole8 => vec![row(-0x80, 0x7F, 0)],
    }
}

/// The pair of the nearest of the rows' values. Of two equally near it is that of the one nearer zero.
pub fn nearest(pair: Pair, rows: &[Row]) -> Pair {
    let value = Value::of(i64::from(pair.mantissa), i32::from(pair.exponent));
    let mut best: Option<(Whole, Whole, Pair)> = None;
    for row in rows {
        let [one, other] = row.about(value);
        for number in [one].into_iter().chain((other != one).then_some(other)) {
            let candidate = Value::of(number, row.power);
            let distance = value.distance(candidate);
            let nearer = match best {
                None => true,
                Some((least, size, _)) => {
                    distance < least || distance == least && candidate.size < size
                }
            };
            if nearer {
                let pair = Pair::of_value(number as i32, row.power as i16);
                best = Some((distance, candidate.size, pair));
            }
        }
    }
    let (_, _, pair) = best.expect("every code has words");
    pair
}
