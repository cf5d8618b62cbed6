//! What nearest writing did to the samples of a record, for people: how many changed, the largest change, and those beyond the code's range.

use crate::forms::{traces, Form};
use crate::layout::{
    RecordShape, CODE_PLACE, COUNT_PLACE, END, FIRST_PAIR, FIRST_TRACE, HEADERS, INTERVAL_PLACE,
    PAIR, SAMPLES, TAG,
};
use crate::not_normal::share;
use aukpocket::{read_reel, record_length, write_nearest};
use std::fmt;

/// The significant digits of a number that is shown; and the most that the two values of a sample get, so that they can be told apart. A
/// sample changes by a 2^31st of its size or more, which is seen in eleven digits.
const DIGITS: i32 = 6;
const MOST_DIGITS: i32 = 11;

/// The most digits before the point of a number that is shown as a plain decimal. The ends of code 2 have as many.
const PLAIN: i32 = 10;

/// The samples of a record, and what they became.
#[derive(Debug)]
pub struct Rounding {
    code: u32,
    samples: u64,
    changed: u64,
    /// The first of those that changed most.
    largest: Option<Change>,
    /// The first of the samples that are largest by size.
    largest_sample: f64,
    /// How many lie beyond the code's range, from its least to its greatest value, and the first of them.
    beyond: u64,
    first_beyond: Option<Change>,
    ends: [f64; 2],
}

impl Rounding {
    /// What a record became, by the record of the reel that nearest writing made of it under a code. None where the two differ in anything
    /// but samples. The second has the new form, whatever the first has.
    pub fn of(record: &[u8], back: &[u8], code: u32) -> Option<Rounding> {
        let RecordShape {
            samples, traces: t, ..
        } = RecordShape::of(record);
        if record_length(t as u64, samples.into()) != Some(back.len() as u64)
            || record[..FIRST_TRACE] != back[..FIRST_TRACE]
            || record[record.len() - END..] != back[back.len() - END..]
        {
            return None;
        }
        let mut found = Rounding {
            code,
            samples: t as u64 * u64::from(samples),
            changed: 0,
            largest: None,
            largest_sample: 0.0,
            beyond: 0,
            first_beyond: None,
            ends: ends(code)?,
        };
        for (trace, after) in traces(record).zip(traces(back)) {
            let header = &record[trace.start..][..SAMPLES];
            if after.form != Form::New || header != &back[after.start..][..SAMPLES] {
                return None;
            }
            for field in after.fields() {
                if back[field.place..][..TAG] != field.head() {
                    return None;
                }
                // They stand side by side in either form.
                let pairs = record[trace.pair(field.first)..][..field.content()].chunks_exact(PAIR);
                let pairs_after = back[field.pairs()].chunks_exact(PAIR);
                for (sample, (pair, pair_after)) in (field.first..).zip(pairs.zip(pairs_after)) {
                    let before = value(pair);
                    if before.abs() > found.largest_sample.abs() {
                        found.largest_sample = before;
                    }
                    if pair != pair_after {
                        found.add(Change {
                            trace: trace.number,
                            sample,
                            before,
                            after: value(pair_after),
                        });
                    }
                }
            }
        }
        Some(found)
    }

    /// Takes in a sample that changed.
    fn add(&mut self, change: Change) {
        self.changed += 1;
        if self
            .largest
            .map_or(true, |most| change.size() > most.size())
        {
            self.largest = Some(change);
        }
        let [least, greatest] = self.ends;
        if change.before < least || change.before > greatest {
            self.beyond += 1;
            self.first_beyond.get_or_insert(change);
        }
    }

    /// How many samples have another value on the reel than in the record.
    pub fn changed(&self) -> u64 {
        self.changed
    }

    /// How many samples changed, of how many.
    pub fn count(&self) -> String {
        let Rounding {
            changed, samples, ..
        } = *self;
        let noun = if samples == 1 { "sample" } else { "samples" };
        match changed {
            0 => {
                format!("none of {samples} {noun} changed: the reel is exact, nothing was rounded")
            }
            _ => format!(
                "{changed} of {samples} {noun} changed ({})",
                share(changed, samples)
            ),
        }
    }

    /// The largest change and where it is, beside the largest sample. None where nothing changed.
    pub fn largest(&self) -> Option<String> {
        let largest = self.largest?;
        Some(format!(
            "the largest change is {} ({largest}), beside a largest sample of {}",
            shown(largest.size().nearly, DIGITS),
            shown(self.largest_sample, DIGITS)
        ))
    }

    /// How many samples lie beyond the code's range and became its end. None where none does.
    pub fn beyond(&self) -> Option<String> {
        let first = self.first_beyond?;
        let [least, greatest] = self.ends.map(|end| shown(end, DIGITS));
        let range = format!("the range of code {} ({least} to {greatest})", self.code);
        Some(match self.beyond {
            1 => format!("1 sample lies beyond {range} and became its end; it is {first}"),
            count => format!(
                "{count} samples lie beyond {range} and became its end; the first is {first}"
            ),
        })
    }
}

/// A sample that changed: its trace and its number there, from 1, its value in the record and its value on the reel.
#[derive(Clone, Copy, Debug)]
struct Change {
    trace: usize,
    sample: usize,
    before: f64,
    after: f64,
}

impl Change {
    /// How far it moved.
    fn size(&self) -> Distance {
        Distance::between(self.before, self.after)
    }
}

impl fmt::Display for Change {
    /// Its place and both values.
    fn fmt(&self, f: &mut fmt::Formatter) -> fmt::Result {
        let [before, after] = told_apart([self.before, self.after]);
        write!(
            f,
            "trace {}, sample {}: {before} became {after}",
            self.trace, self.sample
        )
    }
}

/// Two values for people, which are shown as far as the size of their difference is, where that takes more digits than usual.
pub fn told_apart(values: [f64; 2]) -> [String; 2] {
    let size = power(Distance::between(values[0], values[1]).nearly, PLAIN);
    values.map(|value| {
        let digits = power(value, PLAIN) - size + DIGITS;
        shown(value, digits.clamp(DIGITS, MOST_DIGITS))
    })
}

/// How far two values are apart: the distance as 64 bits have it most nearly, of which six digits are shown, and the rest, which makes it
/// exact. Distances are in the order of the first and, where that is the same, of the second.
#[derive(Clone, Copy, Debug, PartialEq, PartialOrd)]
struct Distance {
    nearly: f64,
    rest: f64,
}

impl Distance {
    /// The distance of two values. What is lost in the difference of two floating-point numbers is one itself, and five more operations
    /// give it (Knuth's way). No value of a record is near the limits where this fails.
    fn between(one: f64, other: f64) -> Distance {
        let (high, low) = if one < other {
            (other, one)
        } else {
            (one, other)
        };
        let nearly = high - low;
        let low_taken = high - nearly;
        let high_taken = nearly + low_taken;
        Distance {
            nearly,
            rest: (high - high_taken) + (low_taken - low),
        }
    }
}

/// The exact value of a canonical pair. A floating-point number of 64 bits holds it: m has 31 bits, and e is from -280 to 251.
pub fn value(pair: &[u8]) -> f64 {
    let e = i16::from_be_bytes([pair[0], pair[1]]);
    let m = i32::from_be_bytes([pair[2], pair[3], pair[4], pair[5]]);
    let two_to_e = f64::from_bits(((i64::from(e) + 1023) as u64) << 52);
    f64::from(m) * two_to_e
}

/// The least and the greatest value of a code: what nearest writing makes of the least and the greatest of code 1, beyond which no other
/// code reaches. The library is lent a reel that has them.
fn ends(code: u32) -> Option<[f64; 2]> {
    let mut reel = [0; HEADERS + 240 + 8];
    for (place, number) in [(INTERVAL_PLACE, 1), (COUNT_PLACE, 2), (CODE_PLACE, 1)] {
        reel[place + 1] = number;
    }
    reel[HEADERS + 240..].copy_from_slice(&[0xFF, 0xFF, 0xFF, 0xFF, 0x7F, 0xFF, 0xFF, 0xFF]);
    let mut record = [0; FIRST_TRACE + FIRST_PAIR + 2 * PAIR + TAG + 4];
    read_reel(&reel, &mut record).ok()?;
    let written = write_nearest(&record, code, &mut reel).ok()?;
    read_reel(&reel[..written.length], &mut record).ok()?;
    let pairs = &record[FIRST_TRACE + FIRST_PAIR..];
    Some([value(&pairs[..PAIR]), value(&pairs[PAIR..2 * PAIR])])
}

/// A value for people, of as many significant digits: a plain decimal from 0.0001 to below 10,000,000,000, with all the digits before its
/// point, else a number with a power of ten. Zeros at the end, behind the point, are left out.
fn shown(value: f64, digits: i32) -> String {
    let first = power(value, digits.max(PLAIN));
    if (-4..PLAIN).contains(&first) {
        let places = (digits - 1 - first).max(0) as usize;
        return short(&format!("{value:.places$}")).to_string();
    }
    let (number, power) = scientific(value, digits);
    format!("{}e{power:+03}", short(&number))
}

/// A decimal without the zeros at the end of what stands behind its point.
fn short(decimal: &str) -> &str {
    match decimal.contains('.') {
        true => decimal.trim_end_matches('0').trim_end_matches('.'),
        false => decimal,
    }
}

/// The power of ten of a value's first digit, once it is rounded to as many significant digits; 0 for zero.
fn power(value: f64, digits: i32) -> i32 {
    scientific(value, digits).1
}

/// A value of as many significant digits as a number with one digit before its point, and the power of ten that belongs to it.
fn scientific(value: f64, digits: i32) -> (String, i32) {
    let places = (digits - 1) as usize;
    let text = format!("{value:.places$e}");
    let (number, power) = text.split_once('e').unwrap_or((&text, "0"));
    (number.to_string(), power.parse().unwrap_or(0))
}

#[cfg(test)]
mod tests {
    use super::*;
    use crate::forms::{tests::long, with_earlier};
    use aukpocket::{record_length, write_reel};

    /// A record of traces of samples, each an exponent and a mantissa, and of as many samples a trace.
    fn record(traces: &[&[(i16, i32)]]) -> Vec<u8> {
        let samples = traces[0].len();
        let mut reel = vec![0; HEADERS + traces.len() * (240 + samples)];
        for (place, number) in [(INTERVAL_PLACE, 1), (COUNT_PLACE, samples), (CODE_PLACE, 8)] {
            reel[place..place + 2].copy_from_slice(&(number as u16).to_be_bytes());
        }
        let length = record_length(traces.len() as u64, samples as u64).unwrap();
        let mut record = vec![0; length as usize];
        read_reel(&reel, &mut record).unwrap();
        for (i, pairs) in traces.iter().enumerate() {
            let first = FIRST_TRACE + i * (FIRST_PAIR + samples * PAIR) + FIRST_PAIR;
            for (k, (e, m)) in pairs.iter().enumerate() {
                let pair = &mut record[first + k * PAIR..][..PAIR];
                pair[..2].copy_from_slice(&e.to_be_bytes());
                pair[2..].copy_from_slice(&m.to_be_bytes());
            }
        }
        assert!(!matches!(
            write_reel(&record, 1, &mut []).unwrap_err().number,
            12 | 13
        ));
        record
    }

    /// What nearest writing under a code does to a record, and how many changes it counts.
    fn rounding(record: &[u8], code: u32) -> (Rounding, u64) {
        let mut reel = vec![0; 2 * record.len() + HEADERS];
        let written = write_nearest(record, code, &mut reel).unwrap();
        let mut back = vec![0; record.len()];
        read_reel(&reel[..written.length], &mut back).unwrap();
        let rounding = Rounding::of(record, &back, code).unwrap();
        assert_eq!(rounding.changed(), written.changed);
        (rounding, written.changed)
    }

    #[test]
    fn ends_of_the_codes() {
        let ibm = 16_777_215.0 * 16f64.powi(57);
        let ieee = f64::from(f32::MAX);
        for (code, ends_of) in [
            (1, [-ibm, ibm]),
            (2, [f64::from(i32::MIN), f64::from(i32::MAX)]),
            (3, [-32_768.0, 32_767.0]),
            (4, [-32_768.0, 32_767.0]),
            (5, [-ieee, ieee]),
            (8, [-128.0, 127.0]),
        ] {
            assert_eq!(ends(code), Some(ends_of), "{code}");
        }
        assert_eq!(ends(6), None);
    }

    /// Halves go to the number nearer zero; both ends; what rounds to an end and isn't beyond it; what was exact.
    #[test]
    fn in_words() {
        let traces: [&[(i16, i32)]; 2] = [
            &[(-2, -511), (-1, 5), (-1, -5), (0, 127), (-2, 507)],
            &[(-2, 509), (7, -1), (-1, -257), (3, 125), (-1, -1)],
        ];
        let (found, changed) = rounding(&record(&traces), 8);
        assert_eq!(changed, 8);
        assert_eq!(found.count(), "8 of 10 samples changed (80.00 %)");
        assert_eq!(
            found.largest().unwrap(),
            "the largest change is 873 (trace 2, sample 4: 1000 became 127), beside a largest sample of 1000"
        );
        assert_eq!(
            found.beyond().unwrap(),
            "3 samples lie beyond the range of code 8 (-128 to 127) and became its end; the first is trace 2, sample 1: 127.25 became 127"
        );
        let (found, changed) = rounding(&record(&traces), 3);
        assert_eq!(changed, 7);
        assert_eq!(
            found.largest().unwrap(),
            "the largest change is 0.5 (trace 1, sample 2: 2.5 became 2), beside a largest sample of 1000"
        );
        assert_eq!(found.beyond(), None);
        let (found, changed) = rounding(&record(&traces), 5);
        assert_eq!(changed, 0);
        assert_eq!(
            found.count(),
            "none of 10 samples changed: the reel is exact, nothing was rounded"
        );
        assert_eq!((found.largest(), found.beyond()), (None, None));
        let (found, _) = rounding(&record(&[&[(8, -1)]]), 8);
        assert_eq!(found.count(), "1 of 1 sample changed (100 %)");
        assert_eq!(
            found.largest().unwrap(),
            "the largest change is 128 (trace 1, sample 1: -256 became -128), beside a largest sample of -256"
        );
        assert_eq!(
            found.beyond().unwrap(),
            "1 sample lies beyond the range of code 8 (-128 to 127) and became its end; it is trace 1, sample 1: -256 became -128"
        );
    }

    /// A sample that changes little is shown by more digits, so that its two values aren't the same text.
    #[test]
    fn values_that_are_hard_to_tell_apart() {
        for (code, pair, text) in [
            (5, (0, i32::MAX), "1 (trace 1, sample 1: 2147483647 became 2147483648), beside a largest sample of 2147483647"),
            (5, (0, 16_777_217), "1 (trace 1, sample 1: 16777217 became 16777216), beside a largest sample of 16777217"),
            (1, (-1, -16_777_215), "0.5 (trace 1, sample 1: -8388607.5 became -8388607), beside a largest sample of -8388608"),
            (3, (-16, 80_904_185), "0.499893 (trace 1, sample 1: 1234.499893 became 1234), beside a largest sample of 1234.5"),
            (5, (70, -i32::MAX), "1.18059e+21 (trace 1, sample 1: -2.5353011993e+30 became -2.5353012005e+30), beside a largest sample of -2.5353e+30"),
            (2, (-40, 1), "9.09495e-13 (trace 1, sample 1: 9.09495e-13 became 0), beside a largest sample of 9.09495e-13"),
            (4, (-271, -1), "2.63555e-82 (trace 1, sample 1: -2.63555e-82 became 0), beside a largest sample of -2.63555e-82"),
            (2, (251, i32::MAX), "7.77068e+84 (trace 1, sample 1: 7.77068e+84 became 2147483647), beside a largest sample of 7.77068e+84"),
        ] {
            let (found, _) = rounding(&record(&[&[pair]]), code);
            assert_eq!(found.largest().unwrap(), format!("the largest change is {text}"));
        }
    }

    /// Of changes that 64 bits don't tell apart the larger is found: 2^100 - 128 and then 2^100 - 127. Of equal ones it is the first.
    #[test]
    fn nearly_equal_changes() {
        let (found, _) = rounding(&record(&[&[(100, -1), (100, 1), (100, 1)]]), 8);
        assert_eq!(found.largest.unwrap().sample, 2);
        assert_eq!(found.largest_sample, -(2f64.powi(100)));
        let (found, _) = rounding(&record(&[&[(-1, 1), (-1, 3), (-1, 1)]]), 2);
        assert_eq!(found.largest.unwrap().sample, 1);
    }

    /// The distance and its rest are exact, by whole numbers.
    #[test]
    fn distances() {
        let numbers = [1, 3, 127, 32_767, (1 << 31) - 1, 1 << 31, (1 << 53) - 1];
        for (one, power) in numbers
            .into_iter()
            .flat_map(|n| (0..60).map(move |p| (n, p)))
        {
            for other in numbers {
                for sign in [1, -1] {
                    let (a, b): (i128, i128) = (one << power, sign * other);
                    let found = Distance::between(a as f64, b as f64);
                    assert_eq!(found, Distance::between(b as f64, a as f64));
                    assert_eq!(found.nearly as i128 + found.rest as i128, (a - b).abs());
                    assert_eq!(found.nearly, (a - b).abs() as f64);
                }
            }
        }
    }

    #[test]
    fn numbers_for_people() {
        for (value, text) in [
            (0.0, "0"),
            (1.0, "1"),
            (-0.5, "-0.5"),
            (0.1, "0.1"),
            (32_811.5, "32811.5"),
            (1_234.499_9, "1234.5"),
            (123_456.5, "123456"),
            (123_457.5, "123458"),
            (999_999.7, "1000000"),
            (-8_388_607.5, "-8388608"),
            (100.0, "100"),
            (1_000_000_000.0, "1000000000"),
            (4_294_967_295.25, "4294967295"),
            (9_999_999_999.0, "9999999999"),
            (9_999_999_999.75, "1e+10"),
            (10_000_000_000.0, "1e+10"),
            (12_345_650_000.0, "1.23456e+10"),
            (12_345_750_000.0, "1.23458e+10"),
            (-2f64.powi(128), "-3.40282e+38"),
            (2f64.powi(-280), "5.14756e-85"),
            (0.000_1, "0.0001"),
            (0.000_123_456_7, "0.000123457"),
            (0.000_099_999_96, "1e-04"),
            (0.000_099_999_4, "9.99994e-05"),
            (-0.000_001, "-1e-06"),
        ] {
            assert_eq!(shown(value, DIGITS), text, "{value:e}");
        }
        assert_eq!(shown(1_234.499_908_447_265_6, 10), "1234.499908");
        assert_eq!(shown(9_999_999_999.75, 11), "9999999999.8");
        assert_eq!(shown(2f64.powi(31), 11), "2147483648");
    }

    /// A record is rounded alike in either form, and what it became is told by its own samples.
    #[test]
    fn forms() {
        let mut new = long(3, 6100);
        let halves = [(1, 1, 5), (1, 6000, -7), (2, 6001, 9), (3, 6100, -1)];
        for (i, sample, m) in halves {
            let place = traces(&new).nth(i - 1).unwrap().pair(sample);
            new[place..place + 2].copy_from_slice(&(-1i16).to_be_bytes());
            new[place + 2..place + 6].copy_from_slice(&i32::to_be_bytes(m));
        }
        for earlier in [&[][..], &[1], &[2, 3], &[1, 2, 3]] {
            let record = with_earlier(new.clone(), earlier);
            let mut reel = vec![0; HEADERS + 3 * (240 + 2 * 6100)];
            let written = write_nearest(&record, 3, &mut reel).unwrap();
            let mut back = vec![0; new.len()];
            read_reel(&reel, &mut back).unwrap();
            let found = Rounding::of(&record, &back, 3).unwrap();
            assert_eq!((found.changed(), written.changed), (4, 4));
            let largest = found.largest.unwrap();
            assert_eq!((largest.trace, largest.sample, largest.before), (1, 1, 2.5));
            // What was read back is in the new form, and in no other.
            let other = with_earlier(back.clone(), &[2]);
            assert!(Rounding::of(&record, &other, 3).is_none());
            for trace in traces(&back) {
                for field in trace.fields() {
                    let mut other = back.clone();
                    other[field.place + 2] ^= 0x01;
                    assert!(Rounding::of(&record, &other, 3).is_none());
                }
            }
        }
    }

    /// Whatever else differs isn't the work of nearest writing.
    #[test]
    fn records_that_differ_in_more_than_samples() {
        let record = record(&[&[(0, 1), (0, 3)], &[(0, 5), (0, 7)]]);
        assert_eq!(Rounding::of(&record, &record, 2).unwrap().changed(), 0);
        let second = FIRST_TRACE + FIRST_PAIR + 2 * PAIR;
        for place in 0..record.len() {
            let first = match place {
                place if place < second => FIRST_TRACE + FIRST_PAIR,
                _ => second + FIRST_PAIR,
            };
            let in_samples = (first..first + 2 * PAIR).contains(&place);
            let mut other = record.clone();
            other[place] ^= 0x02;
            let found = Rounding::of(&record, &other, 2).map(|found| found.changed());
            assert_eq!(found, in_samples.then_some(1), "{place}");
        }
        let short = &record[..record.len() - 1];
        assert!(Rounding::of(&record, short, 2).is_none());
        assert!(Rounding::of(&record, &record, 6).is_none());
    }
}
