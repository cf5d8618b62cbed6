//! A box of reels, by document 02's CR 10: each rule, each order of two faults, reels without traces, the
//! lengths, and each cause with its place in the slice, by hand.
//!
//! In most boxes here a reel has two traces of two samples of code 3. A trace then has 244 bytes and a reel
//! 4,088: the reels begin at places 0, 4088 and 8176. Of the second reel the line stands at 7292, the reel
//! number at 7296, the interval at 7304 and N at 7308; its traces begin at 7688 and 7932. Of the third reel
//! these are 11380, 11384, 11392 and 11396; 11776 and 12020.

use super::*;

const WHOLE: u64 = 4_088;
const LINES: [usize; 3] = [3_204, 7_292, 11_380];
const REEL_NUMBERS: [usize; 3] = [3_208, 7_296, 11_384];
const INTERVALS: [usize; 3] = [3_216, 7_304, 11_392];
const COUNTS: [usize; 3] = [3_220, 7_308, 11_396];
const REEL_CODES: [usize; 3] = [3_224, 7_312, 11_400];
const TRACES: [[usize; 2]; 3] = [[3_600, 3_844], [7_688, 7_932], [11_776, 12_020]];

/// What a reel of a box is made of. A trace is its numbers in the line and on the reel.
#[derive(Clone)]
struct Reel {
    line: i32,
    number: i32,
    interval: u16,
    samples: u16,
    code: u16,
    traces: Vec<(i32, i32)>,
}

impl Reel {
    /// A reel of line 7 with so many traces, the first of which has this number in the line.
    fn new(number: i32, first: i32, traces: i32) -> Reel {
        Reel {
            line: 7,
            number,
            interval: 2_000,
            samples: 2,
            code: 3,
            traces: (0..traces)
                .map(|trace| (first + trace, 1 + trace))
                .collect(),
        }
    }

    /// Its bytes: the cards are blank, all samples zero, and so are all other header fields.
    fn bytes(&self) -> Vec<u8> {
        let mut bytes = vec![0x40; 3_200];
        bytes.resize(3_600, 0);
        bytes[3_204..3_208].copy_from_slice(&self.line.to_be_bytes());
        bytes[3_208..3_212].copy_from_slice(&self.number.to_be_bytes());
        bytes[3_216..3_218].copy_from_slice(&self.interval.to_be_bytes());
        bytes[3_220..3_222].copy_from_slice(&self.samples.to_be_bytes());
        bytes[3_224..3_226].copy_from_slice(&self.code.to_be_bytes());
        let width = match self.code {
            8 => 1,
            3 => 2,
            _ => 4,
        };
        for (in_line, on_reel) in &self.traces {
            let start = bytes.len();
            bytes.extend(in_line.to_be_bytes());
            bytes.extend(on_reel.to_be_bytes());
            bytes.resize(start + 240 + width * usize::from(self.samples), 0);
        }
        bytes
    }
}

/// The slice and the list of a box of these reels.
fn box_of(reels: &[Reel]) -> (Vec<u8>, Vec<u64>) {
    let reels: Vec<Vec<u8>> = reels.iter().map(Reel::bytes).collect();
    let lengths = reels.iter().map(|reel| reel.len() as u64).collect();
    (reels.concat(), lengths)
}

/// Three reels of two traces each: reels 1 to 3, traces 101 to 106.
fn three() -> Vec<Reel> {
    [(1, 101), (2, 103), (3, 105)]
        .map(|(number, first)| Reel::new(number, first, 2))
        .to_vec()
}

/// The slice of those three reels, with other bytes at some places.
fn three_with(changes: &[(usize, &[u8])]) -> Vec<u8> {
    let (mut slice, lengths) = box_of(&three());
    assert_eq!(lengths, [WHOLE; 3]);
    for (place, bytes) in changes {
        slice[*place..place + bytes.len()].copy_from_slice(bytes);
    }
    slice
}

fn is_taken(slice: &[u8], lengths: &[u64], traces: u64) {
    let reels = lengths.len() as u64;
    assert_eq!(check_box(slice, lengths), Ok(BoxTaken { reels, traces }));
}

fn reels_taken(reels: &[Reel], traces: u64) {
    let (slice, lengths) = box_of(reels);
    is_taken(&slice, &lengths, traces);
}

fn reels_refused(reels: &[Reel], number: u64, beside: usize) {
    let (slice, lengths) = box_of(reels);
    assert_eq!(check_box(&slice, &lengths), refused(number, beside));
}

/// The three reels with other bytes at some places are refused so.
fn three_refused(changes: &[(usize, &[u8])], number: u64, beside: usize) {
    assert_eq!(
        check_box(&three_with(changes), &[WHOLE; 3]),
        refused(number, beside),
        "{changes:?}"
    );
}

#[test]
fn a_box_of_three_reels() {
    is_taken(&three_with(&[]), &[WHOLE; 3], 6);
    reels_taken(&[Reel::new(5, 40, 1)], 1);
    reels_taken(&[Reel::new(5, 40, 3), Reel::new(6, 43, 1)], 4);
}

/// The paper's example as a box of one reel: field 5 of its trace is 0.
#[test]
fn the_example_as_a_box() {
    let mut reel = example();
    assert_eq!(check_box(&reel, &[3_848]), refused(22, 3_604));
    reel[3_607] = 1;
    is_taken(&reel, &[3_848], 1);
}

#[test]
fn an_empty_box() {
    is_taken(&[], &[], 0);
    for slice in [&[0][..], &[0x40; 3_600], &example()] {
        assert_eq!(check_box(slice, &[]), refused(21, 0));
    }
}

/// A length of 0 is a reel that is too short, wherever it stands.
#[test]
fn a_length_of_0() {
    for lengths in [&[0][..], &[0, 0], &[0; 9]] {
        assert_eq!(check_box(&[], lengths), refused(1, 0));
    }
    let slice = three_with(&[]);
    for lengths in [
        [0, WHOLE, WHOLE, WHOLE],
        [WHOLE, 0, WHOLE, WHOLE],
        [WHOLE, WHOLE, 0, WHOLE],
        [WHOLE, WHOLE, WHOLE, 0],
    ] {
        assert_eq!(check_box(&slice, &lengths), refused(1, 0));
    }
    // A rule that an earlier reel breaks comes before, and one that a later reel breaks does not.
    let slice = three_with(&[(LINES[1], &[1])]);
    let after = [WHOLE, WHOLE, 0, WHOLE];
    assert_eq!(check_box(&slice, &after), refused(22, LINES[1]));
    let before = [WHOLE, 0, WHOLE, WHOLE];
    assert_eq!(check_box(&slice, &before), refused(1, 0));
}

#[test]
fn lengths_that_do_not_add_up() {
    let slice = three_with(&[]);
    for lengths in [
        &[][..],
        &[WHOLE],
        &[WHOLE, WHOLE],
        &[WHOLE, WHOLE, WHOLE - 1],
        &[WHOLE, WHOLE, WHOLE + 1],
        &[WHOLE - 1, WHOLE, WHOLE],
        &[WHOLE + 1, WHOLE, WHOLE],
        &[WHOLE, WHOLE, WHOLE, 1],
        &[WHOLE, WHOLE, WHOLE, WHOLE],
        &[u64::MAX],
        &[0],
    ] {
        assert_eq!(check_box(&slice, lengths), refused(21, 0), "{lengths:?}");
    }
    // They add up, and so the reels' own causes are what is left: one byte too few, then one too many.
    assert_eq!(
        check_box(&slice, &[WHOLE, WHOLE - 1, WHOLE + 1]),
        refused(5, 4_088 + 3_844)
    );
    assert_eq!(
        check_box(&slice, &[WHOLE, WHOLE + 1, WHOLE - 1]),
        refused(5, 4_088 + 4_088)
    );
    is_taken(&slice[..8_176], &[WHOLE, WHOLE], 4);
}

/// Sums of 2^64 and the slice's length, or of twice 2^64, are other sums.
#[test]
fn sums_do_not_wrap() {
    let slice = three_with(&[]);
    let (half, most) = (1 << 63, u64::MAX);
    for lengths in [
        &[WHOLE, WHOLE, WHOLE, half, half][..],
        &[half, half, WHOLE, WHOLE, WHOLE],
        &[WHOLE, WHOLE, WHOLE, most, 1],
        &[WHOLE, WHOLE, WHOLE + 1, most],
        &[most, WHOLE + 1, WHOLE, WHOLE],
        &[WHOLE, WHOLE, WHOLE, half, half, half, half],
        &[WHOLE, WHOLE, WHOLE, 1 << 62, 1 << 62, 1 << 62, 1 << 62],
    ] {
        let wrapped = lengths
            .iter()
            .fold(0u64, |sum, &next| sum.wrapping_add(next));
        assert_eq!(wrapped, slice.len() as u64);
        assert_eq!(check_box(&slice, lengths), refused(21, 0), "{lengths:?}");
    }
    assert_eq!(check_box(&[], &[half, half]), refused(21, 0));
    assert_eq!(check_box(&[], &[most, 1]), refused(21, 0));
    assert_eq!(check_box(&[], &[most, 2, most]), refused(21, 0));
}

/// 21 comes before what any reel has, the first too.
#[test]
fn the_sum_before_everything() {
    for change in [
        (REEL_CODES[0], &[9][..]),
        (TRACES[0][0] + 114, &[9]),
        (LINES[1], &[9]),
        (TRACES[0][0] + 4, &[9]),
    ] {
        let slice = three_with(&[change]);
        assert_eq!(
            check_box(&slice, &[WHOLE, WHOLE, WHOLE + 1]),
            refused(21, 0)
        );
        assert_eq!(check_box(&slice, &[WHOLE, WHOLE]), refused(21, 0));
    }
    assert_eq!(check_box(&[0; 10], &[9]), refused(21, 0));
    assert_eq!(check_box(&[0; 10], &[10]), refused(1, 10));
}

/// All reels have the first one's line number, interval and N.
#[test]
fn line_interval_and_count() {
    for reel in [1, 2] {
        for line in [0, 6, 8, -7, 7 << 8, i32::MAX, i32::MIN] {
            let mut reels = three();
            reels[reel].line = line;
            reels_refused(&reels, 22, LINES[reel]);
        }
        for interval in [1, 1_999, 2_001, 32_767] {
            let mut reels = three();
            reels[reel].interval = interval;
            reels_refused(&reels, 22, INTERVALS[reel]);
        }
        for samples in [1, 3, 258, 32_767] {
            let mut reels = three();
            reels[reel].samples = samples;
            reels_refused(&reels, 22, COUNTS[reel]);
        }
    }
    for line in [0, -1, 1 << 24, i32::MAX, i32::MIN] {
        let mut reels = three();
        for reel in &mut reels {
            reel.line = line;
        }
        reels_taken(&reels, 6);
    }
    for (interval, samples) in [(1, 1), (32_767, 7), (1, 300)] {
        let mut reels = three();
        for reel in &mut reels {
            (reel.interval, reel.samples) = (interval, samples);
        }
        reels_taken(&reels, 6);
    }
}

/// Where the first reel is the odd one, the second breaks the rule.
#[test]
fn the_first_reel_decides() {
    let mut reels = three();
    reels[0].line = 8;
    reels_refused(&reels, 22, LINES[1]);
    let mut reels = three();
    reels[0].interval = 2_001;
    reels_refused(&reels, 22, INTERVALS[1]);
    // With N 3 in place of 2 both traces of the first reel are two bytes longer.
    let mut reels = three();
    reels[0].samples = 3;
    reels_refused(&reels, 22, COUNTS[1] + 4);
    // The third is compared with the first, and not only with the second: that one breaks it before.
    let mut reels = three();
    (reels[1].line, reels[2].line) = (8, 8);
    reels_refused(&reels, 22, LINES[1]);
}

/// The first reel's number is any, and each following one is one more.
#[test]
fn reel_numbers() {
    for first in [0, 1, 2, -1, -2, -3, 255, 65_535, i32::MIN, i32::MAX - 2] {
        let mut reels = three();
        for (reel, number) in reels.iter_mut().zip(first..=first + 2) {
            reel.number = number;
        }
        reels_taken(&reels, 6);
    }
    for number in [1, 0, 3, -2, 258, i32::MIN, i32::MAX] {
        let mut reels = three();
        reels[1].number = number;
        reels_refused(&reels, 22, REEL_NUMBERS[1]);
    }
    for number in [1, 2, 4, 5, -3] {
        let mut reels = three();
        reels[2].number = number;
        reels_refused(&reels, 22, REEL_NUMBERS[2]);
    }
    // Falling by one isn't rising.
    let mut reels = three();
    (reels[0].number, reels[1].number, reels[2].number) = (3, 2, 1);
    reels_refused(&reels, 22, REEL_NUMBERS[1]);
}

/// After 2147483647 there is no next reel number; before -2147483648 there is none either.
#[test]
fn reel_numbers_do_not_wrap() {
    for last in [i32::MIN, i32::MAX, 0, i32::MIN + 1] {
        let mut reels = three();
        (reels[0].number, reels[1].number) = (i32::MAX - 1, i32::MAX);
        reels[2].number = last;
        reels_refused(&reels, 22, REEL_NUMBERS[2]);
        reels_taken(&reels[..2], 4);
    }
    let mut reels = three();
    (reels[0].number, reels[1].number) = (i32::MAX, i32::MIN);
    reels_refused(&reels[..2], 22, REEL_NUMBERS[1]);
    reels_taken(&reels[..1], 2);
}

/// Field 5 is 1 in the first trace of each reel, and one more in each following one.
#[test]
fn numbers_on_the_reel() {
    for reel in 0..3 {
        for (trace, others) in [[0, 2, -1, 256], [0, 1, 3, -2]].into_iter().enumerate() {
            for other in others {
                let mut reels = three();
                reels[reel].traces[trace].1 = other;
                reels_refused(&reels, 22, TRACES[reel][trace] + 4);
            }
        }
    }
    // Running on across the reels is another run.
    let mut reels = three();
    (reels[1].traces[0].1, reels[1].traces[1].1) = (3, 4);
    reels_refused(&reels, 22, TRACES[1][0] + 4);
    // From 0 on each reel, and from 2.
    for first in [0, 2] {
        let mut reels = three();
        reels[0].traces = vec![(101, first), (102, first + 1)];
        reels_refused(&reels, 22, TRACES[0][0] + 4);
    }
}

/// Field 1 is any in the first trace of the box, and one more in each following one, on the next reel too.
#[test]
fn numbers_in_the_line() {
    for first in [0, 1, -1, -3, -6, 255, 65_533, i32::MIN, i32::MAX - 5] {
        let mut reels = three();
        let numbers = first..=first + 5;
        let traces = reels.iter_mut().flat_map(|reel| &mut reel.traces);
        for (trace, number) in traces.zip(numbers) {
            trace.0 = number;
        }
        reels_taken(&reels, 6);
    }
    // The second of the box is compared with the first, not the first with anything.
    let mut reels = three();
    reels[0].traces[0].0 = 100;
    reels_refused(&reels, 22, TRACES[0][1]);
    for (reel, trace) in [(0, 1), (1, 0), (1, 1), (2, 0), (2, 1)] {
        let right = 101 + 2 * reel as i32 + trace as i32;
        for other in [right - 1, right + 1, 0, 1, -right, right + 256] {
            let mut reels = three();
            reels[reel].traces[trace].0 = other;
            reels_refused(&reels, 22, TRACES[reel][trace]);
        }
    }
    // It doesn't begin anew on a reel.
    let mut reels = three();
    for reel in &mut reels {
        (reel.traces[0].0, reel.traces[1].0) = (1, 2);
    }
    reels_refused(&reels, 22, TRACES[1][0]);
}

/// After 2147483647 there is no next number, in the middle of a reel and at its end.
#[test]
fn numbers_in_the_line_do_not_wrap() {
    for next in [i32::MIN, i32::MAX, 0] {
        let mut reels = three();
        reels[0].traces = vec![(i32::MAX, 1), (next, 2)];
        reels_refused(&reels, 22, TRACES[0][1]);
        reels[0].traces = vec![(i32::MAX - 1, 1), (i32::MAX, 2)];
        reels[1].traces[0].0 = next;
        reels_refused(&reels, 22, TRACES[1][0]);
        reels_taken(&reels[..1], 2);
    }
    // A reel without traces behind the last number changes nothing.
    let last = [Reel::new(1, i32::MAX, 1), Reel::new(2, 0, 0)];
    reels_taken(&last, 1);
    let mut more = last.to_vec();
    more.push(Reel::new(3, i32::MIN, 1));
    reels_refused(&more, 22, 3_844 + 3_600 + 3_600);
}

/// Reels without traces at the front, in the middle and at the end. They have 3,600 bytes, and the run goes
/// on across them.
#[test]
fn reels_without_traces() {
    let empty = |number| Reel::new(number, 0, 0);
    reels_taken(&[empty(9)], 0);
    reels_taken(&[empty(9), empty(10), empty(11)], 0);
    reels_taken(&[empty(1), Reel::new(2, 50, 2)], 2);
    reels_taken(&[Reel::new(1, 50, 2), empty(2)], 2);
    reels_taken(&[Reel::new(1, 50, 2), empty(2), Reel::new(3, 52, 1)], 3);
    let across = [
        empty(1),
        empty(2),
        Reel::new(3, 50, 2),
        empty(4),
        empty(5),
        Reel::new(6, 52, 1),
        empty(7),
    ];
    reels_taken(&across, 3);
    // The first trace behind them at 3600 + 3600 + 4088 + 3600 + 3600 + 3600.
    for other in [50, 51, 53, 54, 1, 0] {
        let mut broken = across.to_vec();
        broken[5].traces[0].0 = other;
        reels_refused(&broken, 22, 22_088);
    }
    for other in [0, 2, 3] {
        let mut broken = across.to_vec();
        broken[5].traces[0].1 = other;
        reels_refused(&broken, 22, 22_092);
    }
    // With reels without traces only in front, the first trace is free.
    for first in [0, 1, 2, 3, -5] {
        reels_taken(&[empty(1), empty(2), Reel::new(3, first, 2)], 2);
    }
}

/// A reel without traces has the same line, interval and N, and the next reel number.
#[test]
fn reels_without_traces_are_checked() {
    let reels = [Reel::new(1, 50, 2), Reel::new(2, 0, 0), Reel::new(3, 52, 2)];
    reels_taken(&reels, 4);
    let other = |change: fn(&mut Reel)| {
        let mut reels = reels.to_vec();
        change(&mut reels[1]);
        reels
    };
    reels_refused(&other(|reel| reel.line = 8), 22, LINES[1]);
    reels_refused(&other(|reel| reel.number = 1), 22, REEL_NUMBERS[1]);
    reels_refused(&other(|reel| reel.number = 3), 22, REEL_NUMBERS[1]);
    reels_refused(&other(|reel| reel.interval = 1), 22, INTERVALS[1]);
    reels_refused(&other(|reel| reel.samples = 1), 22, COUNTS[1]);
    reels_taken(&other(|reel| reel.code = 5), 4);
    // It counts for the reel number behind it: 2 follows there, where it is passed over.
    let mut skipped = reels.to_vec();
    skipped[2].number = 2;
    reels_refused(&skipped, 22, 4_088 + 3_600 + 3_208);
    // In front it decides for the others.
    let front = |change: fn(&mut Reel)| {
        let mut reels = vec![Reel::new(1, 0, 0), Reel::new(2, 50, 1)];
        reels_taken(&reels, 1);
        change(&mut reels[0]);
        reels
    };
    reels_refused(&front(|reel| reel.line = 8), 22, 3_600 + 3_204);
    reels_refused(&front(|reel| reel.number = 2), 22, 3_600 + 3_208);
    reels_refused(&front(|reel| reel.interval = 1), 22, 3_600 + 3_216);
    reels_refused(&front(|reel| reel.samples = 1), 22, 3_600 + 3_220);
}

/// The codes may differ from reel to reel, and so do the lengths of the traces.
#[test]
fn codes_differ() {
    let reels: Vec<Reel> = CODES
        .into_iter()
        .enumerate()
        .map(|(index, code)| Reel {
            code: code as u16,
            ..Reel::new(index as i32, 10 * index as i32, 10)
        })
        .collect();
    reels_taken(&reels, 60);
    for one in CODES {
        for other in CODES {
            let mut reels = three();
            (reels[0].code, reels[1].code) = (one as u16, other as u16);
            reels_taken(&reels, 6);
            // Trace 2 of the third reel, behind two reels whose traces are as long as their codes say.
            reels[2].traces[1].0 = 0;
            let width = |code| match code {
                8 => 1,
                3 => 2,
                _ => 4,
            };
            let starts = 3 * 3_600 + 5 * 240 + 4 * width(one) + 4 * width(other) + 4;
            reels_refused(&reels, 22, starts);
        }
    }
}

/// Ruled fields, the first in the slice first: of any two that are broken the earlier one counts.
#[test]
fn the_first_field_in_the_slice() {
    let one = [0, 1];
    let mut fields: Vec<(usize, &[u8])> = vec![(TRACES[0][0] + 4, &[1]), (TRACES[0][1], &[1])];
    fields.push((TRACES[0][1] + 4, &[1]));
    for reel in [1, 2] {
        fields.push((LINES[reel], &[1]));
        fields.push((REEL_NUMBERS[reel], &[1]));
        fields.push((INTERVALS[reel], &one));
        // N in the second reel stays one that its length has, without a rest: 124 samples make one trace.
        fields.push((COUNTS[reel], &[0, 124]));
        for trace in TRACES[reel] {
            fields.push((trace, &[1]));
            fields.push((trace + 4, &[1]));
        }
    }
    assert!(fields.windows(2).all(|pair| pair[0].0 < pair[1].0));
    for (index, first) in fields.iter().enumerate() {
        three_refused(&[*first], 22, first.0);
        for second in &fields[index + 1..] {
            three_refused(&[*first, *second], 22, first.0);
            three_refused(&[*second, *first], 22, first.0);
        }
        three_refused(&fields[index..], 22, first.0);
    }
}

/// Causes of a reel itself, each at its place in the slice; beside number 1 stands the reel's own length.
#[test]
fn causes_of_each_reel() {
    for (reel, start) in [0, 4_088, 8_176].into_iter().enumerate() {
        three_refused(&[(REEL_CODES[reel], &[0, 6])], 2, start + 3_224);
        three_refused(&[(COUNTS[reel], &[0, 0])], 3, start + 3_220);
        three_refused(&[(COUNTS[reel], &[0x80, 0])], 3, start + 3_220);
        three_refused(&[(INTERVALS[reel], &[0, 0])], 4, start + 3_216);
        three_refused(&[(COUNTS[reel], &[0, 3])], 5, start + 3_600 + 246);
        for trace in TRACES[reel] {
            three_refused(&[(trace + 114, &[0, 3])], 7, trace + 114);
            three_refused(&[(trace + 116, &[0, 3])], 8, trace + 116);
            three_refused(&[(trace + 68, &[0, 3])], 18, trace + 68);
            three_refused(&[(trace + 70, &[0, 3])], 18, trace + 70);
            is_taken(&three_with(&[(trace + 114, &[0, 2])]), &[WHOLE; 3], 6);
        }
    }
    for short in [0, 1, 3_200, 3_599] {
        let (slice, _) = box_of(&three());
        let mut cut = slice[..8_176 + short].to_vec();
        let beside = refused(1, short);
        assert_eq!(check_box(&cut, &[WHOLE, WHOLE, short as u64]), beside);
        cut.extend(&slice[8_176..]);
        let lengths = [WHOLE, WHOLE, short as u64, WHOLE];
        assert_eq!(check_box(&cut, &lengths), beside);
        cut.drain(..8_176);
        assert_eq!(check_box(&cut, &[short as u64, WHOLE]), beside);
    }
}

/// Words that codes 4 and 5 don't take, on a later reel. The first reel of code 3 has 4,088 bytes, and one
/// of code 4 or 5 has traces of 248: its second samples stand at 4088 + 3600 + 244 and 248 further on.
#[test]
fn words_of_later_reels() {
    for (code, number, bytes) in [
        (4, 9, [1, 0, 0, 0]),
        (5, 19, [0x7F, 0x80, 0, 0]),
        (5, 19, [0xFF, 0xC0, 0, 1]),
    ] {
        for place in [7_928, 7_932, 8_176, 8_180] {
            let mut reels = three();
            reels[1].code = code;
            let (mut slice, lengths) = box_of(&reels);
            assert_eq!(lengths, [4_088, 4_096, 4_088]);
            slice[place..place + 4].copy_from_slice(&bytes);
            assert_eq!(check_box(&slice, &lengths), refused(number, place));
        }
    }
}

/// A reel's own causes come before every rule that it breaks, even those at its last trace before a rule
/// that its line number breaks.
#[test]
fn own_causes_before_rules() {
    let broken: [(usize, &[u8]); 7] = [
        (LINES[1], &[1]),
        (REEL_NUMBERS[1], &[1]),
        (INTERVALS[1], &[0, 1]),
        (TRACES[1][0], &[1]),
        (TRACES[1][0] + 4, &[1]),
        (TRACES[1][1], &[1]),
        (TRACES[1][1] + 4, &[1]),
    ];
    let last = TRACES[1][1];
    let own: [(usize, &[u8], u64, usize); 8] = [
        (REEL_CODES[1], &[0, 6], 2, REEL_CODES[1]),
        (COUNTS[1], &[0, 0], 3, COUNTS[1]),
        (COUNTS[1], &[0, 3], 5, 4_088 + 3_600 + 246),
        (last + 114, &[0, 3], 7, last + 114),
        (last + 116, &[0, 3], 8, last + 116),
        (last + 68, &[0, 3], 18, last + 68),
        (last + 70, &[0, 3], 18, last + 70),
        (TRACES[1][0] + 70, &[0, 3], 18, TRACES[1][0] + 70),
    ];
    for (place, bytes, number, beside) in own {
        for change in broken {
            three_refused(&[(place, bytes), change], number, beside);
        }
        three_refused(&[&broken[..], &[(place, bytes)]].concat(), number, beside);
    }
    // The same of a word at the end of the reel.
    for (code, number, bytes) in [(4, 9, [1, 0, 0, 0]), (5, 19, [0x7F, 0x80, 0, 0])] {
        let mut reels = three();
        (reels[1].code, reels[1].line, reels[1].traces[0].1) = (code, 8, 5);
        let (mut slice, lengths) = box_of(&reels);
        assert_eq!(check_box(&slice, &lengths), refused(22, LINES[1]));
        slice[8_180..8_184].copy_from_slice(&bytes);
        assert_eq!(check_box(&slice, &lengths), refused(number, 8_180));
    }
    // And on the first reel, whose field 5 breaks a rule before.
    three_refused(
        &[(TRACES[0][0] + 4, &[1]), (TRACES[0][1] + 116, &[0, 3])],
        8,
        TRACES[0][1] + 116,
    );
}

/// A rule that a reel breaks comes before every cause of the next reel.
#[test]
fn rules_before_the_next_reels_causes() {
    let last = TRACES[2][1];
    let next: [(usize, &[u8]); 7] = [
        (REEL_CODES[2], &[0, 6]),
        (COUNTS[2], &[0, 0]),
        (INTERVALS[2], &[0, 0]),
        (TRACES[2][0] + 114, &[0, 3]),
        (last + 116, &[0, 3]),
        (last + 68, &[0, 3]),
        (last + 70, &[0, 3]),
    ];
    let broken: [(usize, &[u8]); 9] = [
        (TRACES[0][0] + 4, &[1]),
        (TRACES[0][1], &[1]),
        (TRACES[0][1] + 4, &[1]),
        (LINES[1], &[1]),
        (REEL_NUMBERS[1], &[1]),
        (INTERVALS[1], &[0, 1]),
        (COUNTS[1], &[0, 124]),
        (TRACES[1][1], &[1]),
        (TRACES[1][1] + 4, &[1]),
    ];
    for cause in next {
        for change in broken {
            three_refused(&[change, cause], 22, change.0);
        }
    }
    // The next reel too short, after a reel that breaks a rule and after one that doesn't.
    let (slice, _) = box_of(&three());
    let lengths = [WHOLE, WHOLE, 3_000, 1_088];
    assert_eq!(check_box(&slice, &lengths), refused(1, 3_000));
    let slice = three_with(&[(TRACES[1][1] + 4, &[1])]);
    assert_eq!(check_box(&slice, &lengths), refused(22, TRACES[1][1] + 4));
    // A cause of an earlier reel before both.
    three_refused(
        &[
            (TRACES[0][1] + 70, &[0, 3]),
            (LINES[1], &[1]),
            (REEL_CODES[2], &[0]),
        ],
        18,
        TRACES[0][1] + 70,
    );
}

/// Fields that no rule names may have any numbers: the job number, 3213, 3215 and 3219, the fields of the
/// traces from 9 on, the unassigned bytes, the cards.
#[test]
fn what_no_rule_names() {
    let mut places = vec![
        0, 3_199, 3_200, 3_212, 3_214, 3_218, 3_222, 3_226, 3_258, 3_599,
    ];
    places.extend([8, 12, 24, 28, 72, 118, 178, 180, 239].map(|offset| 3_844 + offset));
    for start in [0, 4_088, 8_176] {
        for &place in &places {
            is_taken(&three_with(&[(start + place, &[0x5A])]), &[WHOLE; 3], 6);
        }
    }
}

/// Traces of an Eagle reel have trailers, which a box knows nothing of: 960 bytes are traces of their own or
/// bytes left over.
#[test]
fn number_20_plays_no_part() {
    let mut reel = Reel::new(1, 1, 1);
    reel.code = 1;
    let mut bytes = reel.bytes();
    bytes.extend([0; 960]);
    assert_eq!(check_box(&bytes, &[4_808]), refused(5, 3_600 + 4 * 248));
}

/// 100,000 is each reel's limit, and the box has none: 100,000 traces and 1, and 100,001 on one reel.
#[test]
fn many_traces() {
    let mut full = Reel::new(1, 1, 100_000);
    (full.code, full.samples) = (8, 1);
    let mut one = Reel::new(2, 100_001, 2);
    (one.code, one.samples) = (8, 1);
    reels_taken(&[full.clone(), one.clone()], 100_002);
    let mut next = Reel::new(2, 100_001, 100_000);
    (next.code, next.samples) = (8, 1);
    reels_taken(&[full.clone(), next.clone()], 200_000);
    // The last trace of both, 241 bytes each.
    let length = 3_600 + 100_000 * 241;
    next.traces[99_999].1 = 99_999;
    reels_refused(&[full.clone(), next.clone()], 22, 2 * length - 237);
    next.traces.push((200_001, 100_001));
    reels_refused(&[full.clone(), next], 6, 2 * length);
    full.traces.push((100_001, 100_001));
    reels_refused(&[full, one], 6, length);
}

/// Many short reels: the counts are those of the list and of all traces.
#[test]
fn many_reels() {
    let mut reels: Vec<Reel> = (0..1_000)
        .map(|index| Reel::new(index - 500, index / 3, i32::from(index % 3 == 0)))
        .collect();
    reels_taken(&reels, 334);
    reels[999].number += 1;
    // 333 of the reels before have a trace of 244 bytes.
    reels_refused(&reels, 22, 999 * 3_600 + 333 * 244 + 3_208);
}
