//! IBM words that are not normal, and their count on a reel: reels of which it is known which words
//! those are, and what the count says of the reel that is written again.

use crate::compare::{print_input, Comparison};
use crate::library::ReelAnswer;
use crate::random::Random;
use crate::reels::{damage, put, reel, write_and_read_again, Shape, Words, DAMAGES};

/// The IBM word of these parts.
fn ibm(sign: u32, characteristic: u32, fraction: u32) -> [u8; 4] {
    (sign << 31 | characteristic << 24 | fraction).to_be_bytes()
}

/// The least and the largest fraction of so many hexadecimal digits after its leading zeros.
fn ends(digits: u32) -> (u32, u32) {
    (1 << (4 * digits - 4), (1 << (4 * digits)) - 1)
}

/// A fraction of so many hexadecimal digits after its leading zeros.
fn fraction(random: &mut Random, digits: u32) -> u32 {
    let (least, most) = ends(digits);
    match random.below(4) {
        0 => least,
        1 => most,
        _ => least + random.below((most - least + 1) as usize) as u32,
    }
}

/// A word that is not normal: a zero other than 00000000, or a characteristic above 0 before a fraction
/// whose first digit is 0.
pub fn not_normal_word(random: &mut Random) -> [u8; 4] {
    let sign = random.below(2) as u32;
    let characteristic = match random.below(2) {
        0 => random.pick(&[1, 2, 5, 6, 64, 65, 70, 126, 127]),
        _ => 1 + random.below(127) as u32,
    };
    match random.below(8) {
        0 => ibm(1, 0, 0),
        1 => ibm(sign, characteristic, 0),
        _ => {
            let digits = 1 + random.below(5) as u32;
            ibm(sign, characteristic, fraction(random, digits))
        }
    }
}

/// A normal word: 00000000, characteristic 0 before any other fraction, or a first digit other than 0.
fn normal_word(random: &mut Random) -> [u8; 4] {
    let sign = random.below(2) as u32;
    match random.below(8) {
        0 => ibm(0, 0, 0),
        1 | 2 => {
            let digits = 1 + random.below(6) as u32;
            ibm(sign, 0, fraction(random, digits))
        }
        _ => ibm(sign, random.below(128) as u32, fraction(random, 6)),
    }
}

/// Words that are not normal, of every kind: 80000000; then characteristics from 1 on, of either sign,
/// before 0 and before the ends of fractions of 1 to 5 digits.
fn every_kind() -> Vec<[u8; 4]> {
    let mut words = vec![ibm(1, 0, 0)];
    for sign in 0..2 {
        for characteristic in [1, 2, 6, 64, 65, 127] {
            words.push(ibm(sign, characteristic, 0));
            for (least, most) in (1..=5).map(ends) {
                words.push(ibm(sign, characteristic, least));
                words.push(ibm(sign, characteristic, most));
            }
        }
    }
    words
}

/// Puts a word at a sample of a trace, both counted from 0, of a reel of four-byte words.
fn put_word(reel: &mut [u8], shape: Shape, trace: usize, sample: usize, word: [u8; 4]) {
    let place = shape.trace(trace) + 240 + 4 * sample;
    reel[place..place + 4].copy_from_slice(&word);
}

/// Some of a row: of the traces of a reel, or of the samples of a trace or of a record.
#[derive(Clone, Copy)]
pub enum Which {
    None,
    First,
    Last,
    One,
    AllButOne,
    Half,
    All,
}

/// All but none.
pub const WHICH: [Which; 6] = [
    Which::First,
    Which::Last,
    Which::One,
    Which::AllButOne,
    Which::Half,
    Which::All,
];

impl Which {
    /// For each of a row of so many, whether it is one of these.
    pub fn of(self, random: &mut Random, count: usize) -> Vec<bool> {
        let one = random.below(count);
        let chosen = |index| match self {
            Which::None => false,
            Which::First => index == 0,
            Which::Last => index + 1 == count,
            Which::One => index == one,
            Which::AllButOne => index != one,
            Which::Half => random.once_in(2),
            Which::All => true,
        };
        (0..count).map(chosen).collect()
    }
}

/// A reel of code 1 with words that are not normal at these samples of these traces and normal ones at
/// all others, and the count.
pub fn reel_of(random: &mut Random, shape: Shape, traces: Which, samples: Which) -> (Vec<u8>, u64) {
    let mut made = reel(random, shape, Words::Random);
    let mut count = 0;
    for (trace, chosen) in traces.of(random, shape.traces).into_iter().enumerate() {
        let samples = if chosen { samples } else { Which::None };
        for (sample, chosen) in samples.of(random, shape.samples).into_iter().enumerate() {
            let word = if chosen {
                count += 1;
                not_normal_word(random)
            } else {
                normal_word(random)
            };
            put_word(&mut made, shape, trace, sample, word);
        }
    }
    (made, count)
}

/// Reads a reel that is taken with this count, and gives the answer.
fn counted(compare: &mut Comparison, reel: &[u8], shape: Shape, not_normal: u64) -> ReelAnswer {
    let answer = compare.read_reel(reel, shape.record_length());
    if (answer.number, answer.not_normal) != (0, not_normal) {
        compare.differs("words that are not normal are counted otherwise", || {
            println!("{not_normal} of them: {answer:?}");
            print_input(reel, &[]);
        });
    }
    answer
}

/// The count of a reel of code 1 is that of the words that don't come back as they were when its record
/// is written under code 1. So it is 0 exactly when all do.
pub fn words_come_back(compare: &mut Comparison, reel: &[u8], read: ReelAnswer, written: &[u8]) {
    let length = 240 + 4 * read.samples as usize;
    let words = |reel: &[u8]| -> Vec<[u8; 4]> {
        let traces = reel[3600..].chunks_exact(length);
        let words = traces.flat_map(|trace| trace[240..].chunks_exact(4));
        words
            .map(|word| word.try_into().expect("four bytes"))
            .collect()
    };
    let (before, after) = (words(reel), words(written));
    let changed = before.iter().zip(&after).filter(|(a, b)| a != b).count();
    if before.len() != after.len() || changed as u64 != read.not_normal {
        compare.differs(
            "the count is not that of the words that don't come back",
            || {
                println!("{changed} words don't: {read:?}");
                print_input(reel, &[]);
                print_input(written, &[]);
            },
        );
    }
}

/// Reads a reel of code 1 with this count, into outputs that are too short as well; writes its record
/// under code 1; and reads the same bytes under the other codes, where none count.
fn there_and_back(
    compare: &mut Comparison,
    random: &mut Random,
    reel: &[u8],
    shape: Shape,
    count: u64,
) {
    let length = shape.record_length();
    for room in [0, random.below(length), length - 1] {
        compare.read_reel(reel, room);
    }
    let read = counted(compare, reel, shape, count);
    let record = compare.written(read).to_vec();
    let written = write_and_read_again(compare, &record, 1, reel.len());
    words_come_back(
        compare,
        reel,
        read,
        &written.expect("every word fits its code"),
    );

    let mut other = reel.to_vec();
    put(&mut other, 3224, 2);
    counted(compare, &other, shape, 0);
    put(&mut other, 3224, 5);
    compare.read_reel(&other, length);
    put(&mut other, 3224, 4);
    compare.read_reel(&other, length);
    for trace in 0..shape.traces {
        for sample in 0..shape.samples {
            other[shape.trace(trace) + 240 + 4 * sample] = 0;
        }
    }
    counted(compare, &other, shape, 0);
    for (code, in_a_word) in [(3, 2), (8, 4)] {
        let samples = in_a_word * shape.samples;
        if samples > 32_767 {
            continue;
        }
        let mut parts = reel.to_vec();
        put(&mut parts, 3220, samples as u16);
        put(&mut parts, 3224, code);
        for trace in 0..shape.traces {
            put(&mut parts, shape.trace(trace) + 114, 0);
        }
        counted(compare, &parts, Shape { samples, ..shape }, 0);
    }
}

pub fn counts(compare: &mut Comparison) {
    let mut random = Random::seeded(13);
    one_word(compare, &mut random);
    several_words(compare, &mut random);
    refusals(compare, &mut random);
}

/// A word of every kind, alone at every sample of small reels.
fn one_word(compare: &mut Comparison, random: &mut Random) {
    compare.stage("one word that isn't normal, at every sample");
    for (samples, traces) in [(1, 1), (1, 3), (2, 2), (3, 3), (5, 2), (9, 1), (17, 1)] {
        let shape = Shape::new(1, samples, traces);
        let (normal, _) = reel_of(random, shape, Which::None, Which::None);
        there_and_back(compare, random, &normal, shape, 0);
        for trace in 0..traces {
            for sample in 0..samples {
                for word in every_kind() {
                    let mut made = normal.clone();
                    put_word(&mut made, shape, trace, sample, word);
                    counted(compare, &made, shape, 1);
                }
            }
        }
    }
}

/// Some words that are not normal in some traces.
fn several_words(compare: &mut Comparison, random: &mut Random) {
    compare.stage("words that aren't normal, at some samples of some traces");
    for traces in WHICH {
        for samples in WHICH {
            for _ in 0..80 {
                let shape = Shape {
                    code: 1,
                    ..Shape::any(random, 100)
                };
                let (made, count) = reel_of(random, shape, traces, samples);
                there_and_back(compare, random, &made, shape, count);
            }
            let most = random.pick(&[8_000, 32_767]);
            let shape = Shape::new(1, most - random.below(2), 1 + random.below(3));
            let (made, count) = reel_of(random, shape, traces, samples);
            there_and_back(compare, random, &made, shape, count);
        }
    }
}

/// The causes that a short reel can have.
const CAUSES: [u64; 10] = [1, 2, 3, 4, 5, 7, 8, 9, 10, 18];

/// Refused reels whose words are not normal: none count. Under code 4 such words are refused by 9.
fn refusals(compare: &mut Comparison, random: &mut Random) {
    compare.stage("words that aren't normal on refused reels");
    let mut seen = [0; 20];
    for turn in 0..5_000 {
        let shape = Shape {
            traces: 1 + random.below(3),
            ..Shape::new(1, 1 + random.below(9), 0)
        };
        let (mut made, _) = reel_of(random, shape, Which::All, Which::All);
        match turn % 5 {
            0 => put(&mut made, 3224, 4),
            1 => {}
            _ => {
                let kind = random.below(DAMAGES);
                damage(random, kind, shape, &mut made);
            }
        }
        for room in [0, shape.record_length() - 1] {
            let answer = compare.read_reel(&made, room);
            seen[answer.number as usize] += 1;
        }
    }
    for number in CAUSES {
        if seen[number as usize] < 50 {
            compare.differs("a cause is rare beside words that are not normal", || {
                println!("number {number}: {} times", seen[number as usize]);
            });
        }
    }
}

/// Reels of the most traces, and of one more.
pub fn long_reels(compare: &mut Comparison) {
    let mut random = Random::seeded(14);
    compare.stage("words that aren't normal on reels of 100,000 traces and more");
    let shape = Shape::new(1, 1, 100_001);
    let (mut made, _) = reel_of(&mut random, shape, Which::All, Which::All);
    compare.read_reel(&made, shape.record_length());
    let shape = Shape::new(1, 1, 100_000);
    made.truncate(shape.trace(100_000));
    counted(compare, &made, shape, 100_000);
    compare.read_reel(&made, shape.record_length() - 1);
    for trace in 0..99_999 {
        put_word(&mut made, shape, trace, 0, normal_word(&mut random));
    }
    counted(compare, &made, shape, 1);
}
