//! Reels, read and looked up, valid and damaged.

use crate::compare::{print_input, Comparison};
use crate::library::ReelAnswer;
use crate::normal::words_come_back;
use crate::random::Random;
use crate::samples::{bad_code, no_value, pair, random_word, structured_word, CODES, NO_VALUES};
use crate::scalars::{damage_scalar, put_on_reel};

/// What the numbers and words of a made reel are like.
#[derive(Clone, Copy, PartialEq)]
pub enum Words {
    Random,
    Structured,
    /// Whole numbers of 16 bits, which every code has but code 8; there of 8 bits.
    Whole,
    /// Whole numbers of 8 bits, which every code has.
    Small,
}

pub const ALL_WORDS: [Words; 4] = [Words::Random, Words::Structured, Words::Whole, Words::Small];

#[derive(Clone, Copy)]
pub struct Shape {
    pub code: u32,
    pub samples: usize,
    pub traces: usize,
    pub interval: u16,
}

impl Shape {
    pub fn new(code: u32, samples: usize, traces: usize) -> Shape {
        Shape {
            code,
            samples,
            traces,
            interval: 2000,
        }
    }

    pub fn any(random: &mut Random, most_samples: usize) -> Shape {
        let samples = match random.below(8) {
            0 => 1,
            1 => 2,
            2..=5 => 1 + random.below(20),
            _ => 1 + random.below(most_samples),
        };
        let interval = match random.below(4) {
            0 => random.pick(&[1, 255, 256, 32_767]),
            _ => 1 + random.below(32_767) as u16,
        };
        let traces = random.pick(&[0, 1, 1, 2, 3, 4, 7]);
        Shape {
            code: random.pick(&CODES),
            samples,
            traces,
            interval,
        }
    }

    pub fn width(&self) -> usize {
        match self.code {
            3 => 2,
            8 => 1,
            _ => 4,
        }
    }

    pub fn trace_length(&self) -> usize {
        240 + self.samples * self.width()
    }

    /// The length of the record that reading gives: a trace has a sample field for each 6,000 of its
    /// samples that are begun.
    pub fn record_length(&self) -> usize {
        let fields = self.samples.div_ceil(6_000);
        3273 + self.traces * (183 + 3 * fields + 6 * self.samples)
    }

    /// The place of a trace on the reel, counted from 0.
    pub fn trace(&self, index: usize) -> usize {
        3600 + index * self.trace_length()
    }
}

fn word(random: &mut Random, code: u32, words: Words) -> [u8; 4] {
    match words {
        Words::Random => random_word(random, code),
        Words::Structured => structured_word(random, code),
        Words::Whole | Words::Small => {
            let small = words == Words::Small || code == 8;
            let number = random.next() as i16 >> if small { 8 } else { 0 };
            let twos = number.trailing_zeros().min(15);
            let whole = if number == 0 {
                pair(0, 0)
            } else {
                pair(twos as i16, i32::from(number >> twos))
            };
            independent::write_pair(code, whole).expect("every code has such a number")
        }
    }
}

pub fn put(bytes: &mut [u8], place: usize, number: u16) {
    bytes[place..place + 2].copy_from_slice(&number.to_be_bytes());
}

/// Card bytes: blanks, any bytes, or any with many 00 among them.
fn cards(random: &mut Random) -> Vec<u8> {
    let mut cards = vec![0x40; 3200];
    match random.below(4) {
        0 => {}
        1 => {
            random.fill(&mut cards);
            for _ in 0..500 {
                cards[random.below(3200)] = 0;
            }
        }
        _ => random.fill(&mut cards),
    }
    cards
}

/// A reel that reading takes. Unassigned bytes are filled too; fields 115 and 117 are 0 or not, and
/// elevations and coordinates are of any size.
pub fn reel(random: &mut Random, shape: Shape, words: Words) -> Vec<u8> {
    let mut reel = cards(random);
    reel.resize(3600, 0);
    if !random.once_in(4) {
        random.fill(&mut reel[3200..]);
    }
    put(&mut reel, 3216, shape.interval);
    put(&mut reel, 3220, shape.samples as u16);
    put(&mut reel, 3224, shape.code as u16);
    for _ in 0..shape.traces {
        let mut header = [0; 240];
        if !random.once_in(4) {
            random.fill(&mut header);
        }
        put_on_reel(random, &mut header);
        put(&mut header, 114, random.pick(&[0, shape.samples as u16]));
        put(&mut header, 116, random.pick(&[0, shape.interval]));
        reel.extend(header);
        for _ in 0..shape.samples {
            reel.extend(&word(random, shape.code, words)[..shape.width()]);
        }
    }
    reel
}

/// A number other than those that a field may have; some differ in one byte only.
pub fn other_number(random: &mut Random, number: u16) -> u16 {
    match random.below(7) {
        0 => number.wrapping_add(1),
        1 => number.wrapping_sub(1),
        2 => number ^ 0x8000,
        3 => number ^ 0x0100,
        4 => number.swap_bytes(),
        5 => 1 << random.below(16),
        _ => random.next() as u16,
    }
}

/// The kinds of damage lead to the causes 1 to 9 (without 6, which takes a long reel), to 18 and to 19;
/// two put other valid numbers in place of N and the code.
pub const DAMAGES: usize = 14;

/// Damages a reel in one way. What an earlier damage has cut off can't be damaged any more.
pub fn damage(random: &mut Random, kind: usize, shape: Shape, reel: &mut Vec<u8>) {
    if kind == 0 {
        let length = random.pick(&[0, 1, 3199, 3200, 3216, 3220, 3226, 3599, 3600]);
        reel.truncate(if random.once_in(2) {
            length
        } else {
            random.below(3600)
        });
    }
    if reel.len() < 3600 {
        return;
    }
    let trace = shape.trace(random.below(shape.traces.max(1)));
    let traces = trace + shape.trace_length() <= reel.len();
    match kind {
        1 => {
            let code = match random.below(3) {
                0 => bad_code(random) as u16,
                1 => shape.code as u16 | random.pick(&[0x0100, 0x8000, 0x0008]),
                _ => random.next() as u16,
            };
            put(reel, 3224, code);
        }
        2 => {
            let samples = random.pick(&[0, 32_768, 32_769, 65_535, 256 * 255]);
            put(reel, 3220, samples);
        }
        3 => {
            let interval = random.pick(&[0, 32_768, 32_769, 65_535, shape.interval | 0x8000]);
            put(reel, 3216, interval);
        }
        4 => {
            let cut = 1 + random.below(reel.len() - 3600 + 1);
            reel.truncate((reel.len() - cut).max(3600));
        }
        5 => {
            let most = random.pick(&[1, 4, 240, 1000]);
            let added = 1 + random.below(most);
            for _ in 0..added {
                reel.push(random.next() as u8);
            }
        }
        6 if traces => put(
            reel,
            trace + 114,
            other_number(random, shape.samples as u16),
        ),
        7 if traces => put(reel, trace + 116, other_number(random, shape.interval)),
        8 | 9 if traces => {
            let place = trace + 240 + random.below(shape.samples) * shape.width();
            if shape.code == 5 {
                reel[place..place + 4].copy_from_slice(&no_value(random));
            } else {
                reel[place] ^= 1 << random.below(8);
            }
        }
        10 => {
            let most = random.pick(&[2, 20, 8_000, 32_767]);
            put(reel, 3220, 1 + random.below(most) as u16);
        }
        11 => put(reel, 3224, random.pick(&CODES) as u16),
        12 | 13 if traces => damage_scalar(random, &mut reel[trace..]),
        _ => {}
    }
}

/// Reads a reel into outputs of several lengths, and gives the answer and the record if it is taken.
fn read_into_rooms(
    compare: &mut Comparison,
    random: &mut Random,
    reel: &[u8],
    most: usize,
) -> Option<(ReelAnswer, Vec<u8>)> {
    let first = compare.read_reel(reel, most);
    if first.number != 0 {
        compare.read_reel(reel, random.below(80));
        return None;
    }
    let length = first.length as usize;
    let record = compare.written(first).to_vec();
    compare.read_reel(reel, 0);
    compare.read_reel(reel, random.below(length));
    compare.read_reel(reel, length - 1);
    compare.read_reel(reel, length);
    compare.read_reel(reel, length + 1 + random.below(300));
    Some((first, record))
}

/// Writes a record under a code. If it is taken, the library reads it again, which must give the
/// record, and no word that is not normal.
pub fn write_and_read_again(
    compare: &mut Comparison,
    record: &[u8],
    code: u32,
    room: usize,
) -> Option<Vec<u8>> {
    let written = compare.write_reel(record, code, room);
    if written.number != 0 {
        return None;
    }
    let reel = compare.written(written).to_vec();
    let again = compare.read_reel(&reel, record.len());
    if again.number != 0 || again.not_normal != 0 || compare.written(again) != record {
        compare.differs(
            &format!("a record written under code {code} is not read again"),
            || {
                println!("writing: {written:?}\nreading: {again:?}");
                print_input(record, &[]);
            },
        );
    }
    Some(reel)
}

pub fn some_look_ups(
    compare: &mut Comparison,
    random: &mut Random,
    reel: &[u8],
    shape: Shape,
    count: usize,
) {
    for _ in 0..count {
        let trace = match random.below(8) {
            0 => 0,
            1 => random.pick(&[
                shape.traces + 1,
                usize::MAX,
                1 << 32,
                (1 << 32) + 1,
                1 << 63,
            ]),
            _ => random.below(shape.traces + 2),
        };
        let byte = match random.below(8) {
            0 => random.pick(&[
                0,
                115,
                117,
                180,
                181,
                3200,
                3225,
                3261,
                65_536 + 115,
                u32::MAX,
            ]),
            1 => random.next() as u32,
            _ if trace == 0 => random.between(3195, 3265) as u32,
            2 => random.pick(&[115, 117]),
            3 => random.pick(&[41, 65, 69, 71, 73, 85]),
            _ => random.between(0, 185) as u32,
        };
        compare.look_up(reel, trace, byte);
    }
}

pub fn reels(compare: &mut Comparison) {
    let mut random = Random::seeded(4);

    compare.stage("a small reel cut at every place, and with every byte changed");
    for code in CODES {
        let shape = Shape::new(code, 2, 2);
        let whole = reel(&mut random, shape, Words::Structured);
        let room = shape.record_length() + 300;
        for length in 0..=whole.len() {
            compare.read_reel(&whole[..length], room);
        }
        let mut changed = whole.clone();
        for place in 0..whole.len() {
            for byte in [0, 1, 0x40, 0xFF, whole[place] ^ 0x80, random.next() as u8] {
                if place < 3200 && byte > 1 {
                    continue;
                }
                changed[place] = byte;
                compare.read_reel(&changed, room);
            }
            changed[place] = whole[place];
        }
    }

    compare.stage("a small reel with every length of the output");
    for code in CODES {
        let shape = Shape::new(code, 2, 1);
        let whole = reel(&mut random, shape, Words::Random);
        for room in 0..=shape.record_length() + 20 {
            compare.read_reel(&whole, room);
        }
    }

    compare.stage("reels, valid and damaged");
    let mut come_back = [0; 2];
    for _ in 0..90_000 {
        let shape = Shape::any(&mut random, 300);
        let words = random.pick(&ALL_WORDS);
        let mut made = reel(&mut random, shape, words);
        for _ in 0..random.pick(&[0, 0, 1, 1, 1, 2, 3, 5]) {
            let kind = random.below(DAMAGES);
            damage(&mut random, kind, shape, &mut made);
        }
        some_look_ups(compare, &mut random, &made, shape, 3);
        let room = shape.record_length() + random.below(500);
        if let Some((read, record)) = read_into_rooms(compare, &mut random, &made, room) {
            for code in CODES {
                let room = made.len() + 4 * record.len();
                let written = write_and_read_again(compare, &record, code, room);
                if code == 1 && made[3225] == 1 {
                    words_come_back(compare, &made, read, &written.expect("its own code"));
                    come_back[usize::from(read.not_normal == 0)] += 1;
                }
            }
        }
    }
    if come_back.iter().any(|&count| count < 1000) {
        compare.differs(
            "nearly all reels have words that are not normal, or none",
            || {
                println!("{come_back:?}");
            },
        );
    }

    words_without_a_value(compare, &mut random);

    compare.stage("reels of 32,767 samples");
    for code in CODES {
        for words in ALL_WORDS {
            let shape = Shape::new(code, 32_767 - random.below(2), 1 + random.below(3));
            let mut made = reel(&mut random, shape, words);
            let read = read_into_rooms(compare, &mut random, &made, shape.record_length() + 50);
            let (_, record) = read.expect("an undamaged reel");
            for code in CODES {
                write_and_read_again(compare, &record, code, made.len() + record.len());
            }
            for kind in 0..DAMAGES {
                let before = made.clone();
                damage(&mut random, kind, shape, &mut made);
                compare.read_reel(&made, shape.record_length());
                made = before;
            }
        }
    }
}

/// Words of code 5 that have no value: one at every sample of small reels, and the same bytes under the
/// other codes; then some of them.
fn words_without_a_value(compare: &mut Comparison, random: &mut Random) {
    compare.stage("a word of code 5 without a value, at every sample");
    for (samples, traces) in [
        (1, 1),
        (1, 3),
        (2, 2),
        (3, 3),
        (5, 2),
        (9, 1),
        (17, 1),
        (67, 2),
    ] {
        let shape = Shape::new(5, samples, traces);
        let valid = reel(random, shape, Words::Structured);
        for trace in 0..traces {
            for sample in 0..samples {
                let place = shape.trace(trace) + 240 + 4 * sample;
                for bits in NO_VALUES {
                    let mut made = valid.clone();
                    made[place..place + 4].copy_from_slice(&bits.to_be_bytes());
                    for room in [0, shape.record_length()] {
                        let answer = compare.read_reel(&made, room);
                        if (answer.number, answer.beside) != (19, place as u64) {
                            compare.differs("a word without a value isn't refused by 19", || {
                                println!("at place {place}: {answer:?}");
                                print_input(&made, &[answer.beside]);
                            });
                        }
                    }
                    some_look_ups(compare, random, &made, shape, 2);
                    for code in [1, 2, 4] {
                        put(&mut made, 3224, code);
                        compare.read_reel(&made, shape.record_length());
                    }
                }
            }
        }
    }

    compare.stage("a word of code 5 without a value among 32,767");
    let shape = Shape::new(5, 32_767, 2);
    let mut made = reel(random, shape, Words::Random);
    for turn in 0..400 {
        let sample = match turn {
            0..=15 => turn,
            16..=31 => 32_767 - 32 + turn,
            _ => random.below(32_767),
        };
        let place = shape.trace(turn % 2) + 240 + 4 * sample;
        let before = made[place..place + 4].to_vec();
        made[place..place + 4].copy_from_slice(&no_value(random));
        compare.read_reel(&made, shape.record_length());
        made[place..place + 4].copy_from_slice(&before);
    }

    compare.stage("several words of code 5 without a value");
    for _ in 0..10_000 {
        let shape = Shape {
            code: 5,
            traces: 1 + random.below(4),
            ..Shape::any(random, 60)
        };
        let mut made = reel(random, shape, Words::Random);
        for _ in 0..1 + random.below(3) {
            damage(random, 8, shape, &mut made);
        }
        for _ in 0..random.pick(&[0, 0, 1, 2]) {
            let kind = random.pick(&[5, 6, 7, 12]);
            damage(random, kind, shape, &mut made);
        }
        compare.read_reel(&made, random.pick(&[0, shape.record_length()]));
        some_look_ups(compare, random, &made, shape, 2);
    }
}

pub fn look_ups(compare: &mut Comparison) {
    let mut random = Random::seeded(5);
    compare.stage("every byte number");
    for (code, samples, traces) in [
        (1, 2, 0),
        (1, 3, 3),
        (2, 1, 2),
        (3, 3, 2),
        (4, 2, 3),
        (3, 300, 1),
        (5, 2, 3),
        (8, 1, 2),
        (8, 5, 3),
    ] {
        let shape = Shape::new(code, samples, traces);
        let made = reel(&mut random, shape, Words::Random);
        for trace in 0..=traces + 1 {
            for byte in 0..=3300 {
                compare.look_up(&made, trace, byte);
            }
        }
        for trace in [
            0,
            1,
            traces,
            usize::MAX,
            usize::MAX - 1,
            1 << 32,
            (1 << 32) + 1,
            1 << 63,
        ] {
            for byte in [
                115,
                3225,
                3600,
                3601,
                3715,
                65_536 + 1,
                65_536 + 3225,
                1 << 31,
                u32::MAX,
            ] {
                compare.look_up(&made, trace, byte);
            }
        }
    }

    compare.stage("look-ups in damaged reels");
    for _ in 0..20_000 {
        let shape = Shape::any(&mut random, 100);
        let mut made = reel(&mut random, shape, Words::Random);
        let kind = random.below(DAMAGES);
        damage(&mut random, kind, shape, &mut made);
        some_look_ups(compare, &mut random, &made, shape, 6);
    }
}

/// A reel of the most traces, and one more.
pub fn long_reels(compare: &mut Comparison) {
    let mut random = Random::seeded(6);
    compare.stage("reels of 100,000 traces and more");
    let shape = Shape::new(3, 1, 100_000);
    let mut made = reel(&mut random, shape, Words::Random);
    let length = shape.record_length();
    let last = shape.trace(99_999);

    let taken = compare.read_reel(&made, length + 100);
    let record = compare.written(taken).to_vec();
    compare.read_reel(&made, length - 1);
    for code in CODES {
        write_and_read_again(compare, &record, code, 24_500_000);
    }
    for trace in [0, 1, 99_999, 100_000, 100_001] {
        for byte in [1, 69, 117, 3221] {
            compare.look_up(&made, trace, byte);
        }
    }
    put(&mut made, last + 116, 1);
    compare.read_reel(&made, length);
    put(&mut made, last + 116, 0);
    put(&mut made, last + 70, 2);
    compare.read_reel(&made, length);
    compare.look_up(&made, 1, 1);
    put(&mut made, last + 70, 0);
    compare.read_reel(&made[..made.len() - 1], length);

    made.extend_from_within(last..);
    compare.read_reel(&made, length + 192);
    compare.look_up(&made, 1, 1);
    compare.look_up(&made, 100_001, 1);
    put(&mut made, 3600 + 114, 7);
    compare.read_reel(&made, length + 192);
    made.push(0);
    compare.read_reel(&made, length + 192);
    compare.look_up(&made, 100_001, 1);

    let shape = Shape::new(4, 1, 100_001);
    let mut made = reel(&mut random, shape, Words::Random);
    compare.read_reel(&made, length + 192);
    made.truncate(made.len() - shape.trace_length());
    compare.read_reel(&made, length);
    let place = made.len() - 4;
    made[place] = 1;
    compare.read_reel(&made, length);

    let shape = Shape::new(5, 1, 100_000);
    let mut made = reel(&mut random, shape, Words::Structured);
    compare.read_reel(&made, length);
    made[place..].copy_from_slice(&no_value(&mut random));
    compare.read_reel(&made, length);
    compare.look_up(&made, 1, 1);

    let shape = Shape::new(8, 1, 100_000);
    let mut made = reel(&mut random, shape, Words::Random);
    let taken = compare.read_reel(&made, length);
    let record = compare.written(taken).to_vec();
    for code in CODES {
        write_and_read_again(compare, &record, code, 24_500_000);
    }
    compare.look_up(&made, 100_000, 1);
    made.extend_from_within(shape.trace(99_999)..);
    compare.read_reel(&made, length + 192);
}
