//! Elevations and coordinates with their scalars: what made reels and records have in them, and the
//! comparisons that are about them.

use crate::compare::{print_input, Comparison};
use crate::random::Random;
use crate::records::Record;
use crate::reels::{put, reel, write_and_read_again, Shape, Words};

/// The numbers that one scalar acts on in each trace, by their offsets in the trace header.
#[derive(Clone, Copy)]
pub struct Group {
    pub scalar: usize,
    numbers: &'static [usize],
}

pub const GROUPS: [Group; 2] = [
    Group {
        scalar: 68,
        numbers: &[40, 44, 48, 52, 56, 60, 64],
    },
    Group {
        scalar: 70,
        numbers: &[72, 76, 80, 84],
    },
];

/// The scalars that a reel may have.
const ON_REELS: [i16; 11] = [0, 1, -1, 10, -10, 100, -100, 1000, -1000, 10_000, -10_000];

/// The scalars that a record may have, those of the powers -4 to 4.
const IN_RECORDS: [i16; 9] = [-10_000, -1000, -100, -10, 1, 10, 100, 1000, 10_000];

/// Scalars that neither may have. Some are one that may be in another order of bytes, without a sign
/// or out by one.
const NOWHERE: [i16; 20] = [
    2,
    3,
    4,
    -2,
    -4,
    5,
    7,
    9,
    11,
    99,
    101,
    999,
    1001,
    9999,
    10_001,
    -9999,
    -10_001,
    0x1027,
    0x0A00,
    i16::MIN,
];

/// The least numbers, above and below zero, that can't take a zero and still fit 32 bits.
const LONG: i32 = 214_748_365;

fn number_at(header: &[u8], offset: usize) -> i32 {
    let bytes = &header[offset..offset + 4];
    i32::from_be_bytes(bytes.try_into().expect("four bytes"))
}

fn put_number(header: &mut [u8], offset: usize, number: i32) {
    header[offset..offset + 4].copy_from_slice(&number.to_be_bytes());
}

fn is_long(number: i32) -> bool {
    number >= LONG || number <= -LONG
}

/// A number of any size: of any count of bits, at the edge of what takes some zeros, or with some
/// zeros at its end.
fn number(random: &mut Random) -> i32 {
    let ten = |power| 10i32.pow(power as u32);
    let number = match random.below(8) {
        0 => random.pick(&[0, 1, i32::MAX, i32::MIN]),
        1 => (i32::MAX / ten(random.below(10))).wrapping_add(random.between(0, 1)),
        2 | 3 => {
            let zeros = random.below(10);
            random.between(0, i32::MAX / ten(zeros) - 1) / ten(random.below(10 - zeros))
                * ten(zeros)
        }
        _ => random.next() as i32 >> random.below(32),
    };
    if random.once_in(2) {
        number.wrapping_neg()
    } else {
        number
    }
}

impl Group {
    fn scalar_in(&self, header: &[u8]) -> i16 {
        i16::from_be_bytes([header[self.scalar], header[self.scalar + 1]])
    }

    fn put_scalar(&self, header: &mut [u8], scalar: i16) {
        put(header, self.scalar, scalar as u16);
    }

    /// Puts numbers of any sizes: all of one size, each of its own, or one among zeros.
    fn put_numbers(&self, random: &mut Random, header: &mut [u8]) {
        let kind = random.below(4);
        let shift = random.below(32);
        let one = random.pick(self.numbers);
        for &offset in self.numbers {
            let number = match kind {
                0 => number(random),
                1 if offset == one => number(random),
                1 => 0,
                _ => random.next() as i32 >> shift,
            };
            put_number(header, offset, number);
        }
    }

    /// The power that a scalar stands for.
    fn power_in(&self, header: &[u8]) -> i32 {
        match self.scalar_in(header) {
            0 | -1 => 0,
            scalar => {
                let index = IN_RECORDS.iter().position(|&other| other == scalar);
                index.expect("an allowed scalar") as i32 - 4
            }
        }
    }

    /// Spells the group at another power, where all its numbers are whole and fit.
    fn respell(&self, header: &mut [u8], power: i32) -> bool {
        let more = self.power_in(header) - power;
        let ten = 10i64.pow(more.unsigned_abs());
        let spelled = |offset: &usize| {
            let number = i64::from(number_at(header, *offset));
            match more {
                0.. => i32::try_from(number * ten).ok(),
                _ => (number % ten == 0).then_some((number / ten) as i32),
            }
        };
        let Some(numbers) = self.numbers.iter().map(spelled).collect::<Option<Vec<_>>>() else {
            return false;
        };
        for (&offset, number) in self.numbers.iter().zip(numbers) {
            put_number(header, offset, number);
        }
        self.put_scalar(header, IN_RECORDS[(power + 4) as usize]);
        true
    }
}

/// Puts elevations and coordinates with allowed scalars into a trace header of a reel.
pub fn put_on_reel(random: &mut Random, header: &mut [u8]) {
    for group in GROUPS {
        group.put_numbers(random, header);
        group.put_scalar(header, random.pick(&ON_REELS));
    }
}

/// Puts elevations and coordinates, each at its smallest power, into a trace header of a record. That
/// is power -4, or any at which a number is so long that it takes no further zero.
pub fn put_in_record(random: &mut Random, header: &mut [u8]) {
    for group in GROUPS {
        group.put_numbers(random, header);
        let long = |&offset: &usize| is_long(number_at(header, offset));
        let scalar = if group.numbers.iter().any(long) || random.once_in(2) {
            random.pick(&IN_RECORDS)
        } else {
            -10_000
        };
        if scalar != -10_000 && !group.numbers.iter().any(long) {
            let other = random.between(LONG, i32::MAX);
            let number = random.pick(&[LONG, -LONG, i32::MAX, i32::MIN, other, -other]);
            put_number(header, random.pick(group.numbers), number);
        }
        group.put_scalar(header, scalar);
    }
}

/// Another scalar in a trace header, of a reel or of a record. It may happen to be right.
pub fn damage_scalar(random: &mut Random, header: &mut [u8]) {
    let any = random.next() as i16;
    let scalar = match random.below(4) {
        0 => random.pick(&ON_REELS),
        1 => random.pick(&NOWHERE),
        2 => random.pick(&ON_REELS) ^ 1 << random.below(16),
        _ => any,
    };
    random.pick(&GROUPS).put_scalar(header, scalar);
}

/// Damages elevations or coordinates in a trace header of a record: another scalar, other numbers
/// under it, or the same values at another power.
pub fn damage_group(random: &mut Random, header: &mut [u8]) {
    let group = random.pick(&GROUPS);
    match random.below(4) {
        0 => damage_scalar(random, header),
        1 => group.put_numbers(random, header),
        2 => {
            let shift = random.below(12);
            for &offset in group.numbers {
                let number = number_at(header, offset);
                put_number(header, offset, number >> shift);
            }
        }
        _ => {
            if IN_RECORDS.contains(&group.scalar_in(header)) {
                let power = random.between(-4, 4);
                let _ = group.respell(header, power);
            }
        }
    }
}

/// The place of the only trace's header, on a reel and in a record.
const ON_REEL: usize = 3600;
const IN_RECORD: usize = 3269;

/// Reels and records of one trace and one sample, for the stages in which a scalar is all that counts.
const SMALL: Shape = Shape {
    code: 3,
    samples: 1,
    traces: 1,
    interval: 2000,
};

pub fn scalars(compare: &mut Comparison) {
    let mut random = Random::seeded(12);
    edges(compare, &mut random);
    every_scalar(compare, &mut random);
    same_values(compare, &mut random);
    several_causes(compare, &mut random);
}

/// Every allowed scalar, with a number at every edge, in every field of either group.
fn edges(compare: &mut Comparison, random: &mut Random) {
    compare.stage("numbers at the edges under every allowed scalar");
    let mut numbers = vec![0, i32::MIN];
    for power in 0..=9 {
        let edge = i32::MAX / 10i32.pow(power);
        for number in [edge, edge.wrapping_add(1), 10i32.pow(power)] {
            numbers.extend([number, number.wrapping_neg()]);
        }
    }
    let mut made = reel(random, SMALL, Words::Whole);
    for group in GROUPS {
        for scalar in ON_REELS {
            for &offset in group.numbers {
                for &number in &numbers {
                    let header = &mut made[ON_REEL..];
                    put_on_reel(random, header);
                    for &other in group.numbers {
                        put_number(header, other, random.between(-21, 21));
                    }
                    put_number(header, offset, number);
                    group.put_scalar(header, scalar);
                    taken(compare, &made, SMALL);
                    compare.look_up(&made, 1, offset as u32 + 1);
                }
            }
            compare.look_up(&made, 1, group.scalar as u32 + 1);
        }
    }

    compare.stage("every two allowed scalars");
    for first in ON_REELS {
        for second in ON_REELS {
            for _ in 0..20 {
                let header = &mut made[ON_REEL..];
                put_on_reel(random, header);
                GROUPS[0].put_scalar(header, first);
                GROUPS[1].put_scalar(header, second);
                let record = taken(compare, &made, SMALL);
                write_and_read_again(compare, &record, SMALL.code, made.len());
            }
        }
    }
}

/// Reads a reel that has no cause, and gives its record.
fn taken(compare: &mut Comparison, reel: &[u8], shape: Shape) -> Vec<u8> {
    let answer = compare.read_reel(reel, shape.record_length());
    if answer.number != 0 {
        compare.differs("a reel without a cause is refused", || {
            println!("{answer:?}");
            print_input(reel, &[answer.beside]);
        });
    }
    compare.written(answer).to_vec()
}

/// Each of the 65,536 scalars in either field of a reel, and of a record whose numbers take no further
/// zero. Where they take some, the scalars that a reel may have are tried, and some that it mayn't.
fn every_scalar(compare: &mut Comparison, random: &mut Random) {
    compare.stage("every scalar on a reel");
    let mut made = reel(random, SMALL, Words::Whole);
    for group in GROUPS {
        put_on_reel(random, &mut made[ON_REEL..]);
        for scalar in i16::MIN..=i16::MAX {
            group.put_scalar(&mut made[ON_REEL..], scalar);
            compare.read_reel(&made, SMALL.record_length());
            compare.look_up(&made, 1, group.scalar as u32 + 1);
        }
    }

    compare.stage("every scalar in a record");
    let valid = Record::valid(random, SMALL, true).bytes;
    for group in GROUPS {
        let mut record = valid.clone();
        for &offset in group.numbers {
            put_number(&mut record[IN_RECORD..], offset, LONG);
        }
        for scalar in i16::MIN..=i16::MAX {
            group.put_scalar(&mut record[IN_RECORD..], scalar);
            compare.write_reel(&record, SMALL.code, 0);
        }
        for number in [0, 1, LONG - 1, 1 - LONG] {
            for &offset in group.numbers {
                put_number(&mut record[IN_RECORD..], offset, number);
            }
            for scalar in ON_REELS.into_iter().chain(NOWHERE) {
                group.put_scalar(&mut record[IN_RECORD..], scalar);
                compare.write_reel(&record, SMALL.code, 3842);
            }
        }
    }
}

/// Reels that differ in how their groups are spelled have one record. Records that do are refused,
/// but for one.
fn same_values(compare: &mut Comparison, random: &mut Random) {
    compare.stage("reels that differ in their scalars alone");
    let mut others = 0;
    for _ in 0..5000 {
        let shape = Shape::any(random, 3);
        let first = reel(random, shape, Words::Whole);
        let mut second = first.clone();
        for trace in second[ON_REEL..].chunks_mut(shape.trace_length()) {
            for group in GROUPS {
                let power = random.between(-4, 4);
                group.respell(trace, power);
                if group.power_in(trace) == 0 {
                    group.put_scalar(trace, random.pick(&[0, 1, -1]));
                }
            }
        }
        others += u64::from(first != second);
        let record = taken(compare, &first, shape);
        if taken(compare, &second, shape) != record {
            compare.differs("reels of the same values have two records", || {
                print_input(&first, &[]);
                print_input(&second, &[]);
            });
        }
    }
    if others < 1000 {
        compare.differs("the two reels are nearly always one", || {});
    }

    compare.stage("reels that differ in one scaled value");
    let mut made = reel(random, SMALL, Words::Whole);
    for _ in 0..2000 {
        put_on_reel(random, &mut made[ON_REEL..]);
        let record = taken(compare, &made, SMALL);
        let group = random.pick(&GROUPS);
        let offset = ON_REEL + random.pick(group.numbers);
        let number = number_at(&made, offset);
        put_number(&mut made, offset, number ^ 1 << random.below(32));
        if taken(compare, &made, SMALL) == record {
            compare.differs("reels of two values have one record", || {
                print_input(&made, &[]);
            });
        }
    }

    compare.stage("records that differ in their scalars alone");
    for _ in 0..2000 {
        let valid = Record::valid(random, SMALL, true).bytes;
        compare.write_reel(&valid, SMALL.code, 3842);
        for group in GROUPS {
            let own = group.power_in(&valid[IN_RECORD..]);
            for power in -4..=4 {
                let mut record = valid.clone();
                if !group.respell(&mut record[IN_RECORD..], power) {
                    continue;
                }
                let answer = compare.write_reel(&record, SMALL.code, 3842);
                if (answer.number == 0) != (power == own) {
                    compare.differs("a group stands at two powers, or at none", || {
                        println!("{answer:?}");
                        print_input(&record, &[]);
                    });
                }
            }
        }
    }
}

/// Every set of the causes of a trace, on a reel and in a record, with or without room. The last is 9
/// under code 4, 19 under code 5.
fn several_causes(compare: &mut Comparison, random: &mut Random) {
    compare.stage("several causes in one trace");
    causes_of_a_trace(compare, random, 4, [0x01, 0, 0, 0]);
    causes_of_a_trace(compare, random, 5, [0xFF, 0x80, 0, 0]);
}

fn causes_of_a_trace(compare: &mut Comparison, random: &mut Random, code: u32, wrong: [u8; 4]) {
    let shape = Shape::new(code, 2, 2);
    let (second, second_held) = (shape.trace_length(), 198);
    for causes in 0..1 << 5 {
        for trace in 0..2 {
            let mut made = reel(random, shape, Words::Random);
            let start = ON_REEL + trace * second;
            let record = Record::valid(random, shape, true);
            let mut record = record.bytes;
            let held = IN_RECORD + trace * second_held;
            let has = |cause: usize| causes >> cause & 1 == 1;
            for (cause, offset) in [(0, 114), (1, 116), (2, 68), (3, 70)] {
                if has(cause) {
                    put(&mut made, start + offset, 7);
                    put(&mut record, held + offset, 7);
                }
            }
            if has(4) {
                made[start + 240..start + 244].copy_from_slice(&wrong);
                record[held + 180] = 5;
            }
            for room in [0, 5000] {
                compare.read_reel(&made, room);
                compare.write_reel(&record, shape.code, room);
                compare.list_cards(&record, room);
            }
            for trace in 0..=3 {
                for byte in [41, 69, 71, 73, 115, 3217] {
                    compare.look_up(&made, trace, byte);
                }
            }
        }
    }
}
