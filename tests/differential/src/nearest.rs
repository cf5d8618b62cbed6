//! Nearest writing: samples at the halves and the ends of every code, the count of those that changed,
//! what is read again, and the causes in their order.

use crate::compare::{print_input, Comparison};
use crate::library::ReelAnswer;
use crate::normal::{Which, WHICH};
use crate::random::Random;
use crate::records::{
    damage_in_place, damage_length, fitting_pair, Record, DAMAGES_IN_PLACE, DAMAGES_OF_LENGTH,
};
use crate::reels::Shape;
use crate::samples::{bad_code, canonical_pair, pair, random_word, structured_word, CODES};

/// Exponents and mantissas at the edges, each to be taken of either sign.
const EDGES: [(i16, i32); 128] = [
    // Whole numbers and what lies between them, a half by as little as pairs have beside it.
    (0, 1),
    (-1, 1),
    (-1, 3),
    (-1, 5),
    (-1, 7),
    (-1, 201),
    (-2, 1),
    (-2, 3),
    (-2, 5),
    (-2, 7),
    (-31, (1 << 30) + 1),
    (-31, (1 << 30) - 1),
    (-29, (3 << 28) + 1),
    (-29, (3 << 28) - 1),
    (-31, i32::MAX),
    (-32, i32::MAX),
    // The ends of codes 8, 3 and 2: 126.5, 127, 127.25, 127.5, 127.75, 128, 128.25, 128.5, 129.
    (-1, 253),
    (0, 127),
    (-2, 509),
    (-1, 255),
    (-2, 511),
    (-24, i32::MAX),
    (7, 1),
    (-2, 513),
    (-1, 257),
    (0, 129),
    (-1, 65_533),
    (0, 32_767),
    (-2, 131_069),
    (-1, 65_535),
    (-2, 131_071),
    (15, 1),
    (-2, 131_073),
    (-1, 65_537),
    (0, 32_769),
    (-1, i32::MAX),
    (0, i32::MAX),
    (31, 1),
    (1, (1 << 30) - 1),
    (1, (1 << 30) + 1),
    (32, 1),
    (33, 1),
    (64, 1),
    // Steps of code 1: about 16^-64, then 2^24, 33,554,430, 2^28, 1, and the end.
    (-280, 1),
    (-280, 16_777_215),
    (-280, 16_777_217),
    (-280, 16_777_223),
    (-277, 2_097_153),
    (-280, 16_777_225),
    (-277, 2_097_155),
    (-277, 33_554_431),
    (-278, 67_108_863),
    (-280, 268_435_455),
    (-1, 33_554_429),
    (-2, 67_108_861),
    (-1, 33_554_431),
    (-2, 67_108_863),
    (0, 16_777_215),
    (0, 16_777_217),
    (3, 2_097_153),
    (0, 16_777_225),
    (3, 2_097_155),
    (4, 2_097_151),
    (3, 4_194_303),
    (0, 33_554_425),
    (1, 16_777_215),
    (3, 33_554_431),
    (2, 67_108_863),
    (0, 268_435_455),
    (-25, 33_554_431),
    (-26, 67_108_863),
    (-21, 2_097_153),
    (-22, 4_194_307),
    (-21, 2_097_155),
    (227, 33_554_429),
    (227, 33_554_431),
    (226, 67_108_863),
    (228, 16_777_215),
    (228, 16_777_217),
    (251, 1),
    (251, 3),
    (251, i32::MAX),
    // Steps of code 4: about 16,384, 1 and 2^-255.
    (-1, 32_767),
    (-1, 32_769),
    (-2, 65_535),
    (-3, 131_071),
    (-15, 32_769),
    (-16, 65_539),
    (-15, 32_771),
    (-16, 65_535),
    (-17, 131_071),
    (-255, 1),
    (-256, 1),
    (-257, 3),
    (-256, 3),
    (-256, 5),
    (-256, 7),
    (-280, (1 << 24) - 1),
    (-280, (1 << 24) + 1),
    (-256, 65_535),
    (-257, 131_071),
    // Steps of code 5: about 0, 2^-126, 2^-125, 2^24 and the end.
    (-149, 1),
    (-150, 1),
    (-180, (1 << 30) + 1),
    (-180, (1 << 30) - 1),
    (-151, 3),
    (-150, 3),
    (-150, 5),
    (-150, 7),
    (-150, 16_777_215),
    (-151, 33_554_431),
    (-150, 16_777_217),
    (-151, 33_554_435),
    (-150, 33_554_431),
    (-151, 67_108_863),
    (-149, 16_777_217),
    (-149, 16_777_219),
    (0, 16_777_219),
    (0, 33_554_431),
    (0, 67_108_863),
    (103, 33_554_429),
    (103, 33_554_431),
    (102, 67_108_863),
    (104, 16_777_215),
    (104, 16_777_217),
    (127, 1),
    (128, 1),
    (200, 1),
];

/// The pair of `number` × 2^`power`, if its exponent and its mantissa are within their limits.
fn pair_of(number: i64, power: i32) -> Option<[u8; 6]> {
    if number == 0 {
        return Some(pair(0, 0));
    }
    let twos = number.trailing_zeros();
    let mantissa = i32::try_from(number >> twos).ok()?;
    let exponent = power + twos as i32;
    let inside = (-280..=251).contains(&exponent);
    inside.then(|| pair(exponent as i16, mantissa))
}

/// A word of the code as a whole number and the power of two of its last place.
fn parts(code: u32, word: [u8; 4]) -> (i64, i32) {
    let bits = u32::from_be_bytes(word);
    let signed = |size: u32| match bits >> 31 {
        0 => i64::from(size),
        _ => -i64::from(size),
    };
    match code {
        1 => (
            signed(bits & 0xFF_FFFF),
            4 * (bits >> 24 & 0x7F) as i32 - 280,
        ),
        2 => (i64::from(bits as i32), 0),
        3 => (i64::from((bits >> 16) as i16), 0),
        4 => (i64::from(bits as i16), -((bits >> 16 & 0xFF) as i32)),
        5 => match (bits >> 23 & 0xFF) as i32 {
            0 => (signed(bits & 0x7F_FFFF), -149),
            exponent => (signed(bits & 0x7F_FFFF | 0x80_0000), exponent - 150),
        },
        _ => (i64::from((bits >> 24) as i8), 0),
    }
}

/// A pair beside the value of a word, away from zero by less than the word's last place: by a half, by
/// nearly that, by as little as pairs have, or by any part.
fn beside(random: &mut Random, number: i64, power: i32) -> Option<[u8; 6]> {
    let longest = number.unsigned_abs().leading_zeros().saturating_sub(33);
    if longest == 0 {
        return pair_of(number, power);
    }
    let length = match random.below(3) {
        0 => longest,
        1 => 1,
        _ => 1 + random.below(longest as usize) as u32,
    };
    let half = 1i64 << (length - 1);
    let part = match random.below(6) {
        0 | 1 => half,
        2 => half - 1,
        3 => half + 1,
        4 => random.pick(&[1, 2 * half - 1]),
        _ => random.below(2 * half as usize) as i64,
    };
    let size = (number.abs() << length) + part;
    pair_of(if number < 0 { -size } else { size }, power - length as i32)
}

/// A pair beside the value of some word of the code.
fn beside_a_word(random: &mut Random, code: u32) -> [u8; 6] {
    loop {
        let word = if random.once_in(2) {
            structured_word(random, code)
        } else {
            random_word(random, code)
        };
        let (number, power) = parts(code, word);
        if let Some(pair) = beside(random, number, power) {
            return pair;
        }
    }
}

/// A pair of one of the kinds: any, one that fits, or one beside a word of the code or of any other.
pub fn any_pair(random: &mut Random, code: u32) -> [u8; 6] {
    match random.below(6) {
        0 => canonical_pair(random),
        1 => fitting_pair(random, code),
        2 => {
            let other = random.pick(&CODES);
            beside_a_word(random, other)
        }
        _ => beside_a_word(random, code),
    }
}

/// A canonical pair that doesn't fit the code.
fn misfit(random: &mut Random, code: u32) -> [u8; 6] {
    loop {
        let pair = any_pair(random, code);
        if independent::write_pair(code, pair).is_err() {
            return pair;
        }
    }
}

/// The places of the pairs of a record that was read, in their order: 3 bytes of tag and length stand
/// before each 6,000 of a trace.
fn pair_places(samples: usize, traces: usize) -> Vec<usize> {
    let length = 183 + 3 * samples.div_ceil(6_000) + 6 * samples;
    let of_trace = |trace| {
        let first = 3266 + trace * length + 186;
        (0..samples).map(move |sample| first + 3 * (sample / 6_000) + 6 * sample)
    };
    (0..traces).flat_map(of_trace).collect()
}

/// A valid record with these pairs, as many as the shape has.
fn record_of(random: &mut Random, shape: Shape, pairs: &[[u8; 6]]) -> Vec<u8> {
    let mut record = Record::valid(random, shape, true);
    for (place, pair) in record.pairs.into_iter().zip(pairs) {
        record.bytes[place..place + 6].copy_from_slice(pair);
    }
    record.bytes
}

/// The length of a record's reel under a code.
pub fn reel_length(code: u32, shape: Shape) -> usize {
    Shape { code, ..shape }.trace(shape.traces)
}

/// Ends the run if what must hold doesn't.
fn must(compare: &Comparison, holds: bool, what: &str, record: &[u8], answers: &[ReelAnswer]) {
    if !holds {
        compare.differs(what, || {
            for answer in answers {
                println!("{answer:?}");
            }
            print_input(record, &[]);
        });
    }
}

/// Nearest writing beside exact writing, whose cause it has where that is 11, 12 or 13. If it is taken,
/// exact writing gives the same reel where no sample changed, and else refuses the first that did by
/// 14. Reading gives the record again but for the samples that changed, and so many they are. From that
/// record both give the reel again, and no sample changes.
pub fn there_and_back(
    compare: &mut Comparison,
    record: &[u8],
    code: u32,
    room: usize,
) -> ReelAnswer {
    let nearest = compare.write_nearest(record, code, room);
    let reel = compare.written(nearest).to_vec();
    let exact = compare.write_reel(record, code, room);
    if nearest.number != 0 {
        let same = nearest == exact || (nearest.number, exact.number) == (10, 14);
        must(
            compare,
            same,
            "exact writing has another cause",
            record,
            &[nearest, exact],
        );
        return nearest;
    }
    let one_reel = match exact.number {
        0 => nearest == exact && compare.written(exact) == reel,
        number => number == 14 && nearest.changed > 0,
    };
    must(
        compare,
        one_reel,
        "exact writing doesn't agree with the count",
        record,
        &[nearest, exact],
    );

    let read = compare.read_reel(&reel, record.len());
    let again = compare.written(read).to_vec();
    let mut expected = record.to_vec();
    let mut changed = Vec::new();
    if again.len() == record.len() {
        for place in pair_places(nearest.samples as usize, nearest.traces as usize) {
            let pair = &again[place..place + 6];
            if &expected[place..place + 6] != pair {
                expected[place..place + 6].copy_from_slice(pair);
                changed.push(place as u64);
            }
        }
    }
    let holds = again == expected
        && read.not_normal == 0
        && changed.len() as u64 == nearest.changed
        && (changed.is_empty() || changed[0] == exact.beside);
    must(
        compare,
        holds,
        "what is read again differs in other samples than were counted",
        record,
        &[nearest, exact, read],
    );

    let second = compare.write_nearest(&again, code, reel.len());
    let holds = second.changed == 0 && compare.written(second) == reel;
    must(
        compare,
        holds,
        "a rounded record changes again",
        record,
        &[nearest, second],
    );
    let second = compare.write_reel(&again, code, reel.len());
    let holds = compare.written(second) == reel;
    must(
        compare,
        holds,
        "exact writing doesn't take a rounded record",
        record,
        &[nearest, second],
    );
    nearest
}

/// All but the records of the most traces.
pub fn nearest(compare: &mut Comparison) {
    let mut random = Random::seeded(15);
    edges(compare, &mut random);
    every_step(compare, &mut random);
    every_exponent(compare, &mut random);
    any_records(compare, &mut random);
    counts(compare, &mut random);
    rooms(compare, &mut random);
    refusals(compare, &mut random);
    causes_in_order(compare, &mut random);
    many_samples(compare, &mut random);
}

/// Every edge of either sign under every code, alone and all in one record.
fn edges(compare: &mut Comparison, random: &mut Random) {
    compare.stage("nearest writing at the edges");
    let mut pairs = vec![pair(0, 0)];
    for (exponent, mantissa) in EDGES {
        pairs.push(pair(exponent, mantissa));
        pairs.push(pair(exponent, -mantissa));
    }
    let shape = Shape::new(1, pairs.len(), 1);
    let record = record_of(random, shape, &pairs);
    let single = Shape::new(1, 1, 1);
    let mut alone = Record::valid(random, single, true).bytes;
    let place = pair_places(1, 1)[0];
    for code in CODES {
        let mut changed = 0;
        for pair in &pairs {
            alone[place..place + 6].copy_from_slice(pair);
            changed += there_and_back(compare, &alone, code, 3844).changed;
        }
        let answer = there_and_back(compare, &record, code, reel_length(code, shape));
        must(
            compare,
            changed == answer.changed,
            "the counts of single samples don't add up",
            &record,
            &[answer],
        );
    }
}

/// Numbers of the least and the most size that a code has at each step, and between them; each with
/// its power of two.
fn numbers_at_every_step(random: &mut Random, code: u32) -> Vec<(i64, i32)> {
    let (powers, least, most): (Vec<i32>, i64, i64) = match code {
        1 => {
            let characteristics = 0..128;
            let powers = characteristics.map(|c| 4 * c - 280).collect();
            (powers, 0x10_0000, 0xFF_FFFF)
        }
        2 => (vec![0], 0, i64::from(i32::MAX)),
        3 => (vec![0], 0, 32_767),
        4 => ((-255..=0).collect(), 0x4000, 0x7FFF),
        5 => ((-149..=104).collect(), 0x80_0000, 0xFF_FFFF),
        _ => (vec![0], 0, 127),
    };
    let turns = if powers.len() == 1 { 100 } else { 1 };
    let mut numbers = Vec::new();
    for power in powers {
        for _ in 0..turns {
            let any = least + random.below((most - least + 1) as usize) as i64;
            for size in [least, least + 1, any, most - 1, most] {
                numbers.push((size, power));
                numbers.push((-size, power));
            }
        }
    }
    // Subnormal words, and gain words below the last step.
    if let 4 | 5 = code {
        let (power, most) = if code == 4 {
            (-255, 0x3FFF)
        } else {
            (-149, 0x7F_FFFF)
        };
        for _ in 0..100 {
            let size = random.below(most + 1) as i64 >> random.below(23);
            numbers.push((size, power));
            numbers.push((-size, power));
        }
    }
    numbers
}

/// Samples at every step of each code: at its characteristics, gains and exponents, on the values and
/// between them.
fn every_step(compare: &mut Comparison, random: &mut Random) {
    compare.stage("nearest writing at every step of the code");
    for code in CODES {
        let mut pairs = Vec::new();
        for (number, power) in numbers_at_every_step(random, code) {
            pairs.extend(pair_of(number, power));
            for _ in 0..10 {
                pairs.extend(beside(random, number, power));
            }
        }
        for pairs in pairs.chunks_exact(200) {
            let shape = Shape::new(code, 100, 2);
            let record = record_of(random, shape, pairs);
            there_and_back(compare, &record, code, reel_length(code, shape));
        }
    }
}

/// Pairs of every exponent, with mantissas of every length, under every code.
fn every_exponent(compare: &mut Comparison, random: &mut Random) {
    compare.stage("nearest writing at every exponent");
    for exponent in -280..=251 {
        let mut pairs = Vec::new();
        for length in 1..=31 {
            let most = i32::MAX >> (31 - length);
            let any = random.next() as i32 & most | 1;
            let mantissa = random.pick(&[any, any, most, (most / 2 + 1) | 1]);
            pairs.push(pair(exponent, mantissa));
            pairs.push(pair(exponent, -mantissa));
        }
        let shape = Shape::new(1, 31, 2);
        let record = record_of(random, shape, &pairs);
        for code in CODES {
            there_and_back(compare, &record, code, reel_length(code, shape));
        }
    }
}

/// Records of any shape under every code, into outputs of several lengths.
fn any_records(compare: &mut Comparison, random: &mut Random) {
    compare.stage("nearest writing of any records");
    for _ in 0..2_500 {
        let shape = Shape::any(random, 80);
        let pairs: Vec<[u8; 6]> = (0..shape.samples * shape.traces)
            .map(|_| any_pair(random, shape.code))
            .collect();
        let record = record_of(random, shape, &pairs);
        for code in CODES {
            let length = reel_length(code, shape);
            there_and_back(compare, &record, code, length + random.below(300));
            for room in [0, random.below(length), length - 1] {
                compare.write_nearest(&record, code, room);
            }
        }
    }
}

/// Records of which it is known which samples don't fit: so many are counted.
fn counts(compare: &mut Comparison, random: &mut Random) {
    compare.stage("counts of changed samples");
    for code in CODES {
        for which in [Which::None].into_iter().chain(WHICH) {
            for _ in 0..30 {
                let shape = Shape {
                    code,
                    traces: 1 + random.below(4),
                    ..Shape::any(random, 40)
                };
                let chosen = which.of(random, shape.samples * shape.traces);
                let changed = chosen.iter().filter(|&&change| change).count();
                let pairs: Vec<[u8; 6]> = chosen
                    .into_iter()
                    .map(|change| {
                        if change {
                            misfit(random, code)
                        } else {
                            fitting_pair(random, code)
                        }
                    })
                    .collect();
                let record = record_of(random, shape, &pairs);
                let answer = there_and_back(compare, &record, code, reel_length(code, shape));
                must(
                    compare,
                    (answer.number, answer.changed) == (0, changed as u64),
                    "changed samples are counted otherwise",
                    &record,
                    &[answer],
                );
            }
        }
    }
}

/// Outputs of every length, too short and longer.
fn rooms(compare: &mut Comparison, random: &mut Random) {
    compare.stage("nearest writing into every length of the output");
    for code in CODES {
        let shape = Shape::new(code, 2, 1);
        let pairs = [misfit(random, code), fitting_pair(random, code)];
        let record = record_of(random, shape, &pairs);
        for room in 0..=3860 {
            compare.write_nearest(&record, code, room);
        }
    }
}

/// Records cut, damaged, or with any byte changed, under codes and under numbers of none. Most have
/// samples that don't fit.
fn refusals(compare: &mut Comparison, random: &mut Random) {
    compare.stage("nearest writing of a small record cut at every place");
    for code in CODES {
        let shape = Shape::new(code, 2, 2);
        let pairs: Vec<[u8; 6]> = (0..4).map(|_| misfit(random, code)).collect();
        let record = record_of(random, shape, &pairs);
        for length in 0..=record.len() {
            compare.write_nearest(&record[..length], code, 4200);
        }
        compare.write_nearest(&record, bad_code(random), 4200);
    }

    compare.stage("nearest writing of a small record with every byte changed");
    for code in CODES {
        let shape = Shape::new(code, 2, 2);
        let pairs: Vec<[u8; 6]> = (0..4).map(|_| any_pair(random, code)).collect();
        let record = record_of(random, shape, &pairs);
        let mut changed = record.clone();
        for place in 0..record.len() {
            for byte in [0, 1, record[place] ^ 0x80, random.next() as u8] {
                if (3..3203).contains(&place) && byte > 1 {
                    continue;
                }
                changed[place] = byte;
                compare.write_nearest(&changed, code, 4200);
            }
            changed[place] = record[place];
        }
    }

    compare.stage("nearest writing of damaged records");
    for _ in 0..20_000 {
        let shape = Shape::any(random, 20);
        let fitting = random.once_in(4);
        let mut record = Record::valid(random, shape, fitting);
        for _ in 0..random.pick(&[0, 1, 1, 1, 2, 3]) {
            let kind = random.below(DAMAGES_IN_PLACE);
            damage_in_place(random, kind, shape, &mut record);
        }
        if random.once_in(4) {
            let kind = random.below(DAMAGES_OF_LENGTH);
            damage_length(random, kind, &mut record);
        }
        let code = if random.once_in(8) {
            bad_code(random)
        } else {
            shape.code
        };
        let room = random.pick(&[0, 3600, 8000]);
        there_and_back(compare, &record.bytes, code, room);
    }
}

/// A record with every cause at once, under a number of no code and into an output that is too short.
/// Each cause is mended in turn, and the next one is told: 11, 12 and 13 front to back, then 10.
fn causes_in_order(compare: &mut Comparison, random: &mut Random) {
    compare.stage("causes of nearest writing in order");
    for code in CODES {
        let shape = Shape::new(code, 2, 2);
        let pairs: Vec<[u8; 6]> = (0..4).map(|_| misfit(random, code)).collect();
        let right = record_of(random, shape, &pairs);
        let end = right.len() - 7;
        let mut record = right.clone();
        // Tags and numbers of the cards, the binary header, trace 1 and its samples, the last pair of
        // trace 2, and the count.
        let faults: [(u64, usize, &[u8]); 12] = [
            (12, 0, &[9]),
            (13, 3 + 79, &[0]),
            (12, 3203, &[9]),
            (13, 3222, &[0, 0]),
            (13, 3226, &[0, 0]),
            (13, 3230, &[0, 5]),
            (13, 3269 + 68, &[0, 0]),
            (13, 3269 + 114, &[0, 0]),
            (12, 3449, &[9]),
            (13, 3449 + 3, &[0, 0, 0, 0, 0, 2]),
            (13, end - 6, &[0x7F, 0xFF, 0, 0, 0, 1]),
            (12, end, &[9]),
        ];
        for (_, place, bytes) in faults {
            record[place..place + bytes.len()].copy_from_slice(bytes);
        }
        record.push(0);
        let length = reel_length(code, shape);
        let mut told = |record: &[u8], code, room, number, beside: usize| {
            let answer = compare.write_nearest(record, code, room);
            must(
                compare,
                (answer.number, answer.beside) == (number, beside as u64),
                "a cause is told out of its order",
                record,
                &[answer],
            );
        };
        told(&record, bad_code(random), length - 1, 11, 0);
        told(&right, bad_code(random), length, 11, 0);
        for (number, place, bytes) in faults {
            for room in [0, length - 1, length] {
                told(&record, code, room, number, place);
            }
            let mended = place..place + bytes.len();
            record[mended.clone()].copy_from_slice(&right[mended]);
        }
        told(&record, code, 0, 12, right.len());
        told(&right, code, length - 1, 10, length);
        told(&right, code, 0, 10, length);
        told(&right, code, length, 0, 0);
    }
}

/// The most samples of a trace, but fewer under the codes of which every step is tried.
fn many_samples(compare: &mut Comparison, random: &mut Random) {
    compare.stage("nearest writing of 8,000 and of 32,767 samples");
    for code in CODES {
        let most = match code {
            1 | 4 | 5 => 8_000,
            _ => 32_767,
        };
        let shape = Shape::new(code, most - random.below(2), 1 + random.below(2));
        let pairs: Vec<[u8; 6]> = (0..shape.samples * shape.traces)
            .map(|_| any_pair(random, code))
            .collect();
        let record = record_of(random, shape, &pairs);
        let length = reel_length(code, shape);
        there_and_back(compare, &record, code, length);
        compare.write_nearest(&record, code, length - 1);
    }
}

/// Records of the most traces, and one more. All samples change, then the last alone.
pub fn long_records(compare: &mut Comparison) {
    let mut random = Random::seeded(16);
    compare.stage("nearest writing of 100,000 traces and more");
    let shape = Shape::new(8, 1, 100_000);
    let length = reel_length(8, shape);
    let pairs: Vec<[u8; 6]> = (0..100_000).map(|_| misfit(&mut random, 8)).collect();
    let mut record = record_of(&mut random, shape, &pairs);
    let answer = there_and_back(compare, &record, 8, length + 7);
    must(
        compare,
        answer.changed == 100_000,
        "changed samples of a long record are counted otherwise",
        &record,
        &[answer],
    );
    compare.write_nearest(&record, 8, length - 1);
    compare.write_nearest(&record, 3, length);

    let places = pair_places(1, 100_000);
    for &place in &places[..99_999] {
        record[place..place + 6].copy_from_slice(&fitting_pair(&mut random, 8));
    }
    let answer = there_and_back(compare, &record, 8, length);
    must(
        compare,
        answer.changed == 1,
        "the last sample of a long record isn't counted alone",
        &record,
        &[answer],
    );

    let end = record.len() - 7;
    let trace = record[end - 192..end].to_vec();
    record.splice(end..end, trace);
    compare.write_nearest(&record, 8, length + 241);
    let last = record.len() - 1;
    record[last] += 1;
    compare.write_nearest(&record, 8, length + 241);
}
