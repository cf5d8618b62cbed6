//! Records, written as reels, valid and damaged.

use crate::compare::Comparison;
use crate::random::Random;
use crate::reels::{other_number, put, write_and_read_again, Shape};
use crate::samples::{
    bad_code, canonical_pair, pair, random_word, structured_word, uncanonical_pair, CODES,
};
use crate::scalars::{damage_group, put_in_record};

/// The samples in each sample field of a trace: 6,000, and the remaining 1 to 6,000 in the last.
pub fn new_form(samples: usize) -> Vec<usize> {
    let mut fields = vec![6_000; (samples - 1) / 6_000];
    fields.push(samples - 6_000 * fields.len());
    fields
}

/// A record made field by field. The places of its tags are kept, for damage; beside them those of the
/// traces' headers and, trace by trace, of their sample fields, and the places of all pairs.
#[derive(Clone)]
pub struct Record {
    pub bytes: Vec<u8>,
    pub tags: Vec<usize>,
    pub headers: Vec<usize>,
    pub fields: Vec<Vec<usize>>,
    pub pairs: Vec<usize>,
}

impl Record {
    fn field(&mut self, tag: u8, content: &[u8]) {
        self.tags.push(self.bytes.len());
        self.bytes.push(tag);
        self.bytes.extend((content.len() as u16).to_be_bytes());
        self.bytes.extend(content);
    }

    /// A valid record as reading gives it. Its pairs fit the shape's code, or are any canonical ones.
    pub fn valid(random: &mut Random, shape: Shape, fitting: bool) -> Record {
        let forms = vec![new_form(shape.samples); shape.traces];
        Record::in_forms(random, shape, fitting, &forms)
    }

    /// The same, but each trace has sample fields of so many pairs: its own, in their order, and from the
    /// first again where they are more. What the fields hold doesn't depend on their lengths.
    pub fn in_forms(
        random: &mut Random,
        shape: Shape,
        fitting: bool,
        forms: &[Vec<usize>],
    ) -> Record {
        let mut record = Record {
            bytes: Vec::new(),
            tags: Vec::new(),
            headers: Vec::new(),
            fields: Vec::new(),
            pairs: Vec::new(),
        };
        let mut cards = [0x40; 3200];
        if random.once_in(2) {
            random.fill(&mut cards);
            for card in &mut cards {
                *card |= u8::from(*card == 0);
            }
        }
        record.field(1, &cards);

        let mut binary = [0; 60];
        random.fill(&mut binary);
        put(&mut binary, 16, shape.interval);
        put(&mut binary, 20, shape.samples as u16);
        put(&mut binary, 24, 0);
        record.field(2, &binary);

        let mut pairs = Vec::new();
        for form in forms {
            let mut header = [0; 180];
            random.fill(&mut header);
            put_in_record(random, &mut header);
            put(&mut header, 114, shape.samples as u16);
            put(&mut header, 116, shape.interval);
            record.headers.push(record.bytes.len());
            record.field(3, &header);

            pairs.clear();
            for _ in 0..shape.samples {
                pairs.push(if fitting {
                    fitting_pair(random, shape.code)
                } else {
                    canonical_pair(random)
                });
            }
            let mut all = pairs.iter().copied().cycle();
            let mut fields = Vec::new();
            for &share in form {
                let place = record.bytes.len();
                fields.push(place);
                record
                    .pairs
                    .extend((0..share).map(|pair| place + 3 + 6 * pair));
                let content: Vec<[u8; 6]> = all.by_ref().take(share).collect();
                record.field(4, content.as_flattened());
            }
            record.fields.push(fields);
        }
        record.field(5, &(forms.len() as u32).to_be_bytes());
        record
    }

    /// The place after a field.
    fn end(&self, index: usize) -> usize {
        self.tags
            .get(index + 1)
            .copied()
            .unwrap_or(self.bytes.len())
    }
}

/// Any of these places, if there is one.
fn any_place(random: &mut Random, places: &[usize]) -> Option<usize> {
    (!places.is_empty()).then(|| random.pick(places))
}

/// The pair of some word of the code.
pub fn fitting_pair(random: &mut Random, code: u32) -> [u8; 6] {
    let word = if random.once_in(2) {
        random_word(random, code)
    } else {
        structured_word(random, code)
    };
    independent::read_word(code, word)
        .expect("a valid word")
        .pair
}

/// Damages that change bytes where they stand: numbers that no record has, and fields of a wrong
/// form.
pub const DAMAGES_IN_PLACE: usize = 14;

pub fn damage_in_place(random: &mut Random, kind: usize, shape: Shape, record: &mut Record) {
    let tag = record.tags[random.below(record.tags.len())];
    let header = any_place(random, &record.headers);
    let pair_place = any_place(random, &record.pairs);
    let bytes = &mut record.bytes;
    match kind {
        0 => {
            let any = random.next() as u8;
            bytes[tag] = random.pick(&[0, 1, 2, 3, 4, 5, 6, 0x83, any]);
        }
        1 => {
            let length = u16::from_be_bytes([bytes[tag + 1], bytes[tag + 2]]);
            let other = match random.below(4) {
                0 => length.wrapping_add(6),
                1 => length.wrapping_sub(6),
                _ => other_number(random, length),
            };
            put(bytes, tag + 1, other);
        }
        2 => {
            let card = match random.below(3) {
                0 => random.pick(&[0, 1, 3199]),
                _ => random.below(3200),
            };
            bytes[3 + card] = 0;
        }
        3 => put(
            bytes,
            3206 + 16,
            random.pick(&[0, 32_768, 65_535, shape.interval | 0x8000]),
        ),
        4 => put(bytes, 3206 + 20, random.pick(&[0, 32_768, 32_769, 65_535])),
        5 => {
            let most = random.pick(&[20, 8_000, 32_767]);
            put(bytes, 3206 + 20, 1 + random.below(most) as u16);
        }
        6 => put(
            bytes,
            3206 + 24,
            random.pick(&[1, 2, 3, 4, 5, 8, 256, 0x8000, 65_535]),
        ),
        7 => {
            if let Some(header) = header {
                let number = if random.once_in(3) {
                    0
                } else {
                    other_number(random, shape.samples as u16)
                };
                put(bytes, header + 3 + 114, number);
            }
        }
        8 => {
            if let Some(header) = header {
                let number = if random.once_in(3) {
                    0
                } else {
                    other_number(random, shape.interval)
                };
                put(bytes, header + 3 + 116, number);
            }
        }
        9 => {
            if let Some(place) = pair_place {
                bytes[place..place + 6].copy_from_slice(&uncanonical_pair(random));
            }
        }
        10 => {
            if let Some(place) = pair_place {
                let misfit = if random.once_in(2) {
                    pair(251, 3)
                } else {
                    canonical_pair(random)
                };
                bytes[place..place + 6].copy_from_slice(&misfit);
            }
        }
        11 => {
            let traces = shape.traces as u32;
            let count = match random.below(5) {
                0 => traces + 1,
                1 => traces.wrapping_sub(1),
                2 => traces | 1 << random.between(8, 31),
                3 => random.next() as u32,
                _ => 0,
            };
            let place = bytes.len() - 4;
            bytes[place..].copy_from_slice(&count.to_be_bytes());
        }
        _ => {
            if let Some(header) = header {
                damage_group(random, &mut bytes[header + 3..]);
            }
        }
    }
}

/// Damages that change the record's length.
pub const DAMAGES_OF_LENGTH: usize = 6;

pub fn damage_length(random: &mut Random, kind: usize, record: &mut Record) {
    let index = random.below(record.tags.len());
    let (start, end) = (record.tags[index], record.end(index));
    let bytes = &mut record.bytes;
    match kind {
        0 => bytes.truncate(random.below(bytes.len())),
        1 => bytes.truncate(start + random.below(6).min(end - start)),
        2 => drop(bytes.drain(start..end)),
        3 => {
            let field = bytes[start..end].to_vec();
            bytes.splice(start..start, field);
        }
        4 => {
            for _ in 0..1 + random.below(10) {
                bytes.push(random.next() as u8);
            }
        }
        _ => {
            let count = bytes[bytes.len() - 7..].to_vec();
            bytes.extend(count);
        }
    }
}

/// Writes a record into outputs of several lengths.
fn write_into_rooms(
    compare: &mut Comparison,
    random: &mut Random,
    record: &[u8],
    code: u32,
    most: usize,
) {
    match write_and_read_again(compare, record, code, most) {
        Some(reel) => {
            let length = reel.len();
            compare.write_reel(record, code, 0);
            compare.write_reel(record, code, random.below(length));
            compare.write_reel(record, code, length - 1);
            compare.write_reel(record, code, length);
            compare.write_reel(record, code, length + 1 + random.below(300));
        }
        None => {
            compare.write_reel(record, code, random.below(80));
        }
    }
}

pub fn records(compare: &mut Comparison) {
    let mut random = Random::seeded(7);

    compare.stage("small records cut at every place");
    for (samples, traces) in [(1, 0), (2, 1), (2, 2)] {
        let record = Record::valid(&mut random, Shape::new(3, samples, traces), true).bytes;
        for length in 0..=record.len() {
            for code in CODES {
                compare.write_reel(&record[..length], code, 4200);
            }
            compare.write_reel(&record[..length], bad_code(&mut random), 4200);
        }
    }

    compare.stage("a small record with every byte changed");
    for code in CODES {
        let record = Record::valid(&mut random, Shape::new(code, 2, 2), true).bytes;
        let mut changed = record.clone();
        for place in 0..record.len() {
            for byte in [
                0,
                1,
                3,
                5,
                0xFF,
                record[place] ^ 0x80,
                record[place] ^ 0x01,
                random.next() as u8,
            ] {
                if (3..3203).contains(&place) && byte > 1 {
                    continue;
                }
                changed[place] = byte;
                compare.write_reel(&changed, code, 4200);
            }
            changed[place] = record[place];
        }
    }

    compare.stage("a small record with every length of the output");
    for code in CODES {
        let record = Record::valid(&mut random, Shape::new(code, 2, 1), true).bytes;
        for room in 0..=3860 {
            compare.write_reel(&record, code, room);
        }
    }

    compare.stage("records of one sample");
    for count in 0..60_000 {
        let code = CODES[count % CODES.len()];
        let shape = Shape::new(code, 1, 1);
        let mut record = Record::valid(&mut random, shape, true).bytes;
        let any = match random.below(4) {
            0 => uncanonical_pair(&mut random),
            1 => fitting_pair(&mut random, code),
            _ => canonical_pair(&mut random),
        };
        record[3452..3458].copy_from_slice(&any);
        write_and_read_again(compare, &record, code, 3850);
    }

    compare.stage("records, valid and damaged");
    for _ in 0..110_000 {
        let shape = Shape::any(&mut random, 300);
        let fitting = !random.once_in(4);
        let mut record = Record::valid(&mut random, shape, fitting);
        for _ in 0..random.pick(&[0, 0, 1, 1, 1, 2, 3, 5]) {
            let kind = random.below(DAMAGES_IN_PLACE);
            damage_in_place(&mut random, kind, shape, &mut record);
        }
        if random.once_in(4) {
            let kind = random.below(DAMAGES_OF_LENGTH);
            damage_length(&mut random, kind, &mut record);
        }
        let room = 3600 + shape.traces * (240 + 4 * shape.samples) + random.below(500);
        write_into_rooms(compare, &mut random, &record.bytes, shape.code, room);
        let other = if random.once_in(4) {
            bad_code(&mut random)
        } else {
            random.pick(&CODES)
        };
        write_and_read_again(compare, &record.bytes, other, room);
    }

    compare.stage("records with samples that don't fit");
    for _ in 0..30_000 {
        let shape = Shape::any(&mut random, 60);
        let mut record = Record::valid(&mut random, shape, true);
        for _ in 0..1 + random.below(4) {
            damage_in_place(&mut random, 10, shape, &mut record);
        }
        if random.once_in(4) {
            let kind = random.pick(&[0, 1, 7, 8, 9, 11, 12]);
            damage_in_place(&mut random, kind, shape, &mut record);
        }
        let room = random.pick(&[0, 3600, 20_000]);
        compare.write_reel(&record.bytes, shape.code, room);
    }

    compare.stage("records of 32,767 samples");
    for code in CODES {
        let shape = Shape::new(code, 32_767, 2);
        let room = shape.trace(2) + 100;
        let record = Record::valid(&mut random, shape, true);
        write_into_rooms(compare, &mut random, &record.bytes, code, room);
        for kind in 0..DAMAGES_IN_PLACE {
            let mut damaged = record.clone();
            damage_in_place(&mut random, kind, shape, &mut damaged);
            compare.write_reel(&damaged.bytes, code, room);
        }
    }
}

/// Records of the most traces, and one more.
pub fn long_records(compare: &mut Comparison) {
    let mut random = Random::seeded(8);
    compare.stage("records of 100,000 traces and more");
    let code = 3;
    let shape = Shape::new(code, 1, 100_000);
    let room = 3600 + 100_000 * 242;
    let whole = Record::valid(&mut random, shape, true).bytes;
    let count = whole.len() - 7;
    write_and_read_again(compare, &whole, code, room + 242);
    compare.write_reel(&whole, code, room - 1);
    compare.write_reel(&whole, code, room);
    compare.write_reel(&whole, 1, 24_500_000);

    let mut record = whole.clone();
    record[count - 6..count].copy_from_slice(&pair(251, 3));
    compare.write_reel(&record, code, room);
    record[count - 6..count].copy_from_slice(&pair(0, 2));
    compare.write_reel(&record, code, room);
    record = whole.clone();
    record[count + 6] ^= 1;
    compare.write_reel(&record, code, room);

    // Trace 100,001: whole, its tag alone, with either count.
    record = whole.clone();
    record[count] = 3;
    compare.write_reel(&record, code, room + 242);
    compare.write_reel(&record[..count + 1], code, room + 242);
    compare.write_reel(&record[..count], code, room + 242);
    record = whole.clone();
    let trace = whole[count - 192..count].to_vec();
    record.splice(count..count, trace);
    compare.write_reel(&record, code, room + 242);
    let last = record.len() - 1;
    record[last] += 1;
    compare.write_reel(&record, code, room + 242);
}
