//! Long traces: N at and about the ends of sample fields, records whose traces are in the new form, in the
//! earlier one, or in both, every field of them damaged, and several faults at once.

use crate::compare::{print_input, Comparison};
use crate::eagle;
use crate::library::ReelAnswer;
use crate::listings::any_listing;
use crate::nearest::{self, reel_length, there_and_back};
use crate::random::Random;
use crate::records::{
    damage_in_place, damage_length, new_form, Record, DAMAGES_IN_PLACE, DAMAGES_OF_LENGTH,
};
use crate::reels::{
    damage, put, reel, some_look_ups, write_and_read_again, Shape, Words, ALL_WORDS, DAMAGES,
};
use crate::samples::{no_value, pair, uncanonical_pair, CODES};
use std::ops::RangeInclusive;

/// N at and about the ends of fields, and at the ends of the earlier form.
const COUNTS: [usize; 19] = [
    1, 2, 5_999, 6_000, 6_001, 6_002, 7_999, 8_000, 8_001, 11_999, 12_000, 12_001, 18_000, 18_001,
    24_001, 30_000, 30_001, 32_766, 32_767,
];

/// The N of traces that may be in the earlier form.
const EARLIER: RangeInclusive<usize> = 6_001..=8_000;

/// All samples in a single field, which a trace of an earlier record has.
fn earlier_form(samples: usize) -> Vec<usize> {
    vec![samples]
}

/// The forms of a record's traces, the earlier one where a bit is 1.
pub fn pattern(bits: usize, samples: usize, traces: usize) -> Vec<Vec<usize>> {
    let form = |trace: usize| match bits >> trace & 1 {
        0 => new_form(samples),
        _ => earlier_form(samples),
    };
    (0..traces).map(form).collect()
}

/// All patterns of the forms that so many traces of so many samples may have.
pub fn patterns(samples: usize, traces: usize) -> usize {
    if EARLIER.contains(&samples) {
        1 << traces
    } else {
        1
    }
}

/// Ends the run if what must hold doesn't.
fn must(compare: &Comparison, holds: bool, what: &str, input: &[u8], answers: &[ReelAnswer]) {
    if !holds {
        compare.differs(what, || {
            for answer in answers {
                println!("{answer:?}");
            }
            let places: Vec<u64> = answers.iter().map(|answer| answer.beside).collect();
            print_input(input, &places);
        });
    }
}

/// Whether an answer has this number, and this beside it.
fn says(answer: ReelAnswer, number: u64, beside: usize) -> bool {
    (answer.number, answer.beside) == (number, beside as u64)
}

/// Exact and nearest writing, listing and taking back, each of the same record into an output of any
/// length. Nearest writing has its own code: under those of which every step is tried a long record that
/// is valid takes long.
fn every_call(
    compare: &mut Comparison,
    random: &mut Random,
    record: &[u8],
    nearest_code: u32,
) -> [ReelAnswer; 4] {
    let any = random.below(record.len() + 2);
    let room = random.pick(&[0, 3_240, record.len(), any]);
    let listing = vec![0x0A; 3_240];
    [
        compare.write_reel(record, random.pick(&CODES), room),
        compare.write_nearest(record, nearest_code, room),
        compare.list_cards(record, room),
        compare.take_cards(record, &listing, room),
    ]
}

/// Every call refuses the record so.
fn refused(
    compare: &mut Comparison,
    random: &mut Random,
    record: &[u8],
    number: u64,
    place: usize,
) {
    let code = random.pick(&CODES);
    for answer in every_call(compare, random, record, code) {
        let holds = says(answer, number, place);
        if !holds {
            println!("expected: number {number} at {place}");
        }
        must(
            compare,
            holds,
            "a record has another cause",
            record,
            &[answer],
        );
    }
}

pub fn long_traces(compare: &mut Comparison) {
    let mut random = Random::seeded(21);
    every_number(compare, &mut random);
    reels_of_every_length(compare, &mut random);
    words_of_every_field(compare, &mut random);
    damaged_reels(compare, &mut random);
    eagle_reels(compare, &mut random);
    every_pattern(compare, &mut random);
    fields_damaged(compare, &mut random);
    two_faults(compare, &mut random);
    misfits(compare, &mut random);
    other_fields(compare, &mut random);
    first_lengths(compare, &mut random);
    other_counts(compare, &mut random);
    nearest_writing(compare, &mut random);
    damaged_records(compare, &mut random);
}

/// Every N on a reel without traces and with one, by reading and look-up, and in a record without traces.
fn every_number(compare: &mut Comparison, random: &mut Random) {
    compare.stage("every N on a reel and in a record");
    let empty = Shape::new(8, 1, 0);
    let mut headers = reel(random, empty, Words::Random);
    let mut trace = reel(random, Shape { traces: 1, ..empty }, Words::Random);
    put(&mut trace, 3600 + 114, 0);
    let mut record = Record::valid(random, empty, true).bytes;
    for samples in 0..=u16::MAX {
        let within = (1..=32_767).contains(&samples);
        put(&mut headers, 3220, samples);
        let answer = compare.read_reel(&headers, 3273);
        let holds = if within {
            says(answer, 0, 0) && answer.samples == u64::from(samples)
        } else {
            says(answer, 3, 3220)
        };
        must(compare, holds, "an N of a reel", &headers, &[answer]);
        compare.look_up(&headers, 0, 3221);

        put(&mut trace, 3220, samples);
        let answer = compare.read_reel(&trace, 3465);
        let (number, beside) = match samples {
            1 => (0, 0),
            _ if within => (5, 3600),
            _ => (3, 3220),
        };
        let holds = says(answer, number, beside);
        must(compare, holds, "an N of a reel", &trace, &[answer]);

        put(&mut record, 3226, samples);
        let code = random.pick(&CODES);
        for answer in [
            compare.write_reel(&record, code, 3600),
            compare.list_cards(&record, 3240),
        ] {
            let (number, beside) = if within { (0, 0) } else { (13, 3226) };
            let holds = says(answer, number, beside);
            must(compare, holds, "an N of a record", &record, &[answer]);
        }
    }
}

/// Whether the tags and lengths of a record stand where the new form has them.
fn in_new_form(record: &[u8], shape: Shape) -> bool {
    let mut place = 3266;
    let mut right = true;
    let mut head = |tag: u8, length: usize| {
        let [high, low] = (length as u16).to_be_bytes();
        right &= record[place..].starts_with(&[tag, high, low]);
        place = record.len().min(place + 3 + length);
    };
    for _ in 0..shape.traces {
        head(3, 180);
        for samples in new_form(shape.samples) {
            head(4, 6 * samples);
        }
    }
    head(5, 4);
    right && place == record.len() && record.len() == shape.record_length()
}

/// Reels of each N under each code, into outputs of several lengths, one of them that of the earlier
/// record. Their records are in the new form, and come back under every code that holds them.
fn reels_of_every_length(compare: &mut Comparison, random: &mut Random) {
    compare.stage("reels of long traces");
    for samples in COUNTS {
        let kinds = CODES.map(|code| ALL_WORDS.map(|words| (code, words)));
        for (code, words) in kinds.into_iter().flatten() {
            let shape = Shape::new(code, samples, random.below(4));
            let made = reel(random, shape, words);
            let length = shape.record_length();
            let short = 3273 + shape.traces * (186 + 6 * samples);
            for room in [0, random.below(length), length - 1, short] {
                let answer = compare.read_reel(&made, room);
                let holds = says(answer, 10, length) || room == length && answer.number == 0;
                must(compare, holds, "an output too short", &made, &[answer]);
            }
            let answer = compare.read_reel(&made, length + random.below(100));
            let record = compare.written(answer).to_vec();
            let holds = in_new_form(&record, shape)
                && (answer.traces, answer.samples) == (shape.traces as u64, samples as u64);
            must(compare, holds, "the form of a record", &made, &[answer]);
            for code in CODES {
                let length = reel_length(code, shape);
                write_and_read_again(compare, &record, code, length + random.below(50));
                compare.write_reel(&record, code, length - 1);
            }
            some_look_ups(compare, random, &made, shape, 8);
        }
    }

    compare.stage("reels of many N");
    let about = (0..=32).flat_map(|thousands| 1000 * thousands - 3..1000 * thousands + 4);
    let some = (1..32_767).step_by(89);
    for samples in about.chain(some).filter(|&samples: &i32| samples > 0) {
        let code = random.pick(&[8, 8, 8, 3, 1]);
        let shape = Shape::new(code, samples as usize, random.pick(&[1, 1, 1, 2]));
        let made = reel(random, shape, Words::Random);
        let answer = compare.read_reel(&made, shape.record_length());
        let record = compare.written(answer).to_vec();
        let holds = in_new_form(&record, shape);
        must(compare, holds, "the form of a record", &made, &[answer]);
        compare.read_reel(&made, shape.record_length() - 1);
        write_and_read_again(compare, &record, code, made.len()).expect("its own code");
    }
}

/// The first and the last sample of each field, and those beside them.
pub fn ends_of_fields(samples: usize) -> Vec<usize> {
    let mut ends = Vec::new();
    for first in (0..samples).step_by(6_000) {
        let last = samples.min(first + 6_000) - 1;
        ends.extend([first, first + 1, last.saturating_sub(1), last]);
    }
    ends.retain(|&sample| sample < samples);
    ends.sort_unstable();
    ends.dedup();
    ends
}

/// A word that code 4 or 5 refuses, or one that isn't normal, at the ends of each field of each trace.
fn words_of_every_field(compare: &mut Comparison, random: &mut Random) {
    compare.stage("words at the ends of each field");
    for samples in [6_001, 8_001, 12_000, 12_001, 32_767] {
        for code in [1, 4, 5] {
            let shape = Shape::new(code, samples, 2);
            let mut made = reel(random, shape, Words::Whole);
            let length = shape.record_length();
            let before = compare.read_reel(&made, length);
            for trace in 0..2 {
                for sample in ends_of_fields(samples) {
                    let place = shape.trace(trace) + 240 + 4 * sample;
                    let kept = made[place..place + 4].to_vec();
                    let word = match code {
                        1 => [0x42, 0x01, 0x00, 0x00],
                        4 => [0x01, 0x00, 0x00, 0x00],
                        _ => no_value(random),
                    };
                    made[place..place + 4].copy_from_slice(&word);
                    let answer = compare.read_reel(&made, length);
                    let holds = match code {
                        1 => answer.not_normal == before.not_normal + 1,
                        4 => says(answer, 9, place),
                        _ => says(answer, 19, place),
                    };
                    must(compare, holds, "a word of a long trace", &made, &[answer]);
                    compare.look_up(&made, 1 + trace, 115);
                    made[place..place + 4].copy_from_slice(&kept);
                }
            }
        }
    }
}

/// Reels of long traces, damaged in every way.
fn damaged_reels(compare: &mut Comparison, random: &mut Random) {
    compare.stage("reels of long traces, damaged");
    for samples in COUNTS {
        for code in CODES {
            let shape = Shape::new(code, samples, 1 + random.below(3));
            let whole = reel(random, shape, Words::Random);
            for kind in (0..DAMAGES).chain(0..DAMAGES) {
                let mut made = whole.clone();
                damage(random, kind, shape, &mut made);
                compare.read_reel(&made, shape.record_length());
                some_look_ups(compare, random, &made, shape, 1);
            }
        }
    }
}

/// Eagle reels of each N: their records are those of the plain reels, and a trailer's end, a byte cut off
/// and an output too short are told at their places.
fn eagle_reels(compare: &mut Comparison, random: &mut Random) {
    compare.stage("Eagle reels of long traces");
    for samples in COUNTS {
        for traces in 1..=3 {
            let shape = Shape::new(1, samples, traces);
            let words = random.pick(&ALL_WORDS);
            let mut made = eagle::eagle(random, shape, words);
            let (read, record) = eagle::taken(compare, &made, shape);
            let holds = in_new_form(&record, shape);
            must(compare, holds, "the form of a record", &made, &[read]);
            eagle::as_a_plain_reel(compare, &made, shape, read, &record);
            let length = shape.record_length();
            let short = 3273 + traces * (186 + 6 * samples);
            for room in [0, length - 1, short.min(length - 1)] {
                eagle::answered(compare, &made, room, 10, length);
            }
            let last = eagle::trace(shape, traces - 1);
            eagle::answered(compare, &made[..made.len() - 1], length, 5, last);
            for index in (0..traces).rev() {
                let end = eagle::end(shape, index);
                made[end + random.below(2)] ^= 1 << random.below(8);
                let room = random.pick(&[0, length]);
                eagle::answered(compare, &made, room, 20, end);
            }
            put(&mut made, 3220, samples as u16 | 0x8000);
            eagle::answered(compare, &made, length, 3, 3220);
        }
    }
}

/// The new form of a record, and one of the same traces in other forms.
struct Forms {
    shape: Shape,
    new: Record,
    other: Record,
}

impl Forms {
    fn any(random: &mut Random, shape: Shape, fitting: bool, bits: usize) -> Forms {
        let seed = random.next();
        let in_forms = |bits| {
            let forms = pattern(bits, shape.samples, shape.traces);
            Record::in_forms(&mut Random::seeded(seed), shape, fitting, &forms)
        };
        Forms {
            shape,
            new: in_forms(0),
            other: in_forms(bits),
        }
    }

    /// What an answer to the new form says of the other: the same, at the place of the same pair.
    fn answer(&self, of_new: ReelAnswer) -> ReelAnswer {
        let mut answer = of_new;
        if answer.number == 14 {
            let place = answer.beside as usize;
            let index = self.new.pairs.binary_search(&place);
            answer.beside = self.other.pairs[index.expect("the place of a pair")] as u64;
        }
        answer
    }

    /// Under a code both give one reel, or the same sample doesn't fit. The reel comes back as the new
    /// form, into an output as long as that.
    fn one_reel(&self, compare: &mut Comparison, random: &mut Random, code: u32) {
        let (new, other) = (&self.new.bytes, &self.other.bytes);
        let length = reel_length(code, self.shape);
        let of_new = compare.write_reel(new, code, length);
        let reel = compare.written(of_new).to_vec();
        let expected = self.answer(of_new);
        for room in [length, length + 1 + random.below(100)] {
            let answer = compare.write_reel(other, code, room);
            let holds = answer == expected && compare.written(answer) == reel;
            must(
                compare,
                holds,
                "the forms have two reels",
                other,
                &[of_new, answer],
            );
        }
        for room in [0, random.below(length), length - 1] {
            compare.write_reel(other, code, room);
        }
        if of_new.number != 0 {
            return;
        }
        for room in [other.len(), new.len() - 1, new.len()] {
            let answer = compare.read_reel(&reel, room);
            let holds = if room == new.len() {
                compare.written(answer) == new
            } else {
                says(answer, 10, new.len())
            };
            must(
                compare,
                holds,
                "a reel doesn't come back so",
                other,
                &[answer],
            );
        }
    }

    /// The other form is listed as the new one is, and taken back with any text it keeps its form, and
    /// its length.
    fn one_listing(&self, compare: &mut Comparison, random: &mut Random) {
        let (new, other) = (&self.new.bytes, &self.other.bytes);
        let listed = compare.list_cards(new, 3_240);
        let listing = compare.written(listed).to_vec();
        let answer = compare.list_cards(other, 3_240 + random.below(9));
        let holds = answer == listed && compare.written(answer) == listing;
        must(
            compare,
            holds,
            "the forms have two listings",
            other,
            &[answer],
        );
        compare.list_cards(other, random.below(3_240));

        let answer = compare.take_cards(other, &listing, other.len());
        let holds = compare.written(answer) == other;
        must(compare, holds, "a listing changes a form", other, &[answer]);
        let listing = any_listing(random);
        let room = other.len() + random.below(9);
        let answer = compare.take_cards(other, &listing, room);
        let (traces, samples) = (self.shape.traces as u64, self.shape.samples as u64);
        let taken = compare.written(answer);
        let holds = (answer.traces, answer.samples) == (traces, samples)
            && taken.len() == other.len()
            && taken[3203..] == other[3203..];
        must(compare, holds, "a listing changes a form", other, &[answer]);
        for room in [0, 3_273, other.len() - 1] {
            let answer = compare.take_cards(other, &listing, room);
            let holds = room == other.len() || says(answer, 10, other.len());
            must(compare, holds, "an output too short", other, &[answer]);
        }
    }

    /// Nearest writing gives one reel and one count.
    fn one_nearest_reel(&self, compare: &mut Comparison, random: &mut Random, code: u32) {
        let (new, other) = (&self.new.bytes, &self.other.bytes);
        let length = reel_length(code, self.shape);
        let of_new = compare.write_nearest(new, code, length);
        let reel = compare.written(of_new).to_vec();
        let answer = compare.write_nearest(other, code, length + random.below(9));
        let holds = answer == of_new && compare.written(answer) == reel;
        must(
            compare,
            holds,
            "the forms have two nearest reels",
            other,
            &[of_new, answer],
        );
        let short = compare.write_nearest(other, code, length - 1);
        let holds = says(short, 10, length);
        must(compare, holds, "an output too short", other, &[short]);
    }
}

/// Every pattern of forms over up to four traces, under every code, with samples that fit one of them or
/// any.
fn every_pattern(compare: &mut Comparison, random: &mut Random) {
    compare.stage("every pattern of forms");
    for samples in [6_000, 6_001, 6_002, 7_000, 7_999, 8_000, 8_001, 12_001] {
        for traces in 0..=4 {
            for bits in 0..patterns(samples, traces) {
                let shape = Shape::new(random.pick(&CODES), samples, traces);
                let fitting = !random.once_in(4);
                let forms = Forms::any(random, shape, fitting, bits);
                let shorter = 3 * bits.count_ones() as usize;
                must(
                    compare,
                    forms.new.bytes.len() == shape.record_length()
                        && forms.other.bytes.len() + shorter == shape.record_length(),
                    "a pattern has another length",
                    &forms.other.bytes,
                    &[],
                );
                for code in CODES {
                    forms.one_reel(compare, random, code);
                }
                forms.one_listing(compare, random);
                let code = random.pick(&[2, 3, 8]);
                forms.one_nearest_reel(compare, random, code);
            }
        }
    }

    compare.stage("records of long traces, in either form");
    for samples in COUNTS {
        for code in CODES {
            let shape = Shape::new(code, samples, 1 + random.below(2));
            let bits = random.below(patterns(samples, shape.traces));
            let forms = Forms::any(random, shape, true, bits);
            forms.one_reel(compare, random, code);
            if code == 8 {
                forms.one_listing(compare, random);
            }
        }
    }
}

/// Records of each pattern of forms of two traces.
fn records_of_two(random: &mut Random, samples: usize) -> Vec<Record> {
    (0..patterns(samples, 2))
        .map(|bits| {
            let shape = Shape::new(8, samples, 2);
            Record::in_forms(random, shape, true, &pattern(bits, samples, 2))
        })
        .collect()
}

/// Every sample field: its tag, every bit of its length, the record cut about its ends, and the pairs at
/// its ends.
fn fields_damaged(compare: &mut Comparison, random: &mut Random) {
    compare.stage("each field of long traces damaged");
    for samples in [5_999, 6_000, 6_001, 8_000, 8_001, 12_000, 12_001, 32_767] {
        for record in records_of_two(random, samples) {
            for fields in &record.fields {
                for (index, &tag) in fields.iter().enumerate() {
                    one_field_damaged(compare, random, &record, samples, tag, index == 0);
                }
            }
        }
    }
}

fn one_field_damaged(
    compare: &mut Comparison,
    random: &mut Random,
    record: &Record,
    samples: usize,
    tag: usize,
    first: bool,
) {
    let mut made = record.bytes.clone();
    for byte in [0, 1, 2, 3, 5, 6, 0x44, 0x84, 0xFF] {
        made[tag] = byte;
        refused(compare, random, &made, 12, tag);
    }
    made[tag] = 4;

    // The length of the other form is 12 or 13 elsewhere.
    let length = u16::from_be_bytes([made[tag + 1], made[tag + 2]]);
    let other_form = match length {
        _ if !(first && EARLIER.contains(&samples)) => length,
        36_000 => 6 * samples as u16,
        _ => 36_000,
    };
    let others = (0..16).map(|bit| length ^ 1 << bit);
    for other in others.chain([0, 6, u16::MAX, length + 6, length - 6]) {
        put(&mut made, tag + 1, other);
        if other == other_form {
            every_call(compare, random, &made, 8);
        } else {
            refused(compare, random, &made, 12, tag);
        }
    }
    if other_form != length {
        put(&mut made, tag + 1, other_form);
        let answers = every_call(compare, random, &made, 8);
        let elsewhere = |answer: &ReelAnswer| answer.beside > tag as u64 + 3;
        let holds = answers.iter().all(elsewhere);
        must(
            compare,
            holds,
            "the length of the other form",
            &made,
            &answers,
        );
    }
    put(&mut made, tag + 1, length);

    let end = tag + 3 + usize::from(length);
    for cut in [tag, tag + 1, tag + 2, tag + 3, tag + 4, end - 6, end - 1] {
        refused(compare, random, &made[..cut], 12, tag);
    }
    refused(compare, random, &made[..end], 12, end);
    let place = random.below(end - tag);
    refused(compare, random, &made[..tag + place], 12, tag);

    for place in [tag + 3, tag + 9, end - 12, end - 6] {
        if !(tag + 3..end).contains(&place) {
            continue;
        }
        let kept = made[place..place + 6].to_vec();
        for bad in [pair(0, 2), pair(252, 1), uncanonical_pair(random)] {
            made[place..place + 6].copy_from_slice(&bad);
            refused(compare, random, &made, 13, place);
        }
        // A pair that isn't canonical comes before what is wrong behind its field.
        refused(compare, random, &made[..end], 13, place);
        refused(compare, random, &made[..end - 1], 12, tag);
        made[place..place + 6].copy_from_slice(&kept);
    }
}

/// A fault: what is told of it, and the bytes that make it.
#[derive(Clone, Copy)]
struct Fault {
    number: u64,
    beside: usize,
    place: usize,
    bytes: &'static [u8],
}

/// The faults of a record, in the order in which they count.
fn faults_of(record: &Record) -> Vec<Fault> {
    let fault = |number, beside, place, bytes| Fault {
        number,
        beside,
        place,
        bytes,
    };
    let at = |number, place, bytes| fault(number, place, place, bytes);
    let mut faults = Vec::new();
    for (&header, fields) in record.headers.iter().zip(&record.fields) {
        faults.extend([
            at(12, header, &[9]),
            at(13, header + 3 + 70, &[0, 7]),
            at(13, header + 3 + 114, &[0, 0]),
        ]);
        for &tag in fields {
            let pairs = usize::from(u16::from_be_bytes([
                record.bytes[tag + 1],
                record.bytes[tag + 2],
            ]));
            faults.extend([
                at(12, tag, &[9]),
                fault(12, tag, tag + 1, &[0x12, 0x34]),
                at(13, tag + 3, &[0, 0, 0, 0, 0, 2]),
                at(13, tag + 3 + pairs - 6, &[0, 1, 0, 0, 0, 0]),
            ]);
        }
    }
    let count = record.bytes.len() - 7;
    faults.push(at(12, count, &[9]));
    faults.push(fault(12, count, count + 6, &[9]));
    faults
}

/// Every two faults of a record at once: the first counts. So field by field 12 comes before 13, and 13
/// before the next field's 12.
fn two_faults(compare: &mut Comparison, random: &mut Random) {
    compare.stage("two faults of long traces at once");
    for samples in [6_001, 8_000, 12_001, 32_767] {
        for record in records_of_two(random, samples) {
            let faults = faults_of(&record);
            for (first, one) in faults.iter().enumerate() {
                for other in &faults[first + 1..] {
                    let mut made = record.bytes.clone();
                    for fault in [other, one] {
                        made[fault.place..][..fault.bytes.len()].copy_from_slice(fault.bytes);
                    }
                    refused(compare, random, &made, one.number, one.beside);
                }
            }
        }
    }

    compare.stage("many faults of long traces at once");
    for _ in 0..1_000 {
        let samples = random.pick(&[6_001, 7_000, 8_000, 12_001, 32_767]);
        let shape = Shape::new(8, samples, 1 + random.below(3));
        let bits = random.below(patterns(samples, shape.traces));
        let forms = pattern(bits, samples, shape.traces);
        let mut record = Record::in_forms(random, shape, true, &forms);
        let faults = faults_of(&record);
        let mut chosen: Vec<usize> = (0..2 + random.below(5))
            .map(|_| random.below(faults.len()))
            .collect();
        chosen.sort_unstable();
        for &index in chosen.iter().rev() {
            let Fault { place, bytes, .. } = faults[index];
            record.bytes[place..place + bytes.len()].copy_from_slice(bytes);
        }
        let Fault { number, beside, .. } = faults[chosen[0]];
        refused(compare, random, &record.bytes, number, beside);
    }
}

/// Samples that fit no code at the ends of each field: 14 has the place of the first, after every 12 and
/// 13, and before 10; listing and nearest writing have no such cause.
fn misfits(compare: &mut Comparison, random: &mut Random) {
    compare.stage("samples that don't fit, at the ends of each field");
    for samples in [6_001, 8_000, 12_001, 32_767] {
        for record in records_of_two(random, samples) {
            let ends = ends_of_fields(samples);
            let indices: Vec<usize> = (0..2)
                .flat_map(|trace| ends.iter().map(move |&sample| trace * samples + sample))
                .collect();
            for (turn, &index) in indices.iter().enumerate() {
                let mut made = record.bytes.clone();
                let place = record.pairs[index];
                let later = record.pairs[random.pick(&indices[turn..])];
                for place in [later, place] {
                    made[place..place + 6].copy_from_slice(&pair(251, 3));
                }
                let code = random.pick(&CODES);
                for room in [0, reel_length(code, Shape::new(code, samples, 2))] {
                    let answer = compare.write_reel(&made, code, room);
                    let holds = says(answer, 14, place);
                    must(
                        compare,
                        holds,
                        "a sample that doesn't fit",
                        &made,
                        &[answer],
                    );
                }
                compare.list_cards(&made, 3_240);
                let answer = compare.write_nearest(&made, 8, made.len());
                let changed = 1 + u64::from(later != place);
                let holds = answer.changed == changed;
                must(compare, holds, "samples that changed", &made, &[answer]);

                let last = record.pairs[2 * samples - 1];
                made[last..last + 6].copy_from_slice(&pair(0, 2));
                refused(compare, random, &made, 13, last);
            }
        }
    }
}

/// Where a record with traces in these fields is refused by 12, if it is.
fn wrong_field(record: &Record, forms: &[Vec<usize>], samples: usize) -> Option<usize> {
    let right = new_form(samples);
    for (trace, form) in forms.iter().enumerate() {
        let single = EARLIER.contains(&samples) && form.first() == Some(&samples);
        let right = if single { &form[..1] } else { &right[..] };
        if form == right {
            continue;
        }
        // The first field that differs, or the field behind the last where one is missing.
        let alike = form.iter().zip(right).take_while(|(a, b)| a == b).count();
        let behind = record.headers.get(trace + 1).copied();
        let behind = behind.unwrap_or(record.bytes.len() - 7);
        return Some(record.fields[trace].get(alike).copied().unwrap_or(behind));
    }
    None
}

/// Fields of other lengths than either form has.
fn any_fields(random: &mut Random, samples: usize) -> Vec<usize> {
    let mut fields = new_form(samples);
    let last = fields.len() - 1;
    match random.below(10) {
        0 => fields = earlier_form(samples),
        1 => {
            let share = random.pick(&[1_000, 3_000, 4_096, 5_999, 6_001, 8_000, 10_922]);
            fields = vec![share; samples / share];
            fields.push(samples - share * fields.len());
        }
        2 => fields.push(random.pick(&[0, 1, 2, 6_000])),
        3 => drop(fields.pop()),
        4 => fields[last] += random.pick(&[1, 2, 6_000]),
        5 => fields[last] -= 1,
        6 => fields = vec![samples, random.pick(&[0, 1, 6_000])],
        7 => {
            let first = random.below(samples + 1);
            fields = vec![first, samples - first];
        }
        8 => fields.rotate_right(1),
        _ => {
            let index = random.below(fields.len());
            fields[index] = random.below(10_923);
        }
    }
    fields
}

/// Traces with other fields beside right ones of either form: the first field that differs is told. A
/// single field is right up to 8,000 samples.
fn other_fields(compare: &mut Comparison, random: &mut Random) {
    compare.stage("traces in a single field");
    let about = [6_000, 8_000, 10_922, 12_000].map(|samples| samples - 4..samples + 5);
    for samples in about.into_iter().flatten().chain([32_766, 32_767]) {
        let (single, new) = (earlier_form(samples), new_form(samples));
        for forms in [
            vec![single.clone()],
            vec![single.clone(), new.clone()],
            vec![new, single],
        ] {
            let shape = Shape::new(8, samples, forms.len());
            let record = Record::in_forms(random, shape, true, &forms);
            if samples <= 8_000 {
                let length = reel_length(8, shape);
                let answer = compare.write_reel(&record.bytes, 8, length);
                let holds = says(answer, 0, 0);
                must(compare, holds, "a single field", &record.bytes, &[answer]);
                every_call(compare, random, &record.bytes, 8);
            } else {
                let trace = forms.iter().position(|form| form.len() == 1);
                let place = record.fields[trace.expect("one of them")][0];
                refused(compare, random, &record.bytes, 12, place);
            }
        }
    }

    compare.stage("traces in other fields");
    let (mut right, mut wrong) = (0, 0);
    for samples in COUNTS {
        for _ in 0..120 {
            let shape = Shape::new(8, samples, 1 + random.below(3));
            let bits = random.below(patterns(samples, shape.traces));
            let mut forms = pattern(bits, samples, shape.traces);
            forms[random.below(shape.traces)] = any_fields(random, samples);
            let record = Record::in_forms(random, shape, true, &forms);
            match wrong_field(&record, &forms, samples) {
                Some(place) => {
                    refused(compare, random, &record.bytes, 12, place);
                    wrong += 1;
                }
                None => {
                    let length = reel_length(8, shape);
                    let answer = compare.write_reel(&record.bytes, 8, length);
                    let holds = says(answer, 0, 0);
                    must(compare, holds, "a right form", &record.bytes, &[answer]);
                    right += 1;
                }
            }
        }
    }
    if right < 100 || wrong < 1_000 {
        compare.differs("nearly all fields are right, or wrong", || {
            println!("{right} and {wrong}");
        });
    }
}

/// The length of the first field is that of every count of samples: 36,000 and 6N alone are a form's.
fn first_lengths(compare: &mut Comparison, random: &mut Random) {
    compare.stage("every length of the first field");
    for samples in [6_001, 7_000, 8_000, 8_001] {
        for bits in 0..patterns(samples, 1) {
            let shape = Shape::new(8, samples, 1);
            let forms = pattern(bits, samples, 1);
            let mut record = Record::in_forms(random, shape, true, &forms).bytes;
            let right = u16::from_be_bytes([record[3450], record[3451]]);
            let ends = [35_999, 36_001, 36_003, 36_005, 36_007, 47_999, 48_001];
            for length in (0..=u16::MAX).step_by(6).chain(ends) {
                put(&mut record, 3450, length);
                let answer = compare.list_cards(&record, 0);
                let holds = match usize::from(length) {
                    _ if length == right => says(answer, 10, 3_240),
                    36_000 => says(answer, 12, 39_452),
                    single if EARLIER.contains(&samples) && single == 6 * samples => {
                        says(answer, 13, 39_452)
                    }
                    _ => says(answer, 12, 3_449),
                };
                must(
                    compare,
                    holds,
                    "a length of a first field",
                    &record,
                    &[answer],
                );
            }
        }
    }
}

/// Another N in tag 02 and in every field 115: the first field that it doesn't fit is told.
fn other_counts(compare: &mut Comparison, random: &mut Random) {
    compare.stage("records of another N than their fields have");
    for samples in COUNTS {
        for bits in 0..patterns(samples, 2) {
            let shape = Shape::new(8, samples, 2);
            let forms = pattern(bits, samples, 2);
            let record = Record::in_forms(random, shape, true, &forms);
            for other in COUNTS.into_iter().chain([samples - 1, samples + 1]) {
                let mut made = record.clone();
                for place in [3226]
                    .into_iter()
                    .chain((record.headers.iter()).map(|header| header + 3 + 114))
                {
                    put(&mut made.bytes, place, other as u16);
                }
                match other {
                    0 | 32_768 => refused(compare, random, &made.bytes, 13, 3226),
                    _ => match wrong_field(&made, &forms, other) {
                        Some(place) => refused(compare, random, &made.bytes, 12, place),
                        None => must(compare, other == samples, "an N", &made.bytes, &[]),
                    },
                }
                if other != samples {
                    put(&mut made.bytes, record.headers[0] + 3 + 114, samples as u16);
                    if (1..32_768).contains(&other) {
                        refused(compare, random, &made.bytes, 13, 3383);
                    }
                }
            }
        }
    }
}

/// Nearest writing of samples that mostly change, in every field and either form. Under the codes of which
/// every step is tried the records are fewer.
fn nearest_writing(compare: &mut Comparison, random: &mut Random) {
    compare.stage("nearest writing of long traces");
    for samples in [5_999, 6_001, 8_000, 8_001, 12_001, 32_767] {
        for code in CODES {
            let dear = matches!(code, 1 | 4 | 5);
            if dear && samples > 12_001 {
                continue;
            }
            let traces = if dear { 1 } else { 2 };
            let shape = Shape::new(code, samples, traces);
            let bits = random.below(patterns(samples, traces));
            let mut forms = Forms::any(random, shape, false, bits);
            for (&new, &other) in forms.new.pairs.iter().zip(&forms.other.pairs) {
                let any = nearest::any_pair(random, code);
                forms.new.bytes[new..new + 6].copy_from_slice(&any);
                forms.other.bytes[other..other + 6].copy_from_slice(&any);
            }
            forms.one_nearest_reel(compare, random, code);
            if !dear {
                let length = reel_length(code, shape);
                there_and_back(compare, &forms.new.bytes, code, length);
            }
        }
    }

    compare.stage("one changed sample at the ends of each field");
    for samples in [6_001, 8_000, 12_001, 32_767] {
        for record in records_of_two(random, samples) {
            for sample in ends_of_fields(samples) {
                for trace in 0..2 {
                    let mut made = record.bytes.clone();
                    let place = record.pairs[trace * samples + sample];
                    made[place..place + 6].copy_from_slice(&pair(-1, 3));
                    let length = reel_length(8, Shape::new(8, samples, 2));
                    let answer = compare.write_nearest(&made, 8, length);
                    let word = 3600 + trace * (240 + samples) + 240 + sample;
                    let holds = answer.changed == 1 && compare.written(answer)[word] == 1;
                    must(compare, holds, "a changed sample", &made, &[answer]);
                }
            }
        }
    }
}

/// Records of any long shape and any forms, damaged in any ways, under every call.
fn damaged_records(compare: &mut Comparison, random: &mut Random) {
    compare.stage("records of long traces, valid and damaged");
    for _ in 0..6_000 {
        let any = 1 + random.below(32_767);
        let samples = match random.below(4) {
            0 => any,
            1 => 6_001 + random.below(2_000),
            _ => random.pick(&COUNTS),
        };
        let most = 1 + 40_000 / samples.max(10_000);
        let shape = Shape::new(random.pick(&CODES), samples, random.below(most + 1));
        let bits = random.below(patterns(samples, shape.traces));
        let forms = pattern(bits, samples, shape.traces);
        let fitting = !random.once_in(4);
        let mut record = Record::in_forms(random, shape, fitting, &forms);
        for _ in 0..random.pick(&[0, 1, 1, 1, 2, 3]) {
            let kind = random.below(DAMAGES_IN_PLACE);
            damage_in_place(random, kind, shape, &mut record);
        }
        if random.once_in(3) {
            let kind = random.below(DAMAGES_OF_LENGTH);
            damage_length(random, kind, &mut record);
        }
        let length = reel_length(shape.code, shape);
        let room = random.pick(&[0, length - 1, length, length + 7]);
        let written = compare.write_reel(&record.bytes, shape.code, room);
        if written.number == 0 {
            let reel = compare.written(written).to_vec();
            let answer = compare.read_reel(&reel, shape.record_length());
            let holds = in_new_form(compare.written(answer), shape);
            must(compare, holds, "a reel read again", &reel, &[answer]);
        }
        let code = random.pick(&[2, 3, 8]);
        every_call(compare, random, &record.bytes, code);
    }
}
