//! Eagle reels: trailers and checks of any bytes, each cause at its place and in its order, reels cut and
//! changed everywhere, and the same bytes as plain reels.

use crate::compare::{print_input, Comparison};
use crate::library::ReelAnswer;
use crate::normal::{not_normal_word, reel_of, words_come_back, WHICH};
use crate::random::Random;
use crate::reels::{other_number, put, reel, write_and_read_again, Shape, Words, ALL_WORDS};
use crate::samples::bad_code;
use crate::scalars::damage_scalar;

const TRAILER: usize = 960;

/// Columns 79 and 80 of card 40.
const CHECK: std::ops::Range<usize> = 3198..3200;

/// The bytes of a trace with its trailer.
fn whole_length(shape: Shape) -> usize {
    shape.trace_length() + TRAILER
}

/// The place of a trace, counted from 0.
pub fn trace(shape: Shape, index: usize) -> usize {
    3600 + index * whole_length(shape)
}

/// The place of the last two bytes of its trailer.
pub fn end(shape: Shape, index: usize) -> usize {
    trace(shape, index + 1) - 2
}

/// A trailer: any bytes, one byte throughout, words that are not normal, or header and samples as a plain
/// trace may have them; FFFF at its end.
fn trailer(random: &mut Random) -> [u8; TRAILER] {
    let mut trailer = [0; TRAILER];
    match random.below(6) {
        0 => trailer.fill(random.pick(&[0x00, 0x01, 0x40, 0xA5, 0xFF])),
        1 => {
            for word in trailer.chunks_exact_mut(4) {
                word.copy_from_slice(&not_normal_word(random));
            }
        }
        2 => random.fill(&mut trailer[240..]),
        _ => random.fill(&mut trailer),
    }
    trailer[TRAILER - 2..].fill(0xFF);
    trailer
}

/// The Eagle reel of a plain one of code 1.
fn with_trailers(random: &mut Random, plain: &[u8], shape: Shape) -> Vec<u8> {
    let mut made = plain[..3600].to_vec();
    for trace in plain[3600..].chunks_exact(shape.trace_length()) {
        made.extend(trace);
        made.extend(trailer(random));
    }
    made
}

/// The plain reel of an Eagle one: without its trailers, and with blanks in the place of the check.
fn without_trailers(made: &[u8], shape: Shape) -> Vec<u8> {
    let mut plain = made[..3600].to_vec();
    plain[CHECK].fill(0x40);
    for trace in made[3600..].chunks_exact(whole_length(shape)) {
        plain.extend(&trace[..shape.trace_length()]);
    }
    plain
}

/// An Eagle reel that reading takes.
pub fn eagle(random: &mut Random, shape: Shape, words: Words) -> Vec<u8> {
    let plain = reel(random, shape, words);
    with_trailers(random, &plain, shape)
}

/// Reads an Eagle reel, which has this answer.
pub fn answered(compare: &mut Comparison, made: &[u8], room: usize, number: u64, beside: usize) {
    let answer = compare.read_eagle(made, room);
    if (answer.number, answer.beside) != (number, beside as u64) {
        compare.differs("an Eagle reel has another answer", || {
            println!("number {number}, beside {beside}: {answer:?}");
            print_input(made, &[answer.beside, beside as u64]);
        });
    }
}

/// Reads an Eagle reel that is taken, and gives the answer and its record.
pub fn taken(compare: &mut Comparison, made: &[u8], shape: Shape) -> (ReelAnswer, Vec<u8>) {
    let room = shape.record_length();
    let answer = compare.read_eagle(made, room);
    let expected = (0, shape.traces as u64, shape.samples as u64, room as u64);
    if (answer.number, answer.traces, answer.samples, answer.length) != expected {
        compare.differs("an Eagle reel is not taken as it was made", || {
            println!("{expected:?}: {answer:?}");
            print_input(made, &[answer.beside]);
        });
    }
    (answer, compare.written(answer).to_vec())
}

/// Reads an Eagle reel that has this record.
fn same_record(compare: &mut Comparison, made: &[u8], shape: Shape, record: &[u8]) {
    if taken(compare, made, shape).1 != record {
        compare.differs("bytes without meaning change a record", || {
            print_input(made, &[])
        });
    }
}

/// All but the longest reels.
pub fn eagle_reels(compare: &mut Comparison) {
    let mut random = Random::seeded(19);
    everywhere(compare, &mut random);
    trailers(compare, &mut random);
    cards(compare, &mut random);
    header_numbers(compare, &mut random);
    trace_numbers(compare, &mut random);
    faults(compare, &mut random);
    every_count_of_samples(compare, &mut random);
    counts(compare, &mut random);
    any_reels(compare, &mut random);
    both_layouts(compare, &mut random);
}

/// Small reels of any ending, with every byte changed, and with every length of the output.
fn everywhere(compare: &mut Comparison, random: &mut Random) {
    compare.stage("a small Eagle reel cut at every place");
    for (samples, traces) in [(1, 1), (2, 3), (20, 2), (61, 1)] {
        let shape = Shape::new(1, samples, traces);
        let mut whole = eagle(random, shape, Words::Structured);
        whole.extend(trailer(random));
        for length in 0..=whole.len() {
            let (number, beside) = match length.checked_sub(3600) {
                None => (1, length),
                Some(behind) if behind % whole_length(shape) == 0 => (0, 0),
                Some(behind) => (5, trace(shape, behind / whole_length(shape))),
            };
            let room = shape.record_length() + random.below(300);
            answered(compare, &whole[..length], room, number, beside);
        }
    }

    compare.stage("a small Eagle reel with every byte changed");
    for (samples, traces) in [(2, 2), (1, 1)] {
        let shape = Shape::new(1, samples, traces);
        let whole = eagle(random, shape, Words::Structured);
        let room = shape.record_length() + 300;
        let mut changed = whole.clone();
        for place in 0..whole.len() {
            for byte in [0, 1, 0x40, 0xFF, whole[place] ^ 0x80, random.next() as u8] {
                changed[place] = byte;
                compare.read_eagle(&changed, room);
            }
            changed[place] = whole[place];
        }
    }

    compare.stage("a small Eagle reel with every length of the output");
    let shape = Shape::new(1, 2, 2);
    let mut whole = eagle(random, shape, Words::Random);
    let length = shape.record_length();
    for room in 0..=length + 20 {
        let (number, beside) = if room < length { (10, length) } else { (0, 0) };
        answered(compare, &whole, room, number, beside);
    }
    whole[end(shape, 1) + 1] = 0xFE;
    for room in 0..=length + 20 {
        answered(compare, &whole, room, 20, end(shape, 1));
    }
}

/// Each byte of trailers.
fn trailers(compare: &mut Comparison, random: &mut Random) {
    compare.stage("every byte of a trailer but its last two");
    for samples in [1, 2, 20] {
        let shape = Shape::new(1, samples, 3);
        let mut made = eagle(random, shape, Words::Random);
        let (_, record) = taken(compare, &made, shape);
        for index in 0..shape.traces {
            for place in end(shape, index) - 958..end(shape, index) {
                let before = made[place];
                for byte in [0x00, 0x01, 0x40, 0x7F, 0xFF, before ^ 0x80] {
                    made[place] = byte;
                    same_record(compare, &made, shape, &record);
                }
                made[place] = before;
            }
        }
        for _ in 0..500 {
            for index in 0..shape.traces {
                let behind = end(shape, index) + 2;
                made[behind - TRAILER..behind].copy_from_slice(&trailer(random));
            }
            same_record(compare, &made, shape, &record);
        }
    }

    compare.stage("every two bytes at the end of a trailer");
    for (traces, index) in [(1, 0), (2, 0), (2, 1)] {
        let shape = Shape::new(1, 1, traces);
        let mut made = eagle(random, shape, Words::Random);
        let place = end(shape, index);
        for bytes in 0..=u16::MAX {
            put(&mut made, place, bytes);
            let (number, beside) = if bytes == 0xFFFF { (0, 0) } else { (20, place) };
            answered(compare, &made, shape.record_length(), number, beside);
        }
    }

    compare.stage("every byte at the end of each trailer");
    for (samples, traces) in [(2, 3), (20, 2), (32_767, 2)] {
        let shape = Shape::new(1, samples, traces);
        let mut made = eagle(random, shape, Words::Random);
        for index in 0..traces {
            let place = end(shape, index);
            for first in [place, place + 1] {
                for byte in 0..0xFF {
                    if samples > 1000 && byte % 17 != 0 {
                        continue;
                    }
                    made[first] = byte;
                    let room = random.pick(&[0, shape.record_length()]);
                    answered(compare, &made, room, 20, place);
                }
                made[first] = 0xFF;
            }
        }
    }
}

/// The card bytes: the check is blank, whatever it holds, and no other byte is.
fn cards(compare: &mut Comparison, random: &mut Random) {
    compare.stage("every two bytes in columns 79 and 80 of card 40");
    let shape = Shape::new(1, 2, 0);
    let mut made = eagle(random, shape, Words::Random);
    let (_, record) = taken(compare, &made, shape);
    if record[3..][CHECK] != [0x40; 2] {
        compare.differs("a check is no blank in the record", || {
            print_input(&made, &[CHECK.start as u64])
        });
    }
    for bytes in 0..=u16::MAX {
        put(&mut made, CHECK.start, bytes);
        same_record(compare, &made, shape, &record);
    }

    compare.stage("every card byte of an Eagle reel");
    for (traces, others) in [(0, 0x40), (1, 0x00), (0, 0xFF), (1, 0x01)] {
        let shape = Shape::new(1, 1, traces);
        let mut made = eagle(random, shape, Words::Random);
        made[..3200].fill(others);
        let mut expected = taken(compare, &made, shape).1;
        for place in 0..3200 {
            let before = expected[3 + place];
            for byte in [0x00, 0x01, 0x40, 0x80, 0xC1, 0xFF] {
                made[place] = byte;
                expected[3 + place] = match byte {
                    _ if CHECK.contains(&place) => 0x40,
                    0x00 => 0x40,
                    _ => byte,
                };
                same_record(compare, &made, shape, &expected);
            }
            made[place] = others;
            expected[3 + place] = before;
        }
    }
    let shape = Shape::new(1, 3, 1);
    let mut made = eagle(random, shape, Words::Random);
    for byte in 0..=255 {
        made[..3200].fill(byte);
        taken(compare, &made, shape);
    }
}

/// Every number in the binary header's fields that have limits.
fn header_numbers(compare: &mut Comparison, random: &mut Random) {
    for traces in [0, 1] {
        let shape = Shape::new(1, 2, traces);
        let mut made = eagle(random, shape, Words::Random);
        for index in 0..traces {
            made[trace(shape, index) + 114..][..4].fill(0);
        }
        let room = shape.record_length();

        compare.stage("every format code of an Eagle reel");
        for code in 0..=u16::MAX {
            put(&mut made, 3224, code);
            let (number, beside) = if code == 1 { (0, 0) } else { (2, 3224) };
            answered(compare, &made, room, number, beside);
        }
        put(&mut made, 3224, 1);

        compare.stage("every N of an Eagle reel");
        for samples in 0..=u16::MAX {
            put(&mut made, 3220, samples);
            let length = 1200 + 4 * usize::from(samples);
            let (number, beside) = match samples {
                0 | 32_768.. => (3, 3220),
                _ if (made.len() - 3600) % length == 0 => (0, 0),
                _ => (5, 3600 + (made.len() - 3600) / length * length),
            };
            answered(compare, &made, room, number, beside);
        }
        put(&mut made, 3220, 2);

        compare.stage("every interval of an Eagle reel");
        for interval in 0..=u16::MAX {
            put(&mut made, 3216, interval);
            let (number, beside) = match interval {
                0 | 32_768.. => (4, 3216),
                _ => (0, 0),
            };
            answered(compare, &made, room, number, beside);
        }
    }
}

/// Every number in the trace header's fields that have limits, in each trace.
fn trace_numbers(compare: &mut Comparison, random: &mut Random) {
    compare.stage("every number in fields 115, 117, 69 and 71 of Eagle reels");
    let shape = Shape::new(1, 2, 3);
    let room = shape.record_length();
    let mut made = eagle(random, shape, Words::Random);
    for (offset, number) in [(114, 7), (116, 8), (68, 18), (70, 18)] {
        let places = (0..shape.traces).map(|index| trace(shape, index) + offset);
        let values = places.flat_map(|place| (0..=u16::MAX).map(move |value| (place, value)));
        for (place, value) in values {
            let before = [made[place], made[place + 1]];
            put(&mut made, place, value);
            let allowed = match offset {
                114 => [0, 2].contains(&value),
                116 => [0, shape.interval].contains(&value),
                _ => matches!(
                    (value as i16).unsigned_abs(),
                    0 | 1 | 10 | 100 | 1_000 | 10_000
                ),
            };
            let (number, beside) = if allowed { (0, 0) } else { (number, place) };
            answered(compare, &made, room, number, beside);
            made[place..place + 2].copy_from_slice(&before);
        }
    }
}

/// A fault of an Eagle reel: its number and place.
#[derive(Clone, Copy)]
struct Fault {
    number: u64,
    place: usize,
    bytes: [u8; 2],
}

/// The faults of a reel that stand in two bytes, in the order in which they count.
fn faults_of(shape: Shape) -> Vec<Fault> {
    let fault = |number, place, bytes| Fault {
        number,
        place,
        bytes,
    };
    let mut faults = vec![
        fault(2, 3224, [0, 2]),
        fault(2, 3224, [0, 5]),
        fault(3, 3220, [0, 0]),
        fault(4, 3216, [0x80, 0]),
    ];
    for index in 0..shape.traces {
        let place = trace(shape, index);
        faults.extend([
            fault(7, place + 114, [0, 77]),
            fault(8, place + 116, [0, 77]),
            fault(18, place + 68, [0, 77]),
            fault(18, place + 70, [0, 77]),
            fault(20, end(shape, index), [0xFF, 0]),
            fault(20, end(shape, index), [0, 0xFF]),
            fault(20, end(shape, index), [0x12, 0x34]),
        ]);
    }
    faults
}

/// Several faults at once: the first counts. A reel cut short or with bytes behind it has 5 after 2 to 4
/// and before all of the traces'.
fn faults(compare: &mut Comparison, random: &mut Random) {
    compare.stage("two faults of an Eagle reel at once");
    for (samples, traces) in [(2, 3), (1, 1), (20, 4)] {
        let shape = Shape::new(1, samples, traces);
        let whole = eagle(random, shape, Words::Random);
        let faults = faults_of(shape);
        let length = shape.record_length();
        for (first, one) in faults.iter().enumerate() {
            for other in &faults[first..] {
                let mut made = whole.clone();
                for fault in [other, one] {
                    made[fault.place..fault.place + 2].copy_from_slice(&fault.bytes);
                }
                for room in [0, length - 1, length] {
                    answered(compare, &made, room, one.number, one.place);
                }
                let of_header = one.number < 5;
                let cut = 1 + random.below(whole_length(shape) - 1);
                for (length, behind) in [
                    (whole.len() - cut, trace(shape, traces - 1)),
                    (whole.len() + cut, trace(shape, traces)),
                ] {
                    let mut made = made.clone();
                    made.resize(length, 0xFF);
                    let (number, beside) = if of_header {
                        (one.number, one.place)
                    } else {
                        (5, behind)
                    };
                    answered(compare, &made, shape.record_length(), number, beside);
                }
            }
        }
    }

    compare.stage("many faults of an Eagle reel at once");
    for _ in 0..50_000 {
        let shape = Shape::new(1, 1 + random.below(5), 1 + random.below(5));
        let mut made = eagle(random, shape, Words::Random);
        let faults = faults_of(shape);
        let mut chosen: Vec<usize> = (0..1 + random.below(6))
            .map(|_| random.below(faults.len()))
            .collect();
        chosen.sort_unstable();
        for &index in chosen.iter().rev() {
            let Fault { place, bytes, .. } = faults[index];
            made[place..place + 2].copy_from_slice(&bytes);
        }
        let first = faults[chosen[0]];
        let room = random.below(shape.record_length() + 50);
        answered(compare, &made, room, first.number, first.place);
    }
}

/// One trace of each N up to 8,000 and of some above, and some of several.
fn every_count_of_samples(compare: &mut Comparison, random: &mut Random) {
    compare.stage("an Eagle reel of every N");
    for samples in (1..=8_000).chain((8_001..32_767).step_by(97)) {
        let traces = if samples % 16 == 0 { 3 } else { 1 };
        let shape = Shape::new(1, samples, traces);
        let mut made = vec![0; trace(shape, traces)];
        random.fill(&mut made);
        put(&mut made, 3216, shape.interval);
        put(&mut made, 3220, samples as u16);
        put(&mut made, 3224, 1);
        for index in 0..traces {
            let place = trace(shape, index);
            made[place + 68..place + 72].fill(0);
            put(&mut made, place + 114, random.pick(&[0, samples as u16]));
            put(&mut made, place + 116, random.pick(&[0, shape.interval]));
            put(&mut made, end(shape, index), 0xFFFF);
        }
        let (read, record) = taken(compare, &made, shape);
        if samples % 16 == 0 {
            as_a_plain_reel(compare, &made, shape, read, &record);
        }
        let byte = end(shape, random.below(traces)) + random.below(2);
        made[byte] ^= 1 << random.below(8);
        compare.read_eagle(&made, shape.record_length());
        compare.read_eagle(&made[..byte], shape.record_length());
    }
}

/// Words that are not normal, at known samples; those in trailers don't count.
fn counts(compare: &mut Comparison, random: &mut Random) {
    compare.stage("words that aren't normal on Eagle reels");
    for traces in WHICH {
        for samples in WHICH {
            for _ in 0..100 {
                let shape = Shape::new(1, 1 + random.below(40), 1 + random.below(4));
                let (plain, count) = reel_of(random, shape, traces, samples);
                let made = with_trailers(random, &plain, shape);
                let (answer, _) = taken(compare, &made, shape);
                if answer.not_normal != count {
                    compare.differs("words of an Eagle reel are counted otherwise", || {
                        println!("{count} of them: {answer:?}");
                        print_input(&made, &[]);
                    });
                }
                let length = shape.record_length();
                answered(compare, &made, random.below(length), 10, length);
            }
        }
    }
}

/// The plain reel without trailers and check has the same answer and the same record. The record written
/// under code 1 is a plain reel of that record too, and so is the Eagle reel of that.
pub fn as_a_plain_reel(
    compare: &mut Comparison,
    made: &[u8],
    shape: Shape,
    read: ReelAnswer,
    record: &[u8],
) {
    let plain = without_trailers(made, shape);
    let answer = compare.read_reel(&plain, record.len());
    if answer != read || compare.written(answer) != record {
        compare.differs(
            "an Eagle reel and its plain reel have different records",
            || {
                println!("Eagle: {read:?}\nplain: {answer:?}");
                print_input(made, &[]);
            },
        );
    }
    let written = write_and_read_again(compare, record, 1, plain.len()).expect("its own code");
    words_come_back(compare, &plain, read, &written);
    let mut random = Random::seeded(read.length);
    let again = with_trailers(&mut random, &written, shape);
    same_record(compare, &again, shape, record);
}

/// The kinds of damage lead to each cause but 6; two put another valid N and other bytes of a trailer.
const DAMAGES: usize = 12;

/// Damages an Eagle reel in one way. What an earlier damage has cut off can't be damaged any more.
fn damage(random: &mut Random, kind: usize, shape: Shape, made: &mut Vec<u8>) {
    if kind == 0 {
        made.truncate(random.below(3601));
    }
    if made.len() < 3600 {
        return;
    }
    let place = trace(shape, random.below(shape.traces.max(1)));
    let behind = place + whole_length(shape);
    let traces = behind <= made.len();
    match kind {
        1 => {
            let bad = bad_code(random) as u16;
            put(made, 3224, random.pick(&[2, 3, 4, 5, 8, 0x0101, bad]));
        }
        2 => put(made, 3220, random.pick(&[0, 32_768, 32_769, 65_535])),
        3 => put(made, 3216, random.pick(&[0, 32_768, 65_535])),
        4 => {
            let cut = 1 + random.below(made.len() - 3600 + 1);
            made.truncate((made.len() - cut).max(3600));
        }
        5 => {
            let most = random.pick(&[1, 4, 240, 960, 1204]);
            let added = 1 + random.below(most);
            made.resize(made.len() + added, random.pick(&[0x00, 0xFF]));
        }
        6 if traces => put(
            made,
            place + 114,
            other_number(random, shape.samples as u16),
        ),
        7 if traces => put(made, place + 116, other_number(random, shape.interval)),
        8 if traces => damage_scalar(random, &mut made[place..]),
        9 if traces => made[behind - 1 - random.below(2)] ^= 1 << random.below(8),
        10 => {
            let most = random.pick(&[2, 20, 8_000, 32_767]);
            put(made, 3220, 1 + random.below(most) as u16);
        }
        11 if traces => random.fill(&mut made[behind - TRAILER..behind - 2]),
        _ => {}
    }
}

/// Reels of any shape, valid and damaged, under either call.
fn any_reels(compare: &mut Comparison, random: &mut Random) {
    compare.stage("Eagle reels, valid and damaged");
    let mut valid = 0;
    for turn in 0..90_000 {
        let most = if turn % 500 == 0 { 32_767 } else { 200 };
        let shape = Shape {
            code: 1,
            ..Shape::any(random, most)
        };
        let words = random.pick(&ALL_WORDS);
        let mut made = eagle(random, shape, words);
        let damages = random.pick(&[0, 0, 1, 1, 1, 2, 3, 5]);
        for _ in 0..damages {
            let kind = random.below(DAMAGES);
            damage(random, kind, shape, &mut made);
        }
        let length = shape.record_length();
        for room in [
            0,
            random.below(length),
            length - 1,
            length + random.below(300),
        ] {
            compare.read_eagle(&made, room);
        }
        compare.read_reel(&made, length + 5_000);
        if damages == 0 {
            let (read, record) = taken(compare, &made, shape);
            as_a_plain_reel(compare, &made, shape, read, &record);
            random.fill(&mut made[CHECK]);
            random.fill(&mut made[3260..3600]);
            for index in 0..shape.traces {
                let place = trace(shape, index);
                random.fill(&mut made[place + 180..place + 240]);
                let end = end(shape, index);
                made[end + 2 - TRAILER..end + 2].copy_from_slice(&trailer(random));
            }
            same_record(compare, &made, shape, &record);
            valid += 1;
        }
    }
    if valid < 20_000 {
        compare.differs("few Eagle reels are undamaged", || println!("{valid}"));
    }

    compare.stage("plain reels under the call for Eagle reels");
    for _ in 0..20_000 {
        let mut shape = Shape::any(random, 300);
        shape.traces *= random.pick(&[1, 1, 5]);
        let made = reel(random, shape, Words::Random);
        let answer = compare.read_eagle(&made, shape.record_length());
        if shape.code != 1 && (answer.number, answer.beside) != (2, 3224) {
            compare.differs("a code other than 1 is not refused", || {
                println!("code {}: {answer:?}", shape.code);
            });
        }
    }
}

/// Bytes that both calls take: as many as some Eagle traces and some plain traces of one N have. Fields
/// 69, 71, 115 and 117 of the traces of either layout are 00, which each takes. Only where FFFF stands in
/// a plain trace's field 115 or 117 the plain call refuses them.
fn both_layouts(compare: &mut Comparison, random: &mut Random) {
    compare.stage("bytes of Eagle traces that are plain traces as well");
    let mut both = 0;
    for samples in 1..=32_767 {
        let shape = Shape::new(1, samples, 0);
        let (plain_length, eagle_length) = (shape.trace_length(), whole_length(shape));
        let common = greatest_divisor(plain_length, eagle_length);
        let eagle_shape = Shape {
            traces: plain_length / common,
            ..shape
        };
        let plain_shape = Shape {
            traces: eagle_length / common,
            ..shape
        };
        let bytes = eagle_shape.traces * eagle_length;
        if bytes > 60_000 && samples % 100 != 0 || bytes > 1_000_000 {
            continue;
        }
        for turn in 0..if bytes < 10_000 { 200 } else { 2 } {
            let mut made = reel(random, shape, Words::Random);
            made.resize(3600 + bytes, 0);
            if turn > 0 {
                random.fill(&mut made[3600..]);
            }
            let plain_traces = (0..plain_shape.traces).map(|index| plain_shape.trace(index));
            let eagle_traces = (0..eagle_shape.traces).map(|index| trace(eagle_shape, index));
            for place in plain_traces.chain(eagle_traces) {
                made[place + 68..place + 72].fill(0);
                made[place + 114..place + 118].fill(0);
            }
            for index in 0..eagle_shape.traces {
                put(&mut made, end(eagle_shape, index), 0xFFFF);
            }
            let (_, record) = taken(compare, &made, eagle_shape);
            let answer = compare.read_reel(&made, plain_shape.record_length());
            if answer.number == 0 {
                let lengths = (answer.traces as usize, answer.length as usize);
                if lengths != (plain_shape.traces, plain_shape.record_length())
                    || compare.written(answer) == record
                {
                    compare.differs("bytes of both layouts are one reel under both", || {
                        println!("{answer:?}");
                        print_input(&made, &[]);
                    });
                }
                both += 1;
            } else if ![7, 8].contains(&answer.number) {
                compare.differs("bytes of both layouts have another cause", || {
                    println!("{answer:?}");
                    print_input(&made, &[answer.beside]);
                });
            }
            let byte = end(eagle_shape, random.below(eagle_shape.traces)) + random.below(2);
            made[byte] ^= 1 << random.below(8);
            compare.read_eagle(&made, eagle_shape.record_length());
            compare.read_reel(&made, plain_shape.record_length());
        }
    }
    if both < 1_000 {
        compare.differs("few bytes are a reel of either layout", || {
            println!("{both}")
        });
    }
}

/// The greatest number that divides both.
fn greatest_divisor(a: usize, b: usize) -> usize {
    match b {
        0 => a,
        _ => greatest_divisor(b, a % b),
    }
}

/// Reels of the most traces, and one more: 120 million bytes, of which only the ends of the trailers and
/// some others aren't 00.
pub fn long_reels(compare: &mut Comparison) {
    let mut random = Random::seeded(20);
    compare.stage("Eagle reels of 100,000 traces and more");
    let shape = Shape::new(1, 1, 100_000);
    let room = shape.record_length();
    let behind = trace(shape, 100_000);
    let mut made = vec![0; behind + whole_length(shape) + 1];
    let headers = reel(&mut random, Shape { traces: 0, ..shape }, Words::Random);
    made[..3600].copy_from_slice(&headers);
    for trace in made[3600..].chunks_exact_mut(whole_length(shape)) {
        let (front, end) = trace.split_at_mut(whole_length(shape) - 2);
        random.fill(&mut front[..8]);
        random.fill(&mut front[240..252]);
        end.fill(0xFF);
    }
    let length = behind + whole_length(shape);
    let (read, record) = taken(compare, &made[..behind], shape);
    as_a_plain_reel(compare, &made[..behind], shape, read, &record);
    answered(compare, &made[..behind], room - 1, 10, room);
    answered(compare, &made[..behind - 1], room, 5, trace(shape, 99_999));
    answered(compare, &made[..length], room + 192, 6, behind);
    answered(compare, &made, room + 192, 5, length);
    made[behind - 1] = 0;
    answered(compare, &made[..behind], room, 20, behind - 2);
    answered(compare, &made[..length], room + 192, 6, behind);
}
