//! Boxes of reels: of every code, with reels without traces anywhere, with one fault at every reel and trace,
//! with every two faults, with lists that don't add up, with numbers at the ends of 32 bits, and with any
//! damage.

use crate::compare::{print_box, Comparison};
use crate::library::BoxAnswer;
use crate::random::Random;
use crate::reels::{damage, put, reel, Shape, Words, DAMAGES};
use crate::samples::{bad_code, no_value, CODES};

/// Places on a reel: line, reel number, interval, N and code.
const LINE: usize = 3_204;
const REEL_NUMBER: usize = 3_208;
const INTERVAL: usize = 3_216;
const COUNT: usize = 3_220;
const CODE: usize = 3_224;

/// The numbers that the runs of a box start with, and its line.
#[derive(Clone, Copy)]
struct Start {
    line: i32,
    reel: i32,
    trace: i32,
}

impl Start {
    fn any(random: &mut Random) -> Start {
        Start {
            line: any_number(random),
            reel: any_number(random).min(i32::MAX - 10),
            trace: any_number(random).min(i32::MAX - 100),
        }
    }
}

/// A number of 32 bits, often a small one or one near an end.
fn any_number(random: &mut Random) -> i32 {
    match random.below(4) {
        0 => random.between(-3, 3),
        1 => random.pick(&[
            i32::MIN,
            i32::MIN + 1,
            i32::MAX - 1,
            i32::MAX,
            255,
            256,
            65_535,
        ]),
        2 => random.between(1, 2_000),
        _ => random.next() as i32,
    }
}

/// The reels of a box, and what each is like.
#[derive(Clone)]
struct Made {
    shapes: Vec<Shape>,
    reels: Vec<Vec<u8>>,
}

impl Made {
    /// A box that is taken where no run goes over its end; there it wraps. All else on the reels is of any
    /// kind.
    fn new(random: &mut Random, shapes: &[Shape], start: Start) -> Made {
        let mut trace = start.trace;
        let mut reels = Vec::new();
        for (index, &shape) in shapes.iter().enumerate() {
            let words = random.pick(&[Words::Random, Words::Structured, Words::Whole]);
            let mut made = reel(random, shape, words);
            put4(&mut made, LINE, start.line);
            put4(
                &mut made,
                REEL_NUMBER,
                start.reel.wrapping_add(index as i32),
            );
            put_traces(&mut made, shape, trace);
            trace = trace.wrapping_add(shape.traces as i32);
            reels.push(made);
        }
        Made {
            shapes: shapes.to_vec(),
            reels,
        }
    }

    fn slice(&self) -> Vec<u8> {
        self.reels.concat()
    }

    fn lengths(&self) -> Vec<u64> {
        self.reels.iter().map(|reel| reel.len() as u64).collect()
    }

    fn traces(&self) -> u64 {
        self.shapes.iter().map(|shape| shape.traces as u64).sum()
    }

    /// The place in the slice at which a reel begins.
    fn start(&self, index: usize) -> usize {
        self.reels[..index].iter().map(Vec::len).sum()
    }

    fn checked(&self, compare: &mut Comparison) -> BoxAnswer {
        compare.check_box(&self.slice(), &self.lengths())
    }

    /// The first reel behind this one that has traces.
    fn next_with_traces(&self, index: usize) -> Option<usize> {
        (index + 1..self.shapes.len()).find(|&next| self.shapes[next].traces > 0)
    }
}

fn put4(bytes: &mut [u8], place: usize, number: i32) {
    bytes[place..place + 4].copy_from_slice(&number.to_be_bytes());
}

fn number4(bytes: &[u8], place: usize) -> i32 {
    i32::from_be_bytes(bytes[place..place + 4].try_into().expect("four bytes"))
}

/// Numbers the traces of a reel, in the line from this number on.
fn put_traces(made: &mut [u8], shape: Shape, first: i32) {
    for index in 0..shape.traces {
        let place = shape.trace(index);
        put4(made, place, first.wrapping_add(index as i32));
        put4(made, place + 4, index as i32 + 1);
    }
}

/// So many reels of one N and one interval, with any codes and at most so many traces.
fn some_shapes(random: &mut Random, reels: usize, most_traces: usize) -> Vec<Shape> {
    let like = Shape::any(random, 12);
    (0..reels)
        .map(|_| Shape {
            code: random.pick(&CODES),
            traces: random.below(most_traces + 1),
            ..like
        })
        .collect()
}

/// Ends the run where an answer isn't what it has to be.
fn must(
    compare: &Comparison,
    holds: bool,
    what: &str,
    slice: &[u8],
    lengths: &[u64],
    got: BoxAnswer,
) {
    if !holds {
        compare.differs(&format!("{what}, from both"), || {
            println!("{got:?}");
            print_box(slice, lengths, &[got.beside]);
        });
    }
}

/// The box is taken with its counts.
fn taken(compare: &mut Comparison, made: &Made) {
    let got = made.checked(compare);
    let wanted = BoxAnswer {
        number: 0,
        reels: made.reels.len() as u64,
        traces: made.traces(),
        beside: 0,
    };
    let (slice, lengths) = (made.slice(), made.lengths());
    must(
        compare,
        got == wanted,
        "a box to be taken",
        &slice,
        &lengths,
        got,
    );
}

/// The slice and the list are refused so.
fn refused(compare: &mut Comparison, slice: &[u8], lengths: &[u64], number: u64, beside: u64) {
    let got = compare.check_box(slice, lengths);
    let wanted = BoxAnswer {
        number,
        reels: 0,
        traces: 0,
        beside,
    };
    let what = format!("number {number} beside {beside}");
    must(compare, got == wanted, &what, slice, lengths, got);
}

/// What is done to a reel.
#[derive(Clone)]
enum Change {
    Bytes(usize, Vec<u8>),
    /// Cut, or with 00 behind it.
    Length(usize),
    /// Another reel in its place.
    Reel(Vec<u8>),
}

/// A fault: what is done to which reel, and the cause that this alone comes to, of a reel and beside it the
/// place on that reel, or its length for number 1.
#[derive(Clone)]
struct Fault {
    reel: usize,
    change: Change,
    number: u64,
    found: usize,
    beside: usize,
}

impl Fault {
    /// What stands behind an earlier cut can't be changed any more.
    fn put_on(&self, made: &mut Made) {
        let reel = &mut made.reels[self.reel];
        match &self.change {
            Change::Bytes(place, bytes) => {
                if let Some(room) = reel.get_mut(*place..place + bytes.len()) {
                    room.copy_from_slice(bytes);
                }
            }
            Change::Length(length) => reel.resize(*length, 0),
            Change::Reel(other) => *reel = other.clone(),
        }
    }
}

/// A number of 32 bits other than the one that is there, often near it or of nearly the same bytes.
fn other_number4(random: &mut Random, number: i32) -> i32 {
    let other = match random.below(8) {
        0 => number.wrapping_add(1),
        1 => number.wrapping_sub(1),
        2 => number ^ i32::MIN,
        3 => number ^ 1 << random.below(32),
        4 => number.swap_bytes(),
        5 => number.wrapping_neg(),
        6 => random.pick(&[0, 1, 2, i32::MIN, i32::MAX]),
        _ => random.next() as i32,
    };
    if other == number {
        number.wrapping_add(1)
    } else {
        other
    }
}

/// All faults of a box, each kind at every reel and at every trace.
fn faults(random: &mut Random, made: &Made) -> Vec<Fault> {
    let mut faults = Vec::new();
    for index in 0..made.reels.len() {
        own_faults(random, made, index, &mut faults);
        broken_rules(random, made, index, &mut faults);
    }
    faults
}

/// The faults of 1 to 5, 7 to 9, 18 and 19 on a reel.
fn own_faults(random: &mut Random, made: &Made, index: usize, faults: &mut Vec<Fault>) {
    let (shape, length) = (made.shapes[index], made.reels[index].len());
    let mut put = |change: Change, number: u64, beside: usize| {
        faults.push(Fault {
            reel: index,
            change,
            number,
            found: index,
            beside,
        })
    };
    let two = |place: usize, number: u16| Change::Bytes(place, number.to_be_bytes().to_vec());

    for short in [0, random.below(3_600), 3_599] {
        put(Change::Length(short), 1, short);
    }
    let code = loop {
        let code = bad_code(random) as u16;
        if !CODES.contains(&u32::from(code)) {
            break code;
        }
    };
    put(two(CODE, code), 2, CODE);
    put(two(COUNT, 0), 3, COUNT);
    put(two(COUNT, random.pick(&[32_768, 65_535])), 3, COUNT);
    put(two(INTERVAL, 0), 4, INTERVAL);
    put(two(INTERVAL, random.pick(&[32_768, 65_535])), 4, INTERVAL);
    put(Change::Length(length + 1), 5, length);
    put(Change::Length(length + 239), 5, length);
    if shape.traces > 0 {
        put(Change::Length(length - 1), 5, shape.trace(shape.traces - 1));
    }
    for trace in 0..shape.traces {
        let place = shape.trace(trace);
        put(two(place + 114, shape.samples as u16 + 1), 7, place + 114);
        put(two(place + 116, shape.interval ^ 0x8000), 8, place + 116);
        put(two(place + 68, 11), 18, place + 68);
        put(two(place + 70, 0xFFFE), 18, place + 70);
        for sample in [0, shape.samples - 1] {
            let word = place + 240 + sample * shape.width();
            match shape.code {
                4 => {
                    let first = vec![1 << random.below(8)];
                    put(Change::Bytes(word, first), 9, word);
                }
                5 => put(Change::Bytes(word, no_value(random).to_vec()), 19, word),
                _ => {}
            }
        }
    }
}

/// The faults of 22 on a reel. Where the first reel has another line, interval, N or number, and where the
/// first trace has another number in the line, the next one breaks the rule.
fn broken_rules(random: &mut Random, made: &Made, index: usize, faults: &mut Vec<Fault>) {
    let (shape, reel) = (made.shapes[index], &made.reels[index]);
    let mut put = |change: Change, found: usize, beside: usize| {
        faults.push(Fault {
            reel: index,
            change,
            number: 22,
            found,
            beside,
        })
    };
    let other = |random: &mut Random, place: usize| {
        let number = other_number4(random, number4(reel, place));
        Change::Bytes(place, number.to_be_bytes().to_vec())
    };

    // The reel on which the rule is then broken, if there is any.
    let found = if index == 0 { 1 } else { index };
    if found < made.reels.len() {
        put(other(random, LINE), found, LINE);
        put(other(random, REEL_NUMBER), found, REEL_NUMBER);
        let mut rebuilt = |shape: Shape| {
            let mut again = crate::reels::reel(random, shape, Words::Whole);
            again[LINE..LINE + 8].copy_from_slice(&reel[LINE..LINE + 8]);
            if shape.traces > 0 {
                put_traces(&mut again, shape, number4(reel, 3_600));
            }
            Change::Reel(again)
        };
        let interval = if shape.interval == 1 {
            2
        } else {
            shape.interval - 1
        };
        put(rebuilt(Shape { interval, ..shape }), found, INTERVAL);
        let samples = shape.samples + 1;
        put(rebuilt(Shape { samples, ..shape }), found, COUNT);
    }
    let none_before = made.shapes[..index].iter().all(|shape| shape.traces == 0);
    for trace in 0..shape.traces {
        let place = shape.trace(trace);
        put(other(random, place + 4), index, place + 4);
        if trace > 0 || !none_before {
            put(other(random, place), index, place);
        } else if shape.traces > 1 {
            put(other(random, place), index, shape.trace(1));
        } else if let Some(next) = made.next_with_traces(index) {
            put(other(random, place), next, 3_600);
        }
    }
}

/// Lists of a box's lengths that don't add up: by one at every length, with one left out, one doubled and
/// one more, and with sums that are the slice's length over 2^64.
fn wrong_lists(random: &mut Random, lengths: &[u64]) -> Vec<Vec<u64>> {
    let mut lists = Vec::new();
    for index in 0..lengths.len() {
        for length in [lengths[index] - 1, lengths[index] + 1, !lengths[index], 0] {
            let mut list = lengths.to_vec();
            list[index] = length;
            lists.push(list);
        }
        let mut list = lengths.to_vec();
        list.remove(index);
        lists.push(list);
        let mut list = lengths.to_vec();
        list.insert(index, lengths[index]);
        lists.push(list);
    }
    for index in 0..=lengths.len() {
        for more in [1, 3_600, u64::MAX, random.next() | 1] {
            let mut list = lengths.to_vec();
            list.insert(index, more);
            lists.push(list.clone());
            let rest = random.below(list.len() + 1);
            list.insert(rest, more.wrapping_neg());
            lists.push(list);
        }
        let mut list = lengths.to_vec();
        for _ in 0..random.pick(&[2, 4]) {
            list.insert(index, 1 << 63);
        }
        lists.push(list);
    }
    let sum: u64 = lengths.iter().sum();
    for count in 2..6 {
        let mut list: Vec<u64> = (1..count).map(|_| random.next() | 1 << 63).collect();
        let rest = list.iter().fold(sum, |rest, &next| rest.wrapping_sub(next));
        list.insert(random.below(count), rest);
        lists.push(list);
    }
    lists
}

pub fn boxes(compare: &mut Comparison) {
    let mut random = Random::seeded(24);
    of_every_code(compare, &mut random);
    without_traces(compare, &mut random);
    lists(compare, &mut random);
    one_fault(compare, &mut random);
    two_faults(compare, &mut random);
    ends_of_numbers(compare, &mut random);
    every_byte(compare, &mut random);
    any_boxes(compare, &mut random);
}

/// Every two codes side by side, and all six; each front and each back of a box is a box.
fn of_every_code(compare: &mut Comparison, random: &mut Random) {
    compare.stage("boxes of every code");
    refused(compare, &[0], &[], 21, 0);
    for one in CODES {
        for other in CODES {
            for traces in 0..9 {
                let samples = 1 + random.below(9);
                let shapes = [one, other, one].map(|code| Shape::new(code, samples, traces / 3));
                let start = Start::any(random);
                taken(compare, &Made::new(random, &shapes, start));
            }
        }
    }
    for turn in 0..600 {
        let mut shapes = some_shapes(random, turn % 7, 4);
        for (shape, code) in shapes.iter_mut().zip(CODES) {
            if turn % 2 == 0 {
                shape.code = code;
            }
        }
        let start = Start::any(random);
        let made = Made::new(random, &shapes, start);
        taken(compare, &made);
        for index in 0..=shapes.len() {
            let front = Made {
                shapes: shapes[..index].to_vec(),
                reels: made.reels[..index].to_vec(),
            };
            let back = Made {
                shapes: shapes[index..].to_vec(),
                reels: made.reels[index..].to_vec(),
            };
            taken(compare, &front);
            taken(compare, &back);
        }
    }
}

/// Up to six reels with traces or without in every pattern: the run goes on, and where the first trace behind
/// a reel without traces has any other number, it is broken there.
fn without_traces(compare: &mut Comparison, random: &mut Random) {
    compare.stage("boxes with reels without traces");
    for count in 1..=6 {
        for pattern in 0..1u32 << count {
            for turn in 0..6 {
                let mut shapes = some_shapes(random, count, 3);
                for (index, shape) in shapes.iter_mut().enumerate() {
                    shape.traces = if pattern >> index & 1 == 0 {
                        0
                    } else {
                        1 + random.below(2)
                    };
                }
                let mut start = Start::any(random);
                if turn == 0 {
                    start.trace = 1;
                }
                let made = Made::new(random, &shapes, start);
                taken(compare, &made);
                other_first_traces(compare, random, &made);
                for fault in faults(random, &made) {
                    if shapes[fault.reel].traces == 0 {
                        one_fault_is_found(compare, &made, &fault);
                    }
                }
            }
        }
    }
}

/// The run starts anew on a reel, or skips as many numbers as there are reels without traces before, and so
/// on.
fn other_first_traces(compare: &mut Comparison, random: &mut Random, made: &Made) {
    let mut none_before = true;
    for (index, shape) in made.shapes.iter().enumerate() {
        if shape.traces == 0 {
            continue;
        }
        let right = number4(&made.reels[index], 3_600);
        let others = [1, 0, -1, 2, 3, 4].map(|by: i32| right.wrapping_add(by));
        let first = others.into_iter().chain([0, 1, random.next() as i32]);
        for other in first.filter(|&other| other != right) {
            let mut again = made.clone();
            put_traces(&mut again.reels[index], *shape, other);
            let got = again.checked(compare);
            if !none_before {
                let beside = (again.start(index) + 3_600) as u64;
                let holds = (got.number, got.beside) == (22, beside);
                let (slice, lengths) = (again.slice(), again.lengths());
                must(
                    compare,
                    holds,
                    "a run broken at a reel",
                    &slice,
                    &lengths,
                    got,
                );
            }
        }
        none_before = false;
    }
}

/// Lists that don't add up, and lists that do and part the slice elsewhere.
fn lists(compare: &mut Comparison, random: &mut Random) {
    compare.stage("lists of a box");
    for turn in 0..400 {
        let shapes = some_shapes(random, turn % 5, 2);
        let start = Start::any(random);
        let made = Made::new(random, &shapes, start);
        let (slice, lengths) = (made.slice(), made.lengths());
        for list in wrong_lists(random, &lengths) {
            let sum: u128 = list.iter().map(|&length| u128::from(length)).sum();
            if sum == slice.len() as u128 {
                compare.check_box(&slice, &list);
            } else {
                refused(compare, &slice, &list, 21, 0);
            }
        }
        for index in 1..lengths.len() {
            for by in [1, 239, 240, 3_600, random.below(4_000) as u64] {
                let mut list = lengths.clone();
                (list[index - 1], list[index]) =
                    (list[index - 1] + by, list[index].saturating_sub(by));
                compare.check_box(&slice, &list);
                let mut list = lengths.clone();
                (list[index - 1], list[index]) =
                    (list[index - 1].saturating_sub(by), list[index] + by);
                compare.check_box(&slice, &list);
            }
            let mut list = lengths.clone();
            let both = list[index - 1] + list.remove(index);
            list[index - 1] = both;
            compare.check_box(&slice, &list);
        }
        for index in 0..lengths.len() {
            let cut = random.below(lengths[index] as usize + 1) as u64;
            let mut list = lengths.clone();
            list[index] -= cut;
            list.insert(index + random.below(2), cut);
            compare.check_box(&slice, &list);
        }
        for index in 0..=lengths.len() {
            let mut list = lengths.clone();
            list.insert(index, 0);
            refused(compare, &slice, &list, 1, 0);
        }
        compare.check_box(&slice[..slice.len() / 2], &lengths);
        compare.check_box(&[], &lengths);
        compare.check_box(&slice, &[slice.len() as u64]);
    }
}

/// A box with this fault alone is refused as the fault says.
fn one_fault_is_found(compare: &mut Comparison, made: &Made, fault: &Fault) {
    let mut again = made.clone();
    fault.put_on(&mut again);
    let beside = match fault.number {
        1 => fault.beside,
        _ => again.start(fault.found) + fault.beside,
    };
    let (slice, lengths) = (again.slice(), again.lengths());
    refused(compare, &slice, &lengths, fault.number, beside as u64);
}

/// Each fault at every reel and every trace, in boxes of up to five reels.
fn one_fault(compare: &mut Comparison, random: &mut Random) {
    compare.stage("boxes with one fault");
    for turn in 0..500 {
        let shapes = some_shapes(random, 1 + turn % 5, 3);
        let start = Start::any(random);
        let made = Made::new(random, &shapes, start);
        for fault in faults(random, &made) {
            one_fault_is_found(compare, &made, &fault);
        }
    }
}

/// Every two faults, in one reel and in two, and each beside a list that doesn't add up.
fn two_faults(compare: &mut Comparison, random: &mut Random) {
    compare.stage("boxes with two faults");
    for turn in 0..27 {
        let mut shapes = some_shapes(random, 3, 2);
        for (index, shape) in shapes.iter_mut().enumerate() {
            // Codes 4 and 5 have causes of their own.
            shape.code = random.pick(&[4, 5, CODES[(turn + index) % 6]]);
            shape.samples = shape.samples.min(3);
            shape.traces = [2, 1, 0][turn / 3usize.pow(index as u32) % 3];
        }
        let samples = shapes[0].samples;
        for shape in &mut shapes {
            shape.samples = samples;
        }
        let start = Start::any(random);
        let made = Made::new(random, &shapes, start);
        let all = faults(random, &made);
        for first in &all {
            let mut one = made.clone();
            first.put_on(&mut one);
            for second in &all {
                let mut both = one.clone();
                second.put_on(&mut both);
                both.checked(compare);
            }
            let slice = one.slice();
            let lists = wrong_lists(random, &one.lengths_or_one());
            for _ in 0..4 {
                let list = &lists[random.below(lists.len())];
                compare.check_box(&slice, list);
            }
        }
    }
}

impl Made {
    /// The lengths, with 1 for a reel that has none: of it one less is a length too.
    fn lengths_or_one(&self) -> Vec<u64> {
        self.lengths()
            .into_iter()
            .map(|length| length.max(1))
            .collect()
    }
}

/// Runs that go over the end of 32 bits at every reel and at every trace, and runs that just reach it.
fn ends_of_numbers(compare: &mut Comparison, random: &mut Random) {
    compare.stage("boxes with numbers at the ends of 32 bits");
    for turn in 0..3_000 {
        let count = 1 + random.below(5);
        let mut shapes = some_shapes(random, count, 3);
        if turn % 3 == 0 {
            for shape in &mut shapes {
                shape.traces = 1 + random.below(2);
            }
        }
        let traces: usize = shapes.iter().map(|shape| shape.traces).sum();
        let before_end = |random: &mut Random, most: usize| match random.below(4) {
            0 => random.pick(&[i32::MIN, -1, 0, -(most as i32)]),
            _ => i32::MAX - random.below(most + 3) as i32,
        };
        let start = Start {
            line: random.pick(&[i32::MIN, -1, 0, i32::MAX]),
            reel: before_end(random, count),
            trace: before_end(random, traces),
        };
        let made = Made::new(random, &shapes, start);
        let fits =
            |first: i32, count: usize| i64::from(first) + count as i64 - 1 <= i64::from(i32::MAX);
        if fits(start.reel, count) && fits(start.trace, traces) {
            taken(compare, &made);
        } else {
            let got = made.checked(compare);
            let (slice, lengths) = (made.slice(), made.lengths());
            must(
                compare,
                got.number == 22,
                "a run over the end",
                &slice,
                &lengths,
                got,
            );
        }
        // Runs that stay at the end, that jump there, and fields 5 there.
        let index = random.below(count);
        let mut again = made.clone();
        let end = random.pick(&[i32::MAX, i32::MIN, i32::MAX - 1, 0, -1]);
        let place = match random.below(4) {
            0 => REEL_NUMBER,
            1 => LINE,
            _ if shapes[index].traces > 0 => {
                let trace = random.below(shapes[index].traces);
                shapes[index].trace(trace) + random.pick(&[0, 0, 4])
            }
            _ => REEL_NUMBER,
        };
        put4(&mut again.reels[index], place, end);
        again.checked(compare);
    }
}

/// Small boxes with every byte behind the cards changed, and some of the cards.
fn every_byte(compare: &mut Comparison, random: &mut Random) {
    compare.stage("small boxes with every byte changed");
    for turn in 0..9 {
        let code = random.pick(&CODES);
        let shapes =
            [code, CODES[turn % 6], code].map(|code| Shape::new(code, 2, [1, 2, 0][turn % 3]));
        let start = Start::any(random);
        let made = Made::new(random, &shapes, start);
        let (mut slice, lengths) = (made.slice(), made.lengths());
        for index in 0..shapes.len() {
            let reel = made.start(index)..made.start(index) + made.reels[index].len();
            for place in reel.clone() {
                let offset = place - reel.start;
                // Cards now and then only, and of the binary header what is assigned.
                if offset < 3_195 && offset % 101 != 0 || (3_262..3_598).contains(&offset) {
                    continue;
                }
                let whole = slice[place];
                for byte in [
                    0,
                    1,
                    0xFF,
                    whole ^ 0x80,
                    whole.wrapping_add(1),
                    random.next() as u8,
                ] {
                    slice[place] = byte;
                    compare.check_box(&slice, &lengths);
                }
                slice[place] = whole;
            }
        }
    }
}

/// Boxes of any reels with any damage: of the kinds that single reels are damaged by, in single bytes and in
/// the fields that have rules.
fn any_boxes(compare: &mut Comparison, random: &mut Random) {
    compare.stage("any boxes, valid and damaged");
    let mut numbers = [0u64; 23];
    for _ in 0..9_000 {
        let count = random.below(6);
        let shapes = some_shapes(random, count, 4);
        let start = Start::any(random);
        let made = Made::new(random, &shapes, start);
        taken(compare, &made);
        for _ in 0..20 {
            let mut again = made.clone();
            for _ in 0..random.pick(&[1, 1, 1, 2, 2, 3]) {
                if count > 0 {
                    damage_box(random, &mut again);
                }
            }
            let got = if random.once_in(12) {
                let lists = wrong_lists(random, &again.lengths_or_one());
                let list = &lists[random.below(lists.len())];
                compare.check_box(&again.slice(), list)
            } else {
                again.checked(compare)
            };
            numbers[got.number as usize] += 1;
        }
    }
    let wanted = [0, 1, 2, 3, 4, 5, 7, 8, 9, 18, 19, 21, 22];
    if wanted.iter().any(|&number| numbers[number] < 200) {
        compare.differs("too few boxes of a kind", || println!("{numbers:?}"));
    }
}

/// Damages one reel of a box, or changes two of them over.
fn damage_box(random: &mut Random, made: &mut Made) {
    let index = random.below(made.reels.len());
    let shape = made.shapes[index];
    let reel = &mut made.reels[index];
    match random.below(8) {
        0 => {
            let kind = random.below(DAMAGES);
            damage(random, kind, shape, reel);
        }
        1 => {
            let other = random.below(made.reels.len());
            made.reels.swap(index, other);
            made.shapes.swap(index, other);
        }
        2 if reel.len() > 3_600 => {
            let place = 3_600 + random.below(reel.len() - 3_600);
            reel[place] = random.next() as u8;
        }
        3 if reel.len() >= 3_600 => put(reel, INTERVAL, 1 + random.below(32_767) as u16),
        _ => {
            let place = if shape.traces > 0 && !random.once_in(3) {
                shape.trace(random.below(shape.traces)) + random.pick(&[0, 4])
            } else {
                random.pick(&[LINE, REEL_NUMBER])
            };
            if place + 4 <= reel.len() {
                let number = other_number4(random, number4(reel, place));
                put4(reel, place, number);
            }
        }
    }
}

/// Boxes of long traces, of the most traces on a reel, and of many reels.
pub fn long_boxes(compare: &mut Comparison) {
    let mut random = Random::seeded(25);
    compare.stage("boxes of long traces");
    for code in CODES {
        let shapes = [code, random.pick(&CODES), 8].map(|code| Shape::new(code, 32_767, 2));
        let start = Start::any(&mut random);
        let made = Made::new(&mut random, &shapes, start);
        taken(compare, &made);
        for fault in faults(&mut random, &made) {
            if random.once_in(3) && !matches!(fault.change, Change::Reel(_)) {
                one_fault_is_found(compare, &made, &fault);
            }
        }
    }

    compare.stage("boxes of many reels");
    for _ in 0..8 {
        let shapes = some_shapes(&mut random, 400, 2);
        let start = Start {
            reel: random.between(-500, 500),
            ..Start::any(&mut random)
        };
        let start = Start {
            trace: start.trace.min(i32::MAX - 1_000),
            ..start
        };
        let made = Made::new(&mut random, &shapes, start);
        taken(compare, &made);
        let all = faults(&mut random, &made);
        for _ in 0..12 {
            let fault = &all[random.below(all.len())];
            one_fault_is_found(compare, &made, fault);
        }
    }

    compare.stage("boxes of 100,000 traces on a reel");
    let shape = |traces| Shape::new(8, 1, traces);
    let start = Start {
        line: -1,
        reel: -1,
        trace: -100_000,
    };
    let few = [shape(3), shape(100_000), shape(0), shape(2_000)];
    let mut made = Made::new(&mut random, &few, start);
    taken(compare, &made);
    let last = shape(100_000).trace(99_999);
    for (index, place) in [(1, last), (1, last + 4), (3, 3_600), (3, 3_604)] {
        let right = number4(&made.reels[index], place);
        put4(&mut made.reels[index], place, right + 1);
        let beside = (made.start(index) + place) as u64;
        refused(compare, &made.slice(), &made.lengths(), 22, beside);
        put4(&mut made.reels[index], place, right);
    }
    // One trace more, on the second reel and on the first.
    let many = [shape(3), shape(100_001), shape(1)];
    let mut made = Made::new(&mut random, &many, start);
    for index in [1, 0] {
        let beside = (made.start(index) + shape(0).trace(100_000)) as u64;
        refused(compare, &made.slice(), &made.lengths(), 6, beside);
        made.reels.remove(0);
    }
}
