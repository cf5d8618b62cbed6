//! The order of records: pairs that differ in one item of every kind, in several that pull opposite ways,
//! in the counts of traces and in the forms of long traces; damaged records on either side or on both; and
//! sets of records of which every three are in one order.

use crate::compare::{print_records, Comparison};
use crate::library::{self, OrderAnswer};
use crate::long::{ends_of_fields, pattern, patterns};
use crate::nearest::reel_length;
use crate::random::Random;
use crate::records::{damage_in_place, damage_length, Record, DAMAGES_IN_PLACE, DAMAGES_OF_LENGTH};
use crate::reels::{put, Shape};
use crate::samples::{canonical_pair, pair, uncanonical_pair, CODES};
use std::cmp::Ordering;

/// The scalars that a record may have, rising.
const SCALARS: [i16; 9] = [-10_000, -1_000, -100, -10, 1, 10, 100, 1_000, 10_000];

/// The offsets of fields 69 and 71 in a trace header, and of the numbers that each acts on.
const GROUPS: [(usize, &[usize]); 2] =
    [(68, &[40, 44, 48, 52, 56, 60, 64]), (70, &[72, 76, 80, 84])];

/// What an item of a record is: how it is compared follows from it.
#[derive(Clone, Copy, PartialEq)]
enum Kind {
    Card,
    Number2,
    Number4,
    Scalar,
    Sample,
}

/// An item of a record that may be another, and its place.
#[derive(Clone, Copy)]
struct Item {
    place: usize,
    kind: Kind,
}

impl Item {
    fn width(self) -> usize {
        match self.kind {
            Kind::Card => 1,
            Kind::Number2 | Kind::Scalar => 2,
            Kind::Number4 => 4,
            Kind::Sample => 6,
        }
    }
}

/// The assigned fields of the binary header, by their offsets in it, without interval, N and code.
fn binary_items() -> Vec<Item> {
    let mut items: Vec<Item> = Vec::new();
    for place in [0, 4, 8] {
        items.push(Item {
            place,
            kind: Kind::Number4,
        });
    }
    for place in (12..60).step_by(2) {
        if ![16, 20, 24].contains(&place) {
            items.push(Item {
                place,
                kind: Kind::Number2,
            });
        }
    }
    items
}

/// The assigned fields of a trace header, by their offsets in it, without 115 and 117.
fn trace_items() -> Vec<Item> {
    let four = [0..28, 36..68, 72..88];
    let two = [28..36, 68..72, 88..180];
    let mut items = Vec::new();
    for range in four {
        items.extend(range.step_by(4).map(|place| Item {
            place,
            kind: Kind::Number4,
        }));
    }
    for range in two {
        items.extend(range.step_by(2).map(|place| Item {
            place,
            kind: if [68, 70].contains(&place) {
                Kind::Scalar
            } else {
                Kind::Number2
            },
        }));
    }
    items.retain(|item| ![114, 116].contains(&item.place));
    items.sort_by_key(|item| item.place);
    items
}

/// All items of a record, in the order in which they count. It is that of their places.
fn items_of(record: &Record) -> Vec<Item> {
    let moved = |by: usize| {
        move |item: Item| Item {
            place: by + item.place,
            ..item
        }
    };
    let mut items: Vec<Item> = (3..3203)
        .map(|place| Item {
            place,
            kind: Kind::Card,
        })
        .collect();
    items.extend(binary_items().into_iter().map(moved(3206)));
    for &header in &record.headers {
        items.extend(trace_items().into_iter().map(moved(header + 3)));
    }
    items.extend(record.pairs.iter().map(|&place| Item {
        place,
        kind: Kind::Sample,
    }));
    items.sort_by_key(|item| item.place);
    items
}

fn number2(bytes: &[u8]) -> i16 {
    i16::from_be_bytes(bytes.try_into().expect("two bytes"))
}

fn number4(bytes: &[u8]) -> i32 {
    i32::from_be_bytes(bytes.try_into().expect("four bytes"))
}

/// The value of a canonical pair as a 64-bit float of the host's: 31 bits and a power of two within its
/// range, so it is exact.
fn value(pair: &[u8]) -> f64 {
    f64::from(number4(&pair[2..])) * 2f64.powi(i32::from(number2(&pair[..2])))
}

/// The order of two items of a kind.
fn order_of(kind: Kind, a: &[u8], b: &[u8]) -> Ordering {
    match kind {
        Kind::Card => a[0].cmp(&b[0]),
        Kind::Number2 | Kind::Scalar => number2(a).cmp(&number2(b)),
        Kind::Number4 => number4(a).cmp(&number4(b)),
        Kind::Sample => value(a).partial_cmp(&value(b)).expect("numbers"),
    }
}

/// The canonical pair of `number` × 2^`exponent`, if there is one.
fn pair_of(number: i64, exponent: i32) -> Option<[u8; 6]> {
    if number == 0 {
        return Some(pair(0, 0));
    }
    let twos = number.trailing_zeros();
    let exponent = exponent + twos as i32;
    let mantissa = i32::try_from(number >> twos).ok()?;
    (-280..=251)
        .contains(&exponent)
        .then(|| pair(exponent as i16, mantissa))
}

/// A canonical pair beside another: out by its last bit or by a later one, of the same first bits, at
/// another exponent, with another sign, or any.
fn pair_beside(random: &mut Random, other: &[u8]) -> [u8; 6] {
    let exponent = i32::from(number2(&other[..2]));
    let mantissa = i64::from(number4(&other[2..]));
    let sign = random.pick(&[1, -1]);
    let shift = random.below(31);
    let beside = match random.below(9) {
        0 => pair_of(-mantissa, exponent),
        1 => pair_of(mantissa, exponent + sign as i32),
        2 => pair_of(mantissa, exponent + random.between(-40, 40)),
        3 => pair_of((mantissa << shift) + sign, exponent - shift as i32),
        4 => pair_of(mantissa + 2 * sign, exponent),
        5 => pair_of(mantissa ^ 1 << random.below(31), exponent),
        6 => pair_of((mantissa >> shift) + sign, exponent + shift as i32),
        7 => pair_of(sign << shift, exponent + random.between(-1, 32)),
        _ => Some(pair(0, 0)),
    };
    beside.unwrap_or_else(|| canonical_pair(random))
}

/// Another item of a kind in the place of one, or now and then the same.
fn other_item(random: &mut Random, kind: Kind, bytes: &[u8]) -> Vec<u8> {
    match kind {
        Kind::Card => {
            let any = 1 + random.below(255) as u8;
            let near = bytes[0] ^ 1 << random.below(8);
            vec![random.pick(&[any, near.max(1), 0x40, 0xFF, 0x7F, 0x80, 1])]
        }
        Kind::Number2 => {
            let number = number2(bytes);
            let any = random.next() as i16;
            let near = number.wrapping_add(random.pick(&[1, -1]));
            let bit = number ^ 1 << random.below(16);
            let edge = random.pick(&[0, 1, -1, i16::MIN, i16::MAX, 255, 256, -256]);
            let other = random.pick(&[any, near, bit, edge, number.wrapping_neg()]);
            other.to_be_bytes().to_vec()
        }
        Kind::Number4 => {
            let number = number4(bytes);
            let any = random.next() as i32;
            let near = number.wrapping_add(random.pick(&[1, -1]));
            let bit = number ^ 1 << random.below(32);
            let edge = random.pick(&[0, 1, -1, i32::MIN, i32::MAX, 65_535, 65_536, -65_536]);
            let other = random.pick(&[any, near, bit, edge, number.wrapping_neg()]);
            other.to_be_bytes().to_vec()
        }
        Kind::Scalar => random.pick(&SCALARS).to_be_bytes().to_vec(),
        Kind::Sample => {
            if random.once_in(4) {
                canonical_pair(random).to_vec()
            } else {
                pair_beside(random, bytes).to_vec()
            }
        }
    }
}

/// A record with other bytes at a place.
fn with(record: &[u8], place: usize, bytes: &[u8]) -> Vec<u8> {
    let mut record = record.to_vec();
    record[place..place + bytes.len()].copy_from_slice(bytes);
    record
}

/// Ends the run if what must hold of two records doesn't.
fn must(
    compare: &Comparison,
    holds: bool,
    what: &str,
    [first, second]: [&[u8]; 2],
    answers: &[OrderAnswer],
) {
    if !holds {
        compare.differs(what, || {
            for answer in answers {
                println!("{answer:?}");
            }
            let places: Vec<u64> = answers.iter().map(|answer| answer.beside).collect();
            print_records(first, second, &places);
        });
    }
}

/// Compares two records in both orders, and gives the answer. Where they are taken the orders are
/// opposite; where the second alone is refused, it is so as the first.
fn both(compare: &mut Comparison, first: &[u8], second: &[u8]) -> OrderAnswer {
    let there = compare.order(first, second);
    let back = compare.order(second, first);
    let holds = match there.which {
        0 => {
            let opposite = OrderAnswer {
                order: -there.order,
                ..there
            };
            back == opposite
        }
        1 => back.number != 0,
        _ => back == OrderAnswer { which: 1, ..there },
    };
    must(
        compare,
        holds,
        "the two orders of two records",
        [first, second],
        &[there, back],
    );
    there
}

/// Compares two valid records in both orders: the first is to the second as said.
fn ordered(compare: &mut Comparison, first: &[u8], second: &[u8], order: Ordering) {
    let answer = both(compare, first, second);
    let holds = answer == OrderAnswer::from(Ok(order));
    if !holds {
        println!("expected: {order:?}");
    }
    must(
        compare,
        holds,
        "two records have another order",
        [first, second],
        &[answer],
    );
}

pub fn order(compare: &mut Comparison) {
    let mut random = Random::seeded(22);
    cards(compare, &mut random);
    header_numbers(compare, &mut random);
    scalars(compare, &mut random);
    intervals_and_counts(compare, &mut random);
    samples(compare, &mut random);
    each_item(compare, &mut random);
    several_items(compare, &mut random);
    counts_of_traces(compare, &mut random);
    long_traces(compare, &mut random);
    cut_and_changed(compare, &mut random);
    damaged(compare, &mut random);
    one_fault_each(compare, &mut random);
    any_bytes(compare, &mut random);
    sets(compare, &mut random);
}

/// Every two card bytes at one place, and another byte at every place.
fn cards(compare: &mut Comparison, random: &mut Random) {
    compare.stage("the order of card bytes");
    let record = Record::valid(random, Shape::new(3, 1, 1), true).bytes;
    let place = 3 + random.below(3200);
    let (mut first, mut second) = (record.clone(), record.clone());
    for one in 1..=u8::MAX {
        first[place] = one;
        for other in 1..=u8::MAX {
            second[place] = other;
            let answer = compare.order(&first, &second);
            let holds = answer == OrderAnswer::from(Ok(one.cmp(&other)));
            let records = [&first[..], &second];
            must(compare, holds, "two card bytes", records, &[answer]);
        }
    }
    for place in 3..3203 {
        let held = record[place];
        for other in [1, held ^ 1, held ^ 0x80, 0xFF] {
            let other = other.max(1);
            let made = with(&record, place, &[other]);
            ordered(compare, &record, &made, held.cmp(&other));
        }
    }
}

/// Numbers at the edges of a field of two bytes or four.
fn edges(kind: Kind) -> Vec<Vec<u8>> {
    match kind {
        Kind::Number4 => [
            i32::MIN,
            i32::MIN + 1,
            -65_536,
            -256,
            -2,
            -1,
            0,
            1,
            255,
            256,
            65_535,
            0x7FFF_FF80,
            i32::MAX,
        ]
        .map(|number| number.to_be_bytes().to_vec())
        .to_vec(),
        _ => [
            i16::MIN,
            i16::MIN + 1,
            -256,
            -255,
            -2,
            -1,
            0,
            1,
            127,
            128,
            255,
            256,
            i16::MAX,
        ]
        .map(|number| number.to_be_bytes().to_vec())
        .to_vec(),
    }
}

/// Every two numbers at the edges in each header field that may hold any, of the binary header and of each
/// trace. The scalars are those below which there is none, so that they stay right.
fn header_numbers(compare: &mut Comparison, random: &mut Random) {
    compare.stage("the order of header numbers");
    let mut record = Record::valid(random, Shape::new(1, 2, 3), true);
    for header in &record.headers {
        for (scalar, _) in GROUPS {
            put(&mut record.bytes, header + 3 + scalar, -10_000i16 as u16);
        }
    }
    let items = items_of(&record);
    let numbers = items
        .iter()
        .filter(|item| matches!(item.kind, Kind::Number2 | Kind::Number4));
    for item in numbers {
        let edges = edges(item.kind);
        for one in &edges {
            let first = with(&record.bytes, item.place, one);
            for other in &edges {
                let second = with(&record.bytes, item.place, other);
                let order = order_of(item.kind, one, other);
                let answer = compare.order(&first, &second);
                let holds = answer == OrderAnswer::from(Ok(order));
                let records = [&first[..], &second];
                must(compare, holds, "two header numbers", records, &[answer]);
            }
        }
    }
}

/// Every two scalars in either field, over numbers so long that each is the smallest; the numbers before
/// and behind them pull either way, and scaled values any way.
fn scalars(compare: &mut Comparison, random: &mut Random) {
    compare.stage("the order of scalars");
    for (scalar, numbers) in GROUPS {
        for one in SCALARS {
            for other in SCALARS {
                for _ in 0..10 {
                    let record = Record::valid(random, Shape::new(8, 1, 2), true);
                    let header = record.headers[random.below(2)] + 3;
                    let mut first = record.bytes;
                    for &offset in numbers {
                        let number = random.pick(&[i32::MAX, i32::MIN, 214_748_365, -214_748_365]);
                        let place = header + offset;
                        first[place..place + 4].copy_from_slice(&number.to_be_bytes());
                    }
                    let mut second = first.clone();
                    put(&mut first, header + scalar, one as u16);
                    put(&mut second, header + scalar, other as u16);
                    ordered(compare, &first, &second, one.cmp(&other));

                    // A number of the group, or another, before the scalar or behind it.
                    let place = header + random.pick(&[0, 36, 40, 64, 72, 84, 88, 178]);
                    let bytes = [0x7F, 0xFF, 0xFF, 0xF0];
                    let item = first[place..place + 4].to_vec();
                    second[place..place + 4].copy_from_slice(&bytes);
                    if [0, 36, 40, 64].contains(&(place - header)) {
                        let order = order_of(Kind::Number4, &item, &bytes);
                        let order = order.then(one.cmp(&other));
                        ordered(compare, &first, &second, order);
                    } else {
                        both(compare, &first, &second);
                    }
                }
            }
        }
    }
}

/// Records whose interval or N differs, with traces and without: those numbers decide before all that
/// the traces hold.
fn intervals_and_counts(compare: &mut Comparison, random: &mut Random) {
    compare.stage("the order of intervals and N");
    let edges = [1, 2, 127, 128, 255, 256, 2_000, 8_000, 32_766, 32_767];
    let mut first = Record::valid(random, Shape::new(8, 1, 0), true).bytes;
    let mut second = first.clone();
    for place in [3206 + 16, 3206 + 20] {
        for one in edges {
            for other in edges {
                put(&mut first, place, one);
                put(&mut second, place, other);
                ordered(compare, &first, &second, one.cmp(&other));
            }
        }
        put(&mut second, place, number2(&first[place..place + 2]) as u16);
    }

    let (mut by_interval, mut by_count) = (0, 0);
    for _ in 0..10_000 {
        let seed = random.next();
        let mut made = || {
            let mut shape = Shape::any(random, 20);
            shape.interval = random.pick(&[1, 255, 256, 2_000, 32_767]);
            let record = Record::valid(&mut Random::seeded(seed), shape, true);
            (shape, record.bytes)
        };
        let [(one, first), (other, second)] = [made(), made()];
        let (interval, count) = (
            one.interval.cmp(&other.interval),
            one.samples.cmp(&other.samples),
        );
        if interval.then(count) == Ordering::Equal {
            both(compare, &first, &second);
        } else {
            ordered(compare, &first, &second, interval.then(count));
        }
        by_interval += u64::from(interval != Ordering::Equal);
        by_count += u64::from(interval == Ordering::Equal && count != Ordering::Equal);
    }
    let holds = by_interval > 1_000 && by_count > 1_000;
    must(compare, holds, "too few differ so", [&first, &second], &[]);
}

/// A normal word of code 1, read as sign and magnitude, of a pair that has one.
fn normal_word(pair: [u8; 6]) -> Option<i64> {
    let word = independent::write_pair(1, pair).ok()?;
    let bits = u32::from_be_bytes(word);
    let magnitude = i64::from(bits & 0x7FFF_FFFF);
    Some(if bits >> 31 == 1 {
        -magnitude
    } else {
        magnitude
    })
}

/// Two samples of any kinds, and near ones. Where both fit code 1 their order is that of their normal
/// words.
fn samples(compare: &mut Comparison, random: &mut Random) {
    compare.stage("the order of samples");
    let record = Record::valid(random, Shape::new(1, 1, 1), true);
    let place = record.pairs[0];
    let (mut first, mut second) = (record.bytes.clone(), record.bytes);
    let mut counts = [0; 3];
    let mut by_words = 0;
    let mut edges = vec![pair(0, 0)];
    for exponent in [-280, -279, -150, -31, -1, 0, 1, 31, 220, 250, 251] {
        for mantissa in [1, 3, 5, 0xFF_FFFF, 0x100_0001, i32::MAX - 2, i32::MAX] {
            edges.extend([pair(exponent, mantissa), pair(exponent, -mantissa)]);
        }
    }
    let every_two = edges.len() * edges.len();
    for turn in 0..every_two + 200_000 {
        let (one, other) = if turn < every_two {
            (edges[turn / edges.len()], edges[turn % edges.len()])
        } else {
            let one = canonical_pair(random);
            let other = if random.once_in(4) {
                canonical_pair(random)
            } else {
                pair_beside(random, &one)
            };
            (one, other)
        };
        first[place..place + 6].copy_from_slice(&one);
        second[place..place + 6].copy_from_slice(&other);
        let order = order_of(Kind::Sample, &one, &other);
        ordered(compare, &first, &second, order);
        counts[(order as i32 + 1) as usize] += 1;
        if let (Some(one), Some(other)) = (normal_word(one), normal_word(other)) {
            by_words += 1;
            let holds = one.cmp(&other) == order;
            must(compare, holds, "two normal words", [&first, &second], &[]);
        }
    }
    let holds = counts.iter().all(|&count| count > 1_000) && by_words > 50_000;
    if !holds {
        println!("{counts:?}, {by_words}");
    }
    must(compare, holds, "too few orders", [&first, &second], &[]);
}

/// Other items than a record's at these places, and the order of the record to what it becomes: that of
/// the first item that became another.
fn changed(random: &mut Random, record: &Record, items: &[Item]) -> (Vec<u8>, Ordering) {
    let mut made = record.bytes.clone();
    let mut order = Ordering::Equal;
    for &item in items {
        let held = item.place..item.place + item.width();
        let other = other_item(random, item.kind, &record.bytes[held.clone()]);
        order = order.then(order_of(item.kind, &record.bytes[held.clone()], &other));
        made[held].copy_from_slice(&other);
    }
    (made, order)
}

/// Compares a record with another that was made of it. It may have a scalar that isn't the smallest
/// any more: then 13 is its answer, and otherwise the order is as said. True if it is taken.
fn compared(compare: &mut Comparison, record: &Record, made: &[u8], order: Ordering) -> bool {
    let answer = both(compare, &record.bytes, made);
    let scalar = record.headers.iter().any(|header| {
        let place = answer.beside as usize;
        GROUPS
            .iter()
            .any(|(scalar, _)| header + 3 + scalar == place)
    });
    let holds = if answer.number == 0 {
        answer == OrderAnswer::from(Ok(order))
    } else {
        (answer.number, answer.which) == (13, 2) && scalar
    };
    if !holds {
        println!("expected: {order:?}");
    }
    must(
        compare,
        holds,
        "two records have another order",
        [&record.bytes, made],
        &[answer],
    );
    answer.number == 0
}

/// Records that differ in one item: each item of records of several shapes.
fn each_item(compare: &mut Comparison, random: &mut Random) {
    compare.stage("records that differ in one item");
    let (mut taken, mut all) = (0, 0);
    for (samples, traces) in [(1, 1), (2, 2), (3, 3), (20, 2), (300, 1)] {
        for _ in 0..4 {
            let shape = Shape::new(random.pick(&CODES), samples, traces);
            let fitting = random.once_in(2);
            let record = Record::valid(random, shape, fitting);
            for item in items_of(&record) {
                if item.kind == Kind::Card && !random.once_in(20) {
                    continue;
                }
                for _ in 0..4 {
                    let (made, order) = changed(random, &record, &[item]);
                    taken += u64::from(compared(compare, &record, &made, order));
                    all += 1;
                }
            }
            ordered(
                compare,
                &record.bytes,
                &record.bytes.clone(),
                Ordering::Equal,
            );
            // One and the same record may be lent twice.
            let answer = library::compare(&record.bytes, &record.bytes);
            let holds = answer == OrderAnswer::from(Ok(Ordering::Equal));
            let records = [&record.bytes[..], &record.bytes];
            must(compare, holds, "one record lent twice", records, &[answer]);
        }
    }
    let holds = 10 * taken > 9 * all;
    must(compare, holds, "too few are taken", [&[], &[]], &[]);
}

/// Any items of a record, in their order, of the kinds alike often.
fn some_items(random: &mut Random, items: &[Item], count: usize) -> Vec<Item> {
    let (cards, others): (Vec<Item>, Vec<Item>) =
        items.iter().partition(|item| item.kind == Kind::Card);
    let mut chosen: Vec<Item> = (0..count)
        .map(|_| {
            let from = if random.once_in(6) { &cards } else { &others };
            random.pick(from)
        })
        .collect();
    chosen.sort_by_key(|item| item.place);
    chosen.dedup_by_key(|item| item.place);
    chosen
}

/// Records that differ in several items: the first decides, whatever the later ones are. Those that are
/// equal have one reel, and no others.
fn several_items(compare: &mut Comparison, random: &mut Random) {
    compare.stage("records that differ in several items");
    let mut counts = [0; 3];
    for _ in 0..2_500 {
        let shape = Shape::any(random, 40);
        let record = Record::valid(random, shape, true);
        let items = items_of(&record);
        for _ in 0..30 {
            let count = random.pick(&[0, 1, 2, 2, 3, 4, 6, 10]);
            let chosen = some_items(random, &items, count);
            let (made, order) = changed(random, &record, &chosen);
            if compared(compare, &record, &made, order) {
                counts[(order as i32 + 1) as usize] += 1;
            }
        }
    }
    let holds = counts.iter().all(|&count| count > 500);
    if !holds {
        println!("{counts:?}");
    }
    must(compare, holds, "too few orders", [&[], &[]], &[]);

    compare.stage("records and their reels");
    let (mut alike, mut others) = (0, 0);
    for _ in 0..5_000 {
        let shape = Shape::any(random, 8);
        let record = Record::valid(random, shape, true);
        let items = items_of(&record);
        let chosen = some_items(random, &items, 1);
        let (mut made, mut order) = changed(random, &record, &chosen);
        if random.once_in(8) {
            (made, order) = (record.bytes.clone(), Ordering::Equal);
        }
        if !compared(compare, &record, &made, order) {
            continue;
        }
        let length = reel_length(shape.code, shape);
        let answer = compare.write_reel(&record.bytes, shape.code, length);
        let reel = compare.written(answer).to_vec();
        let answer = compare.write_reel(&made, shape.code, length);
        if answer.number == 0 {
            let one_reel = compare.written(answer) == reel;
            let holds = one_reel == (order == Ordering::Equal);
            let records = [&record.bytes[..], &made];
            must(
                compare,
                holds,
                "equal records have two reels, or others one",
                records,
                &[],
            );
            *(if one_reel { &mut alike } else { &mut others }) += 1;
        }
    }
    let holds = alike > 300 && others > 300;
    must(compare, holds, "too few reels", [&[], &[]], &[]);
}

/// The first traces of a record, as a record.
fn first_traces(record: &Record, traces: usize) -> Vec<u8> {
    let end = record.headers.get(traces).copied();
    let mut made = record.bytes[..end.unwrap_or(record.bytes.len() - 7)].to_vec();
    made.extend([5, 0, 4]);
    made.extend((traces as u32).to_be_bytes());
    made
}

/// Records of which one has some traces of the other, with differences in those or without.
fn counts_of_traces(compare: &mut Comparison, random: &mut Random) {
    compare.stage("the order of counts of traces");
    for _ in 0..3_000 {
        let most = random.pick(&[1, 2, 3, 7, 7, 20, 300]);
        let mut shape = Shape::any(random, 5);
        shape.traces = most;
        let record = Record::valid(random, shape, true);
        let few = random.below(most + 1);
        let shorter = first_traces(&record, few);
        ordered(compare, &shorter, &record.bytes, few.cmp(&most));

        let items = items_of(&record);
        let common = shorter.len() - 7;
        let items: Vec<Item> = (items.into_iter())
            .filter(|item| item.place < common)
            .collect();
        for _ in 0..4 {
            let count = random.pick(&[1, 1, 2, 3]);
            let chosen = some_items(random, &items, count);
            let (made, order) = changed(random, &record, &chosen);
            compared(compare, &record, &made, order);
            let answer = both(compare, &shorter, &made);
            let expected = OrderAnswer::from(Ok(order.then(few.cmp(&most))));
            let holds = answer.number != 0 || answer == expected;
            let records = [&shorter[..], &made];
            must(compare, holds, "counts of traces", records, &[answer]);
        }
    }
}

/// Records of long traces in every two patterns of forms: equal as they are, and with a sample or a number
/// of either trace that differs.
fn long_traces(compare: &mut Comparison, random: &mut Random) {
    compare.stage("the order of records in every two patterns of forms");
    for samples in [5_999, 6_000, 6_001, 6_002, 7_000, 8_000, 8_001] {
        for traces in 1..=3 {
            let seed = random.next();
            let shape = Shape::new(random.pick(&CODES), samples, traces);
            let records: Vec<Record> = (0..patterns(samples, traces))
                .map(|bits| {
                    let forms = pattern(bits, samples, traces);
                    Record::in_forms(&mut Random::seeded(seed), shape, true, &forms)
                })
                .collect();
            for first in &records {
                for second in &records {
                    let answer = compare.order(&first.bytes, &second.bytes);
                    let holds = answer == OrderAnswer::from(Ok(Ordering::Equal));
                    let records = [&first.bytes[..], &second.bytes];
                    must(compare, holds, "two forms", records, &[answer]);
                }
                let second = &records[random.below(records.len())];
                differing(compare, random, first, second, shape);
            }
        }
    }

    compare.stage("records of long traces that differ in several items");
    for _ in 0..250 {
        let any = 6_001 + random.below(2_000);
        let samples = random.pick(&[any, any, 6_000, 6_001, 8_000, 8_001, 12_001]);
        let shape = Shape::new(random.pick(&CODES), samples, 1 + random.below(3));
        let seed = random.next();
        let fitting = random.once_in(2);
        let [first, second] = [(); 2].map(|()| {
            let bits = random.below(patterns(samples, shape.traces));
            let forms = pattern(bits, samples, shape.traces);
            Record::in_forms(&mut Random::seeded(seed), shape, fitting, &forms)
        });
        let items = items_of(&second);
        for _ in 0..4 {
            let count = random.pick(&[0, 1, 2, 4]);
            let chosen = some_items(random, &items, count);
            let (made, order) = changed(random, &second, &chosen);
            let answer = both(compare, &first.bytes, &made);
            let holds = answer.number != 0 || answer == OrderAnswer::from(Ok(order));
            let records = [&first.bytes[..], &made];
            must(compare, holds, "two long records", records, &[answer]);
        }
    }

    compare.stage("the order of records of 32,767 samples");
    for code in CODES {
        let shape = Shape::new(code, 32_767, 1 + random.below(2));
        let record = Record::valid(random, shape, false);
        differing(compare, random, &record, &record, shape);
    }
}

/// Two records of the same traces, in any forms, of which the second gets another sample at the ends of
/// its fields, with a header number before it, a later sample or the next trace's header; and one of fewer
/// traces.
fn differing(
    compare: &mut Comparison,
    random: &mut Random,
    first: &Record,
    second: &Record,
    shape: Shape,
) {
    let ends = ends_of_fields(shape.samples);
    for _ in 0..6 {
        let sample = if random.once_in(3) {
            random.below(shape.samples)
        } else {
            random.pick(&ends)
        };
        let trace = random.below(shape.traces);
        let index = trace * shape.samples + sample;
        let later = index + random.below(second.pairs.len() - index);
        let [at, later] = [index, later].map(|index| Item {
            place: second.pairs[index],
            kind: Kind::Sample,
        });
        let number = |header: usize| Item {
            place: header + 3 + 178,
            kind: Kind::Number2,
        };
        let before = number(second.headers[trace]);
        let next = second.headers.get(trace + 1).copied().map(number);
        let mut behind = vec![at, later];
        behind.extend(next);
        behind.sort_by_key(|item| item.place);
        behind.dedup_by_key(|item| item.place);
        for items in [&[at][..], &[before, at], &behind] {
            let (made, order) = changed(random, second, items);
            ordered(compare, &first.bytes, &made, order);
        }
    }
    let few = random.below(shape.traces);
    let shorter = first_traces(first, few);
    ordered(compare, &shorter, &second.bytes, Ordering::Less);
}

/// A small record cut at every place, and with every byte changed, as the first and as the second; the
/// other one is valid, or is refused too.
fn cut_and_changed(compare: &mut Comparison, random: &mut Random) {
    compare.stage("two records, one cut at every place");
    let shape = Shape::new(3, 2, 1);
    let good = Record::valid(random, shape, true).bytes;
    let record = Record::valid(random, shape, true).bytes;
    for length in 0..record.len() {
        let cut = &record[..length];
        let answer = both(compare, &good, cut);
        let holds = (answer.number, answer.which) == (12, 2);
        must(compare, holds, "a cut record", [&good, cut], &[answer]);
        let answer = both(compare, cut, &record[..random.below(record.len())]);
        let holds = (answer.number, answer.which) == (12, 1);
        must(compare, holds, "two cut records", [cut, cut], &[answer]);
    }
    both(compare, &good, &[&record[..], &[5]].concat());
    both(compare, &record, &[&record[..], &[5, 0, 4]].concat());

    compare.stage("two records, one with every byte changed");
    for code in [1, 4, 8] {
        let record = Record::valid(random, Shape::new(code, 2, 2), true).bytes;
        let mut changed = record.clone();
        for place in 0..record.len() {
            let bytes = [0, 1, 0xFF, record[place] ^ 0x80, random.next() as u8];
            for byte in bytes {
                changed[place] = byte;
                both(compare, &record, &changed);
                if (3..3203).contains(&place) {
                    break;
                }
            }
            changed[place] = record[place];
        }
    }
}

/// Damages a record in some ways.
fn damage(random: &mut Random, shape: Shape, record: &mut Record) {
    for _ in 0..random.pick(&[1, 1, 2, 3]) {
        let kind = random.below(DAMAGES_IN_PLACE);
        damage_in_place(random, kind, shape, record);
    }
    if random.once_in(4) {
        let kind = random.below(DAMAGES_OF_LENGTH);
        damage_length(random, kind, record);
    }
}

/// Any records, most of them equal but for some items, their forms and their counts of traces; the first
/// is damaged, the second, both in their own ways or in one, or neither.
fn damaged(compare: &mut Comparison, random: &mut Random) {
    compare.stage("two records, valid and damaged");
    let mut counts = [0; 3];
    for turn in 0..50_000 {
        let mut shape = Shape::any(random, 60);
        if turn % 30 == 0 {
            shape.samples = random.pick(&[6_000, 6_001, 7_000, 8_000, 8_001, 12_001]);
            shape.traces = 1 + random.below(2);
        } else if turn % 30 == 1 {
            shape.samples = 1 + random.below(3);
            shape.traces = 1 + random.below(60);
        }
        let seed = random.next();
        let fewer = random.below(shape.traces + 1);
        let traces = random.pick(&[shape.traces, shape.traces, fewer]);
        let mut made = |traces: usize| {
            let bits = random.below(patterns(shape.samples, traces));
            let forms = pattern(bits, shape.samples, traces);
            let own = random.next();
            let near = !random.once_in(8);
            let mut seeded = Random::seeded(if near { seed } else { own });
            Record::in_forms(&mut seeded, shape, true, &forms)
        };
        let [mut first, mut second] = [made(shape.traces), made(traces)];
        let one_way = random.once_in(8);
        if one_way {
            let kind = random.below(DAMAGES_IN_PLACE);
            damage_in_place(random, kind, shape, &mut first);
            second = first.clone();
        }
        let items = items_of(&second);
        let count = random.pick(&[0, 0, 1, 2]);
        let chosen = some_items(random, &items, count);
        (second.bytes, _) = changed(random, &second, &chosen);
        let which = random.pick(&[0, 1, 1, 2, 2, 3]);
        if which & 1 == 1 && !one_way {
            damage(random, shape, &mut first);
        }
        if which & 2 == 2 {
            damage(random, shape, &mut second);
        }
        let answer = both(compare, &first.bytes, &second.bytes);
        counts[answer.which as usize] += 1;
    }
    let holds = counts.iter().all(|&count| count > 5_000);
    if !holds {
        println!("{counts:?}");
    }
    must(compare, holds, "too few of a kind", [&[], &[]], &[]);
}

/// Every two faults, each in its own record of two that are otherwise equal: the first record's counts.
fn one_fault_each(compare: &mut Comparison, random: &mut Random) {
    compare.stage("two records, each with one fault");
    let shape = Shape::new(8, 2, 2);
    let record = Record::valid(random, shape, true);
    let count = record.bytes.len() - 7;
    let mut bad = vec![record.bytes.clone()];
    for &tag in &record.tags {
        bad.push(with(&record.bytes, tag, &[9]));
        bad.push(with(&record.bytes, tag + 1, &[0x12, 0x34]));
        bad.push(record.bytes[..tag].to_vec());
    }
    for place in [3, 1_600, 3_202] {
        bad.push(with(&record.bytes, place, &[0]));
    }
    for place in [3206 + 16, 3206 + 20] {
        bad.push(with(&record.bytes, place, &[0, 0]));
        bad.push(with(&record.bytes, place, &[0x80, 0]));
    }
    bad.push(with(&record.bytes, 3206 + 24, &[0, 1]));
    for header in &record.headers {
        for offset in [68, 70, 114, 116] {
            bad.push(with(&record.bytes, header + 3 + offset, &[0, 7]));
        }
    }
    for &place in &record.pairs {
        bad.push(with(&record.bytes, place, &uncanonical_pair(random)));
        bad.push(with(&record.bytes, place, &pair(0, 2)));
    }
    bad.push(with(&record.bytes, count + 6, &[9]));
    bad.push([&record.bytes[..], &[0]].concat());
    for first in &bad {
        for second in &bad {
            compare.order(first, second);
        }
    }
}

/// Bytes of any lengths, beside each other and beside a valid record.
fn any_bytes(compare: &mut Comparison, random: &mut Random) {
    compare.stage("the order of any bytes");
    let good = Record::valid(random, Shape::new(8, 2, 1), true).bytes;
    for _ in 0..4_000 {
        let mut made = || {
            let mut bytes = vec![0; random.pick(&[0, 1, 2, 3, 10, 3_300, 4_000])];
            random.fill(&mut bytes);
            let front = random.pick(&[0, 1, 3, 3_203, 3_266, 3_300]);
            let front = front.min(bytes.len()).min(good.len());
            bytes[..front].copy_from_slice(&good[..front]);
            bytes
        };
        let [first, second] = [made(), made()];
        both(compare, &first, &second);
        both(compare, &good, &first);
    }
}

/// Sets of records that are nearly equal: of every three, where the first is at most the second and that
/// at most the third, the first is at most the third, and less where one of the two is.
fn sets(compare: &mut Comparison, random: &mut Random) {
    compare.stage("sets of records in one order");
    for turn in 0..32 {
        let mut shape = Shape::any(random, 4);
        let mut count = 40;
        if turn < 4 {
            shape.samples = random.pick(&[6_001, 8_000]);
            count = 12;
        }
        shape.traces = 3;
        let seed = random.next();
        let mut records: Vec<Vec<u8>> = Vec::new();
        while records.len() < count {
            let bits = random.below(patterns(shape.samples, 3));
            let forms = pattern(bits, shape.samples, 3);
            let record = Record::in_forms(&mut Random::seeded(seed), shape, true, &forms);
            let items = items_of(&record);
            let few = random.below(3);
            let chosen = some_items(random, &items, few);
            let (made, _) = changed(random, &record, &chosen);
            let made = Record {
                bytes: made,
                ..record
            };
            let traces = random.pick(&[0, 1, 2, 3, 3, 3]);
            let made = first_traces(&made, traces);
            if independent::list_cards(&made, &mut [0; 3_240]).is_ok() {
                records.push(made);
            }
        }
        let mut orders = vec![vec![0; count]; count];
        for (i, first) in records.iter().enumerate() {
            for (j, second) in records.iter().enumerate() {
                orders[i][j] = compare.order(first, second).order;
            }
        }
        for i in 0..count {
            for j in 0..count {
                for k in 0..count {
                    let (one, other, whole) = (orders[i][j], orders[j][k], orders[i][k]);
                    let holds = one > 0 || other > 0 || whole == one.min(other);
                    let records = [&records[i][..], &records[k]];
                    must(compare, holds, "three records", records, &[]);
                }
            }
        }
    }
}

/// Records of the most traces, and one more.
pub fn long_records(compare: &mut Comparison) {
    let mut random = Random::seeded(23);
    compare.stage("the order of records of 100,000 traces");
    let shape = Shape::new(3, 1, 100_000);
    let record = Record::valid(&mut random, shape, true);
    let last = record.pairs[99_999];
    let held = &record.bytes[last..last + 6];
    let other = pair_of(
        i64::from(number4(&held[2..])) + 2,
        number2(&held[..2]).into(),
    );
    let other = other.unwrap_or(pair(0, 0));
    let order = order_of(Kind::Sample, held, &other);
    let changed = with(&record.bytes, last, &other);
    ordered(compare, &record.bytes, &changed, order);
    for few in [34_500, 65_536] {
        let shorter = first_traces(&record, few);
        ordered(compare, &shorter, &record.bytes, Ordering::Less);
    }
    let shorter = first_traces(&record, 99_999);
    ordered(compare, &shorter, &changed, Ordering::Less);

    // Trace 100,001, in either record and in both.
    let count = record.bytes.len() - 7;
    let mut longer = record.bytes[..count].to_vec();
    longer.extend_from_slice(&record.bytes[count - 192..]);
    longer[count + 192..].copy_from_slice(&[5, 0, 4, 0, 1, 0x86, 0xA1]);
    for (first, second, which) in [
        (&longer, &shorter, 1),
        (&shorter, &longer, 2),
        (&longer, &changed, 1),
    ] {
        let answer = compare.order(first, second);
        let holds = (answer.number, answer.which, answer.beside) == (12, which, count as u64);
        must(compare, holds, "trace 100,001", [first, second], &[answer]);
    }
    let [first, second] = [&longer[..], &with(&longer, 3, &[0])[..]];
    let answer = compare.order(first, second);
    must(
        compare,
        answer.number == 12,
        "trace 100,001",
        [first, second],
        &[answer],
    );
}
