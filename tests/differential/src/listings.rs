//! Listings of records' cards, and listings taken back, valid and damaged.

use crate::compare::{print_input, Comparison};
use crate::random::Random;
use crate::records::{damage_in_place, damage_length, Record, DAMAGES_IN_PLACE, DAMAGES_OF_LENGTH};
use crate::reels::Shape;
use crate::samples::pair;

/// The card bytes of a record, the lines of a listing, and the bytes of it.
const CARDS: usize = 3200;
const LINES: usize = 40;
const LISTING: usize = 3240;

/// The place of a line's 81st byte, the lines counted from 0.
fn end(line: usize) -> usize {
    line * 81 + 80
}

/// The listing of 3,200 characters: a line feed after every 80.
fn listing_of(characters: &[u8]) -> Vec<u8> {
    let mut listing = Vec::new();
    for line in characters.chunks(80) {
        listing.extend(line);
        listing.push(0x0A);
    }
    listing
}

/// A listing of any characters.
pub fn any_listing(random: &mut Random) -> Vec<u8> {
    let mut characters = [0x20; CARDS];
    match random.below(4) {
        0 => {}
        1 => {
            for _ in 0..500 {
                characters[random.below(CARDS)] = random.pick(&[0x00, 0x0A, 0x0D, 0x85, 0x41]);
            }
        }
        _ => random.fill(&mut characters),
    }
    listing_of(&characters)
}

/// A valid record, whose pairs fit code 3.
fn valid_record(random: &mut Random, samples: usize, traces: usize) -> Vec<u8> {
    Record::valid(random, Shape::new(3, samples, traces), true).bytes
}

/// Lists a record and, if it is taken, takes the listing back, which must give the record again.
fn list_and_take_again(compare: &mut Comparison, record: &[u8], room: usize) -> Option<Vec<u8>> {
    let listed = compare.list_cards(record, room);
    if listed.number != 0 {
        return None;
    }
    let listing = compare.written(listed).to_vec();
    let taken = compare.take_cards(record, &listing, record.len() + 7);
    if compare.written(taken) != record {
        compare.differs("a record that was listed is not taken back", || {
            println!("{taken:?}");
            print_input(record, &[]);
        });
    }
    Some(listing)
}

/// Takes a listing back and, if it is taken, lists the new record. This must give the listing again,
/// with a blank for each character 00.
fn take_and_list_again(compare: &mut Comparison, record: &[u8], listing: &[u8], room: usize) {
    let taken = compare.take_cards(record, listing, room);
    if taken.number != 0 {
        return;
    }
    let corrected = compare.written(taken).to_vec();
    let listed = compare.list_cards(&corrected, LISTING + 7);
    let mut again = listing.to_vec();
    for character in &mut again {
        if *character == 0 {
            *character = 0x20;
        }
    }
    if compare.written(listed) != again {
        compare.differs("a listing that was taken back is not listed", || {
            println!("{listed:?}");
            print_input(listing, &[]);
        });
    }
}

/// Damages a listing in one way.
fn damage_listing(random: &mut Random, listing: &mut Vec<u8>) {
    let line = random.below(LINES);
    let place = random.below(LISTING);
    match random.below(7) {
        0 => listing.truncate(place),
        1 => listing.truncate(end(line) + 1),
        2 => {
            let more = random.pick(&[1, 81, LISTING]).min(listing.len());
            listing.extend_from_within(..more);
        }
        3 => {
            for _ in 0..1 + random.below(4) {
                let place = random.below(listing.len().max(1));
                if let Some(byte) = listing.get_mut(place) {
                    *byte ^= 1 << random.below(8);
                }
            }
        }
        4 => {
            let other = random.next() as u8;
            if let Some(byte) = listing.get_mut(end(line)) {
                *byte = random.pick(&[0x00, 0x0D, 0x15, 0x20, 0x25, 0x85, other]);
            }
        }
        5 => {
            // A byte stands elsewhere: a line has one too few, another one too many.
            if place < listing.len() {
                let removed = listing.remove(place);
                listing.insert(random.below(listing.len() + 1), removed);
            }
        }
        _ => random.fill(listing),
    }
}

/// Every code, every character, every length, and every byte changed.
pub fn listings(compare: &mut Comparison) {
    let mut random = Random::seeded(9);

    compare.stage("every code at every card byte");
    let mut record = valid_record(&mut random, 2, 1);
    for start in 0..255 {
        for card in 0..CARDS {
            record[3 + card] = 1 + ((start + card) % 255) as u8;
        }
        list_and_take_again(compare, &record, LISTING);
    }

    compare.stage("every character at every place of a line");
    for start in 0..=255 {
        let characters: Vec<u8> = (0..CARDS).map(|i| (start + i) as u8).collect();
        take_and_list_again(compare, &record, &listing_of(&characters), record.len());
    }

    compare.stage("small records cut at every place, listed and taken");
    for (samples, traces) in [(1, 0), (2, 2)] {
        let record = valid_record(&mut random, samples, traces);
        let listing = any_listing(&mut random);
        for length in 0..=record.len() {
            compare.list_cards(&record[..length], LISTING);
            compare.take_cards(&record[..length], &listing, record.len());
        }
    }

    compare.stage("a small record with every byte changed, listed and taken");
    let record = valid_record(&mut random, 2, 2);
    let listing = any_listing(&mut random);
    let mut changed = record.clone();
    for place in 0..record.len() {
        let other = random.next() as u8;
        for byte in [
            0,
            1,
            3,
            5,
            0xFF,
            record[place] ^ 0x80,
            record[place] ^ 0x01,
            other,
        ] {
            changed[place] = byte;
            compare.list_cards(&changed, LISTING);
            compare.take_cards(&changed, &listing, record.len());
        }
        changed[place] = record[place];
    }

    compare.stage("a listing with every byte changed");
    let mut changed = listing.clone();
    for place in 0..LISTING {
        let other = random.next() as u8;
        for byte in [0x00, 0x0A, 0x0D, 0x25, listing[place] ^ 0x80, other] {
            changed[place] = byte;
            take_and_list_again(compare, &record, &changed, record.len());
        }
        changed[place] = listing[place];
    }

    compare.stage("every line end with every other byte, and every two of them");
    for first in 0..LINES {
        let mut wrong = listing.clone();
        for byte in 0..=255 {
            wrong[end(first)] = byte;
            compare.take_cards(&record, &wrong, record.len());
        }
        for second in first..LINES {
            let mut wrong = wrong.clone();
            wrong[end(second)] = 0x0D;
            compare.take_cards(&record, &wrong, record.len());
        }
        for line in first..LINES {
            wrong[end(line)] = 0x25;
        }
        compare.take_cards(&record, &wrong, record.len());
    }

    compare.stage("listings of every length");
    let long = listing.repeat(22);
    for length in (0..=3500).chain([6479, 6480, 6481, 65_536, 65_536 + LISTING, 70_000]) {
        compare.take_cards(&record, &long[..length], record.len());
    }

    compare.stage("every length of the output, listed and taken");
    for traces in [0, 1] {
        let record = valid_record(&mut random, 2, traces);
        for room in 0..=LISTING + 20 {
            compare.list_cards(&record, room);
        }
        for room in 0..=record.len() + 20 {
            compare.take_cards(&record, &listing, room);
        }
    }
}

/// Records, listings and outputs of which any may have a cause: chosen ones each with each, then any.
pub fn causes_of_listings(compare: &mut Comparison) {
    let mut random = Random::seeded(10);
    compare.stage("several causes at once, listed and taken");
    let valid = valid_record(&mut random, 3, 2);
    let with = |place: usize, bytes: &[u8]| {
        let mut record = valid.clone();
        record[place..place + bytes.len()].copy_from_slice(bytes);
        record
    };
    // Traces stand at 3266 and 3470, and their pairs 186 further; tag 05 stands at 3674.
    let records = [
        valid.clone(),
        with(3266 + 186, &pair(251, 3)),
        valid_record(&mut random, 1, 0),
        Vec::new(),
        valid[..3203].to_vec(),
        with(0, &[0x02]),
        with(3, &[0x00]),
        with(3202, &[0x00]),
        with(3203, &[0x03]),
        with(3222, &[0x00, 0x00]),
        with(3226, &[0x00, 0x00]),
        with(3230, &[0x00, 0x03]),
        with(3470 + 3 + 68, &[0x00, 0x00]),
        with(3470 + 3 + 70, &[0x00, 0x07]),
        with(3470 + 3 + 114, &[0x00, 0x00]),
        with(3470 + 3 + 116, &[0x00, 0x00]),
        with(3470 + 186, &pair(0, 2)),
        with(3674 + 6, &[0x01]),
        valid[..valid.len() - 1].to_vec(),
        [&valid[..], &[0x00]].concat(),
    ];
    let listing = any_listing(&mut random);
    let ended = |ends: &[usize], length: usize| {
        let mut listing = listing.repeat(2);
        for &line in ends {
            listing[end(line)] = 0x20;
        }
        listing.truncate(length);
        listing
    };
    let listings = [
        listing.clone(),
        Vec::new(),
        ended(&[], LISTING - 1),
        ended(&[], LISTING + 1),
        ended(&[], 2 * LISTING),
        ended(&[0], LISTING),
        ended(&[39], LISTING),
        ended(&[30, 5], LISTING),
        ended(&[0], 81),
        ended(&[0], LISTING - 1),
        ended(&[39], LISTING + 1),
    ];
    for record in &records {
        let length = record.len();
        for room in [
            0,
            1,
            LISTING - 1,
            LISTING,
            LISTING + 1,
            length,
            length + 1,
            length.saturating_sub(1),
        ] {
            compare.list_cards(record, room);
            for listing in &listings {
                compare.take_cards(record, listing, room);
            }
        }
    }

    compare.stage("records and listings, valid and damaged");
    for _ in 0..25_000 {
        let shape = Shape::any(&mut random, 100);
        let fitting = random.once_in(2);
        let mut record = Record::valid(&mut random, shape, fitting);
        for _ in 0..random.pick(&[0, 0, 0, 1, 1, 2]) {
            let kind = random.below(DAMAGES_IN_PLACE);
            damage_in_place(&mut random, kind, shape, &mut record);
        }
        if random.once_in(6) {
            let kind = random.below(DAMAGES_OF_LENGTH);
            damage_length(&mut random, kind, &mut record);
        }
        let record = record.bytes;
        let room = LISTING + random.below(300);
        let mut listing = list_and_take_again(compare, &record, room)
            .filter(|_| random.once_in(2))
            .unwrap_or_else(|| any_listing(&mut random));
        for _ in 0..random.pick(&[0, 0, 1, 1, 2]) {
            damage_listing(&mut random, &mut listing);
        }
        let room = record.len() + random.below(300);
        take_and_list_again(compare, &record, &listing, room);
        let room = random.below(record.len() + 2);
        compare.take_cards(&record, &listing, room);
    }
}

/// Records of 32,767 samples, of the most traces, and of one more.
pub fn long_listings(compare: &mut Comparison) {
    let mut random = Random::seeded(11);
    compare.stage("records of 32,767 samples, listed and taken");
    let record = valid_record(&mut random, 32_767, 3);
    let listing = any_listing(&mut random);
    list_and_take_again(compare, &record, LISTING + 1);
    take_and_list_again(compare, &record, &listing, record.len());
    compare.take_cards(&record, &listing, record.len() - 1);

    compare.stage("records of 100,000 traces and more, listed and taken");
    let mut record = valid_record(&mut random, 1, 100_000);
    let count = record.len() - 7;
    list_and_take_again(compare, &record, LISTING);
    take_and_list_again(compare, &record, &listing, record.len());
    compare.take_cards(&record, &listing, record.len() - 1);
    let last = record[count - 192..count].to_vec();
    record.splice(count..count, last);
    let end = record.len() - 1;
    record[end] += 1;
    compare.list_cards(&record, LISTING);
    compare.take_cards(&record, &listing, record.len());
}
