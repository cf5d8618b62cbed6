//! Cards eight characters at a time: any eight card bytes as one number, the cards of reels, and
//! records in which card bytes are 00.

use crate::compare::{print_input, Comparison};
use crate::library::ReelAnswer;
use crate::random::Random;
use crate::records::Record;
use crate::reels::{reel, write_and_read_again, Shape, Words, ALL_WORDS};
use crate::samples::CODES;

/// The card bytes of a reel or record, and where they begin in a record.
const CARDS: usize = 3200;
const IN_RECORD: usize = 3;

/// 00, and bytes that a mistake over all eight at once may take for 00 or change beside one: the least
/// and the largest, the blank, and those about the highest bit.
const EDGES: [u8; 6] = [0x00, 0x01, 0x40, 0x7F, 0x80, 0xFF];

/// What stands beside a 00 on cards.
const BESIDE: [u8; 4] = [0x01, 0x40, 0x80, 0xFF];

/// Any byte but 00.
fn other_byte(random: &mut Random) -> u8 {
    match random.below(2) {
        0 => random.pick(&[0x01, 0x02, 0x40, 0x7F, 0x80, 0x81, 0xFE, 0xFF]),
        _ => 1 + random.below(255) as u8,
    }
}

pub fn eights(compare: &mut Comparison) {
    let mut random = Random::seeded(17);
    numbers(compare, &mut random);
    cards_of_reels(compare, &mut random);
    cards_of_any_reels(compare, &mut random);
    cards_of_records(compare, &mut random);
}

/// Any eight card bytes as one number, the first highest.
fn numbers(compare: &mut Comparison, random: &mut Random) {
    compare.stage("eight card bytes, each of six");
    for mut number in 0..6u64.pow(8) {
        let eight = [0; 8].map(|_| {
            let byte = EDGES[(number % 6) as usize];
            number /= 6;
            byte
        });
        compare.blank_eight(u64::from_be_bytes(eight));
    }

    compare.stage("every two card bytes side by side, at every place of the eight");
    for around in EDGES {
        for place in 0..7 {
            let mut eight = [around; 8];
            for first in 0..=255 {
                for second in 0..=255 {
                    eight[place..place + 2].copy_from_slice(&[first, second]);
                    compare.blank_eight(u64::from_be_bytes(eight));
                }
            }
        }
    }

    compare.stage("every choice of card bytes 00 among the eight");
    for zeros in 0..256 {
        for _ in 0..4_000 {
            let (mut eight, mut blanked) = ([0x00; 8], [0x40; 8]);
            for place in 0..8 {
                if zeros >> place & 1 == 0 {
                    let byte = other_byte(random);
                    (eight[place], blanked[place]) = (byte, byte);
                }
            }
            let blanked = u64::from_be_bytes(blanked);
            let first = compare.blank_eight(u64::from_be_bytes(eight));
            let again = compare.blank_eight(first);
            if (first, again) != (blanked, blanked) {
                compare.differs("eight card bytes become others", || {
                    println!("{eight:02X?}: {first:016X}, and again {again:016X}");
                });
            }
        }
    }

    compare.stage("any eight card bytes");
    for high in 0..64 {
        for low in 0..=high {
            let bits = 1 << high | 1 << low;
            let row = u64::MAX >> (63 - high) & u64::MAX << low;
            for number in [bits, !bits, row, !row] {
                compare.blank_eight(number);
            }
        }
    }
    for _ in 0..500_000 {
        let [first, second, third] = [0; 3].map(|_| random.next());
        for number in [first, first & second, first & second & third] {
            compare.blank_eight(number);
        }
    }
}

/// Small reels of each code, in which the bytes behind the cards are 00 or not.
struct SmallReels {
    reels: Vec<(Shape, Vec<u8>)>,
    turn: usize,
}

impl SmallReels {
    fn new(random: &mut Random) -> SmallReels {
        let mut reels = Vec::new();
        for behind in [0x00, 0x01, 0xFF] {
            for code in CODES {
                let shape = Shape::new(code, 1, 1);
                let mut made = reel(random, shape, Words::Small);
                made[CARDS..CARDS + 8].fill(behind);
                reels.push((shape, made));
            }
        }
        SmallReels { reels, turn: 0 }
    }

    /// Reads the next of them with these cards.
    fn read(&mut self, compare: &mut Comparison, cards: &[u8; CARDS]) {
        self.turn = (self.turn + 1) % self.reels.len();
        let (shape, made) = &mut self.reels[self.turn];
        made[..CARDS].copy_from_slice(cards);
        let answer = compare.read_reel(made, shape.record_length());
        if answer.number != 0 {
            compare.differs("a reel is refused by its cards", || {
                println!("{answer:?}");
                print_input(made, &[answer.beside]);
            });
        }
    }
}

/// Bytes 00 at every place of the cards.
fn cards_of_reels(compare: &mut Comparison, random: &mut Random) {
    let mut reels = SmallReels::new(random);

    compare.stage("cards of one byte throughout");
    for byte in 0..=255 {
        for _ in 0..reels.reels.len() {
            reels.read(compare, &[byte; CARDS]);
        }
    }

    compare.stage("one card byte 00, at every place");
    for others in BESIDE {
        for place in 0..CARDS {
            let mut cards = [others; CARDS];
            cards[place] = 0x00;
            reels.read(compare, &cards);
        }
    }

    compare.stage("one other card byte among 00, at every place");
    for other in BESIDE {
        for place in 0..CARDS {
            let mut cards = [0x00; CARDS];
            cards[place] = other;
            reels.read(compare, &cards);
        }
    }

    compare.stage("some card bytes 00 side by side, from every place on");
    for others in [0x01, 0x80, 0xFF] {
        for count in [2, 7, 8, 9, 17] {
            for place in 0..=CARDS - count {
                let mut cards = [others; CARDS];
                cards[place..place + count].fill(0x00);
                reels.read(compare, &cards);
            }
        }
    }
}

/// Cards in which many bytes are 00, on reels of any shape. What reading gives for each eight is what
/// the call on them gives, and the record comes back when it is written.
fn cards_of_any_reels(compare: &mut Comparison, random: &mut Random) {
    compare.stage("cards with many bytes 00, on any reels");
    for turn in 0..4_000 {
        let shape = Shape::any(random, 60);
        let words = random.pick(&ALL_WORDS);
        let mut made = reel(random, shape, words);
        let zeros = random.pick(&[2, 5, 8, 80, 1000]);
        for card in &mut made[..CARDS] {
            let other = if turn % 2 == 0 {
                random.pick(&EDGES)
            } else {
                other_byte(random)
            };
            *card = if random.once_in(zeros) { 0x00 } else { other };
        }
        let length = shape.record_length();
        for room in [0, random.below(length), length - 1] {
            compare.read_reel(&made, room);
        }
        let answer = compare.read_reel(&made, length + random.below(20));
        let record = compare.written(answer).to_vec();
        for (place, eight) in made[..CARDS].chunks_exact(8).enumerate() {
            let number = u64::from_be_bytes(eight.try_into().expect("eight bytes"));
            let blanked = compare.blank_eight(number).to_be_bytes();
            if record[IN_RECORD + 8 * place..][..8] != blanked {
                compare.differs("reading blanks eight card bytes otherwise", || {
                    println!("from place {} on: {number:016X}", 8 * place);
                    print_input(&record, &[(IN_RECORD + 8 * place) as u64]);
                });
            }
        }
        write_and_read_again(compare, &record, shape.code, made.len());
    }
}

/// A small record, lent to each call that takes one.
struct SmallRecord {
    bytes: Vec<u8>,
    listing: Vec<u8>,
    turn: usize,
}

impl SmallRecord {
    /// Its sample fits every code.
    fn new(compare: &mut Comparison, random: &mut Random) -> SmallRecord {
        let bytes = Record::valid(random, Shape::new(8, 1, 1), true).bytes;
        let listed = compare.list_cards(&bytes, 3240);
        let listing = compare.written(listed).to_vec();
        SmallRecord {
            bytes,
            listing,
            turn: 0,
        }
    }

    /// The answers of each call to the record with these cards. The outputs are long enough.
    fn answers(&mut self, compare: &mut Comparison, cards: &[u8; CARDS]) -> [ReelAnswer; 4] {
        self.turn = (self.turn + 1) % CODES.len();
        let code = CODES[self.turn];
        self.bytes[IN_RECORD..][..CARDS].copy_from_slice(cards);
        [
            compare.write_reel(&self.bytes, code, 3844),
            compare.write_nearest(&self.bytes, code, 3844),
            compare.list_cards(&self.bytes, 3240),
            compare.take_cards(&self.bytes, &self.listing, self.bytes.len()),
        ]
    }

    /// Each call takes it where no card byte is 00, and else refuses it by 13 at the first.
    fn judged(&mut self, compare: &mut Comparison, cards: &[u8; CARDS], first: Option<usize>) {
        let (number, beside) = first.map_or((0, 0), |place| (13, IN_RECORD + place));
        for answer in self.answers(compare, cards) {
            if (answer.number, answer.beside) != (number, beside as u64) {
                compare.differs("a record is judged otherwise by its cards", || {
                    println!("number {number}, beside {beside}: {answer:?}");
                    print_input(&self.bytes, &[answer.beside]);
                });
            }
        }
    }
}

/// Bytes 00 at every place of the cards, alone and before others.
fn cards_of_records(compare: &mut Comparison, random: &mut Random) {
    compare.stage("records without a card byte 00");
    let mut record = SmallRecord::new(compare, random);
    for byte in 1..=255 {
        record.judged(compare, &[byte; CARDS], None);
    }
    for _ in 0..500 {
        let cards = [0; CARDS].map(|_| random.pick(&EDGES[1..]));
        record.judged(compare, &cards, None);
    }

    compare.stage("one card byte 00 in a record, at every place");
    for others in BESIDE {
        for place in 0..CARDS {
            let mut cards = [others; CARDS];
            cards[place] = 0x00;
            record.judged(compare, &cards, Some(place));
        }
    }

    compare.stage("several card bytes 00 in a record, from every place on");
    for place in 0..CARDS {
        let any = place + random.below(CARDS - place);
        for later in [place + 1, place + 7, place / 8 * 8 + 8, any, CARDS - 1] {
            let mut cards = [random.pick(&BESIDE); CARDS];
            cards[place] = 0x00;
            cards[later.min(CARDS - 1)] = 0x00;
            record.judged(compare, &cards, Some(place));
        }
        let mut cards = [0x00; CARDS];
        cards[..place].fill(random.pick(&BESIDE));
        record.judged(compare, &cards, Some(place));
    }
}
