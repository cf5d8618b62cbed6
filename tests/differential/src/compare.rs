//! Each call is made of the library and of the independent implementation, and everything that it
//! gives is compared. The first difference is printed and ends the run.

use crate::library::{
    self, pair_answer, word_answer, BoxAnswer, FieldAnswer, OrderAnswer, ReelAnswer, SampleAnswer,
};
use crate::random::Random;
use independent::WordRead;
use std::fmt::Debug;
use std::{array, process};

/// Bytes before and after each output, which must stay as they are.
const GUARD: usize = 32;
/// Inputs and outputs begin at any of as many addresses: a caller may lend any.
const ALIGNMENTS: usize = 16;
/// The longest output that a call is lent.
const MOST_ROOM: usize = 26_000_000;

const CALLS: [&str; 12] = [
    "read_word",
    "write_pair",
    "read_reel",
    "write_reel",
    "look_up",
    "list_cards",
    "take_cards",
    "write_nearest",
    "blank_eight",
    "read_eagle",
    "compare",
    "check_box",
];
const READ_WORD: usize = 0;
const WRITE_PAIR: usize = 1;
const READ_REEL: usize = 2;
const WRITE_REEL: usize = 3;
const LOOK_UP: usize = 4;
const LIST_CARDS: usize = 5;
const TAKE_CARDS: usize = 6;
const WRITE_NEAREST: usize = 7;
const BLANK_EIGHT: usize = 8;
const READ_EAGLE: usize = 9;
const COMPARE: usize = 10;
const CHECK_BOX: usize = 11;

/// The largest number of a cause.
const MOST_NUMBER: usize = 22;
/// The causes of each call.
const CAUSES: [&[usize]; CALLS.len()] = [
    &[2, 9, 19],
    &[11, 13, 14],
    &[1, 2, 3, 4, 5, 6, 7, 8, 9, 10, 18, 19],
    &[10, 11, 12, 13, 14],
    &[1, 2, 3, 4, 5, 6, 7, 8, 9, 15, 16, 18, 19],
    &[10, 12, 13],
    &[10, 12, 13, 17],
    &[10, 11, 12, 13],
    &[],
    &[1, 2, 3, 4, 5, 6, 7, 8, 10, 18, 20],
    &[12, 13],
    &[1, 2, 3, 4, 5, 6, 7, 8, 9, 18, 19, 21, 22],
];

pub struct Comparison {
    /// For each call, how often it was taken (at 0) and refused by each number.
    counts: [[u64; MOST_NUMBER + 1]; CALLS.len()],
    /// What an output holds before the call: a part of these random bytes.
    pattern: Vec<u8>,
    random: Random,
    theirs: Vec<u8>,
    ours: Vec<u8>,
    /// What a call is lent: a record and a listing, or two records, at most.
    inputs: [Vec<u8>; 2],
    /// The list of lengths that a box is lent with.
    lengths: Vec<u64>,
    /// Where the latest output begins.
    front: usize,
    stage: &'static str,
    stage_calls: u64,
}

impl Comparison {
    pub fn new() -> Comparison {
        let mut random = Random::seeded(1);
        let mut pattern = vec![0; MOST_ROOM + 2 * GUARD + ALIGNMENTS + 256];
        random.fill(&mut pattern);
        Comparison {
            counts: [[0; MOST_NUMBER + 1]; CALLS.len()],
            pattern,
            random,
            theirs: Vec::new(),
            ours: Vec::new(),
            inputs: [Vec::new(), Vec::new()],
            lengths: Vec::new(),
            front: GUARD,
            stage: "",
            stage_calls: 0,
        }
    }

    pub fn stage(&mut self, name: &'static str) {
        self.stage = name;
        self.stage_calls = 0;
    }

    pub fn calls(&self) -> u64 {
        self.counts.iter().flatten().sum()
    }

    fn count(&mut self, call: usize, number: u64) {
        self.counts[call][number as usize] += 1;
        self.stage_calls += 1;
    }

    /// Prints how often each answer occurred. False if a call never gave one of its causes, or gave
    /// one that isn't its own.
    pub fn report(&self) -> bool {
        let mut complete = true;
        for number in 0..=MOST_NUMBER {
            let name = if number == 0 {
                "taken".to_string()
            } else {
                format!("number {number}")
            };
            let mut line = format!("{name:>9}:");
            for (call, counts) in self.counts.iter().enumerate() {
                if counts[number] != 0 {
                    line += &format!(" {} {},", CALLS[call], counts[number]);
                }
                let expected = number == 0 || CAUSES[call].contains(&number);
                if expected != (counts[number] != 0) {
                    println!(
                        "{}: {} gave {name} {} times",
                        self.stage, CALLS[call], counts[number]
                    );
                    complete = false;
                }
            }
            println!("{}", line.trim_end_matches(','));
        }
        complete
    }

    /// Reads a word with both, and gives what it was read as if it was taken.
    pub fn read_word(&mut self, code: u32, word: [u8; 4]) -> Option<WordRead> {
        let read = independent::read_word(code, word);
        let theirs = self.guarded(&word, |word, pair| library::read_word(code, word, pair));
        self.sample_compared(READ_WORD, code, &word, word_answer(read), theirs)?;
        read.ok()
    }

    /// Writes a pair with both, and gives the word if it was taken.
    pub fn write_pair(&mut self, code: u32, pair: [u8; 6]) -> Option<[u8; 4]> {
        let ours = pair_answer(independent::write_pair(code, pair));
        let theirs = self.guarded(&pair, |pair, word| library::write_pair(code, pair, word));
        self.sample_compared(WRITE_PAIR, code, &pair, ours, theirs)
    }

    /// Makes a single-sample call of the library, with guards around what it hands out. None if a
    /// guard or the input changed.
    fn guarded<const I: usize, const O: usize>(
        &mut self,
        input: &[u8; I],
        call: impl Fn(&[u8; I], &mut [u8; O]) -> SampleAnswer,
    ) -> Option<(SampleAnswer, [u8; O])> {
        let before = self.random.next() as u8;
        let mut room = [before; 24];
        let lent = *input;
        let out: &mut [u8; O] = (&mut room[8..8 + O])
            .try_into()
            .expect("a slice of that length");
        let answer = call(&lent, out);
        let bytes = *out;
        let (front, back) = (&room[..8], &room[8 + O..]);
        let kept = front.iter().chain(back).all(|&byte| byte == before) && lent == *input;
        kept.then_some((answer, bytes))
    }

    fn sample_compared<const O: usize>(
        &mut self,
        call: usize,
        code: u32,
        input: &[u8],
        ours: (SampleAnswer, [u8; O]),
        theirs: Option<(SampleAnswer, [u8; O])>,
    ) -> Option<[u8; O]> {
        let (answer, bytes) = ours;
        if theirs != Some(ours) {
            self.differs(
                &format!("{}, code {code}, bytes {}", CALLS[call], hex(input)),
                || {
                    match theirs {
                        Some((answer, bytes)) => {
                            println!("library:     {answer:?}, bytes {}", hex(&bytes))
                        }
                        None => println!("library:     changed bytes beside its output"),
                    }
                    println!("independent: {answer:?}, bytes {}", hex(&bytes));
                },
            );
        }
        self.count(call, answer.number);
        (answer.number == 0).then_some(bytes)
    }

    /// Reads a reel with both into an output of `room` bytes, and gives the answer. The record is
    /// what `written` then gives.
    pub fn read_reel(&mut self, reel: &[u8], room: usize) -> ReelAnswer {
        self.reel_call(
            READ_REEL,
            "read_reel".to_string(),
            [reel],
            room,
            |[reel], theirs, ours| {
                (
                    library::read_reel(reel, theirs),
                    independent::read_reel(reel, ours).into(),
                )
            },
        )
    }

    /// Reads an Eagle reel with both into an output of `room` bytes, and gives the answer.
    pub fn read_eagle(&mut self, reel: &[u8], room: usize) -> ReelAnswer {
        self.reel_call(
            READ_EAGLE,
            "read_eagle".to_string(),
            [reel],
            room,
            |[reel], theirs, ours| {
                (
                    library::read_eagle(reel, theirs),
                    independent::read_eagle(reel, ours).into(),
                )
            },
        )
    }

    /// Writes a record with both under a code into an output of `room` bytes, and gives the answer.
    pub fn write_reel(&mut self, record: &[u8], code: u32, room: usize) -> ReelAnswer {
        let name = format!("write_reel, code {code}");
        self.reel_call(
            WRITE_REEL,
            name,
            [record],
            room,
            |[record], theirs, ours| {
                (
                    library::write_reel(record, code, theirs),
                    independent::write_reel(record, code, ours).into(),
                )
            },
        )
    }

    /// Writes a record with both under a code, each sample as the nearest value, into an output of
    /// `room` bytes, and gives the answer.
    pub fn write_nearest(&mut self, record: &[u8], code: u32, room: usize) -> ReelAnswer {
        let name = format!("write_nearest, code {code}");
        self.reel_call(
            WRITE_NEAREST,
            name,
            [record],
            room,
            |[record], theirs, ours| {
                (
                    library::write_nearest(record, code, theirs),
                    independent::write_nearest(record, code, ours).into(),
                )
            },
        )
    }

    /// Lists a record's cards with both into an output of `room` bytes, and gives the answer.
    pub fn list_cards(&mut self, record: &[u8], room: usize) -> ReelAnswer {
        let name = "list_cards".to_string();
        self.reel_call(
            LIST_CARDS,
            name,
            [record],
            room,
            |[record], theirs, ours| {
                (
                    library::list_cards(record, theirs),
                    independent::list_cards(record, ours).into(),
                )
            },
        )
    }

    /// Takes a listing back with both into an output of `room` bytes, and gives the answer.
    pub fn take_cards(&mut self, record: &[u8], listing: &[u8], room: usize) -> ReelAnswer {
        let name = "take_cards".to_string();
        let inputs = [record, listing];
        self.reel_call(
            TAKE_CARDS,
            name,
            inputs,
            room,
            |[record, listing], theirs, ours| {
                (
                    library::take_cards(record, listing, theirs),
                    independent::take_cards(record, listing, ours).into(),
                )
            },
        )
    }

    /// The bytes that the latest taken call on a reel or record wrote.
    pub fn written(&self, answer: ReelAnswer) -> &[u8] {
        &self.theirs[self.front..][..answer.length as usize]
    }

    /// Copies what a call is lent to any addresses, and gives where each copy begins.
    fn lend<const I: usize>(&mut self, inputs: [&[u8]; I]) -> [usize; I] {
        let shifts = array::from_fn(|_| self.random.below(ALIGNMENTS));
        for ((copy, input), shift) in self.inputs.iter_mut().zip(inputs).zip(shifts) {
            copy.clear();
            copy.resize(shift, 0);
            copy.extend_from_slice(input);
        }
        shifts
    }

    fn reel_call<const I: usize>(
        &mut self,
        call: usize,
        name: String,
        inputs: [&[u8]; I],
        room: usize,
        both: impl Fn([&[u8]; I], &mut [u8], &mut [u8]) -> (ReelAnswer, ReelAnswer),
    ) -> ReelAnswer {
        let shifts = self.lend(inputs);
        self.front = GUARD + self.random.below(ALIGNMENTS);
        let whole = self.front + room + GUARD;
        let start = self.random.below(self.pattern.len() - whole);
        let before = &self.pattern[start..start + whole];
        self.theirs.clear();
        self.theirs.extend_from_slice(before);
        self.ours.clear();
        self.ours.extend_from_slice(before);

        let lent = self.front..self.front + room;
        let copies: [&[u8]; I] = array::from_fn(|index| &self.inputs[index][shifts[index]..]);
        let (theirs, ours) = both(
            copies,
            &mut self.theirs[lent.clone()],
            &mut self.ours[lent.clone()],
        );

        // Only the first bytes of the output may change, as many as the length, and no others.
        let kept = self.front + ours.length as usize;
        let fault = if theirs != ours {
            Some("the answers differ")
        } else if copies != inputs {
            Some("the library changed an input")
        } else if self.theirs[..lent.start] != before[..lent.start] {
            Some("the library changed bytes before its output")
        } else if self.theirs[lent.end..] != before[lent.end..] {
            Some("the library changed bytes after its output")
        } else if self.theirs != self.ours {
            Some("the outputs differ")
        } else if self.theirs[kept..] != before[kept..] {
            Some("both changed bytes that were to stay")
        } else {
            None
        };
        if let Some(fault) = fault {
            let lengths = inputs.map(<[u8]>::len);
            self.differs(
                &format!("{name}, inputs of {lengths:?} bytes, output {room} bytes"),
                || {
                    println!("{fault}");
                    print_answers(theirs, ours);
                    let place =
                        (lent.clone()).find(|&place| self.theirs[place] != self.ours[place]);
                    if let Some(place) = place {
                        println!(
                        "place {} of the output: library {:02X}, independent {:02X}, before {:02X}",
                        place - lent.start, self.theirs[place], self.ours[place], before[place]
                    );
                    }
                    for input in inputs {
                        print_input(input, &[theirs.beside, ours.beside]);
                    }
                },
            );
        }
        self.count(call, ours.number);
        ours
    }

    /// Looks up a field with both.
    pub fn look_up(&mut self, reel: &[u8], trace: usize, byte: u32) {
        let theirs = library::look_up(reel, trace, byte);
        let ours = FieldAnswer::from(independent::look_up(reel, trace, byte));
        if theirs != ours {
            let name = format!(
                "look_up, trace {trace}, byte number {byte}, input {} bytes",
                reel.len()
            );
            self.differs(&name, || {
                print_answers(theirs, ours);
                print_input(reel, &[theirs.beside, ours.beside]);
            });
        }
        self.count(LOOK_UP, u64::from(ours.number));
    }

    /// Blanks eight card bytes with both, and gives what they become.
    pub fn blank_eight(&mut self, cards: u64) -> u64 {
        let theirs = library::blank_eight(cards);
        let ours = independent::blank_eight(cards);
        if theirs != ours {
            self.differs(&format!("blank_eight, bytes {cards:016X}"), || {
                println!("library:     {theirs:016X}");
                println!("independent: {ours:016X}");
            });
        }
        self.count(BLANK_EIGHT, 0);
        ours
    }

    /// Compares two records with both, and gives the answer.
    pub fn order(&mut self, first: &[u8], second: &[u8]) -> OrderAnswer {
        let shifts = self.lend([first, second]);
        let copies = [0, 1].map(|index| &self.inputs[index][shifts[index]..]);
        let theirs = library::compare(copies[0], copies[1]);
        let ours = OrderAnswer::from(independent::compare(first, second));
        let fault = if theirs != ours {
            Some("the answers differ")
        } else if copies != [first, second] {
            Some("the library changed a record")
        } else {
            None
        };
        if let Some(fault) = fault {
            let lengths = [first, second].map(<[u8]>::len);
            self.differs(&format!("compare, inputs of {lengths:?} bytes"), || {
                println!("{fault}");
                print_answers(theirs, ours);
                print_records(first, second, &[theirs.beside, ours.beside]);
            });
        }
        self.count(COMPARE, u64::from(ours.number));
        ours
    }

    /// Checks a box with both, and gives the answer. The list stands behind some other numbers and before
    /// some others.
    pub fn check_box(&mut self, slice: &[u8], lengths: &[u64]) -> BoxAnswer {
        let [shift] = self.lend([slice]);
        let front = self.random.below(3);
        self.lengths.clear();
        self.lengths.resize(front, self.random.next());
        self.lengths.extend_from_slice(lengths);
        self.lengths.push(self.random.next());
        let copy = &self.inputs[0][shift..];
        let list = &self.lengths[front..][..lengths.len()];
        let theirs = library::check_box(copy, list);
        let ours = BoxAnswer::from(independent::check_box(slice, lengths));
        let fault = if theirs != ours {
            Some("the answers differ")
        } else if copy != slice {
            Some("the library changed a reel")
        } else if list != lengths {
            Some("the library changed the list")
        } else {
            None
        };
        if let Some(fault) = fault {
            let length = slice.len();
            self.differs(&format!("check_box, slice of {length} bytes"), || {
                println!("{fault}");
                print_answers(theirs, ours);
                print_box(slice, lengths, &[theirs.beside, ours.beside]);
            });
        }
        self.count(CHECK_BOX, ours.number);
        ours
    }

    /// Prints a difference and ends the run.
    pub fn differs(&self, call: &str, details: impl FnOnce()) -> ! {
        println!(
            "{}, call {} of it: {call}",
            self.stage,
            self.stage_calls + 1
        );
        details();
        println!(
            "differential: {} calls compared, then 1 differs",
            self.calls()
        );
        process::exit(1);
    }
}

fn print_answers<T: Debug>(theirs: T, ours: T) {
    println!("library:     {theirs:?}");
    println!("independent: {ours:?}");
}

/// Prints two records, and the bytes of both around the first place at which they differ.
pub fn print_records(first: &[u8], second: &[u8], places: &[u64]) {
    let alike = first.iter().zip(second).take_while(|(a, b)| a == b).count();
    println!("the records differ from place {alike} on");
    let places = [places, &[alike as u64]].concat();
    print_input(first, &places);
    print_input(second, &places);
}

/// Prints a box: the list, the binary header of each reel that the slice has, and the bytes around the
/// places. Of a long list the rest is left out.
pub fn print_box(slice: &[u8], lengths: &[u64], places: &[u64]) {
    let shown = &lengths[..lengths.len().min(12)];
    println!("{} lengths: {shown:?}", lengths.len());
    let mut start: u64 = 0;
    for &length in shown {
        let end = start.saturating_add(length).min(slice.len() as u64);
        let reel = &slice[start as usize..end as usize];
        if let Some(header) = reel.get(3_200..3_260) {
            println!("reel from place {start}, header: {}", hex(header));
        }
        start = end;
    }
    for &place in places {
        let place = place as usize;
        if place < slice.len() {
            let around = &slice[place.saturating_sub(8)..slice.len().min(place + 16)];
            println!("slice around place {place}: {}", hex(around));
        }
    }
}

/// Prints the input: the cards are left out, the rest is cut after some lines. The bytes around the
/// places follow, if they are elsewhere.
pub fn print_input(input: &[u8], places: &[u64]) {
    const SHOWN: std::ops::Range<usize> = 3_200..4_200;
    if input.len() > SHOWN.start {
        let end = input.len().min(SHOWN.end);
        println!(
            "input from place {}: {}",
            SHOWN.start,
            hex(&input[SHOWN.start..end])
        );
    }
    for &place in places {
        let place = place as usize;
        if place < input.len() && !SHOWN.contains(&place) {
            let start = place.saturating_sub(8);
            let end = input.len().min(place + 16);
            println!("input from place {start}: {}", hex(&input[start..end]));
        }
    }
}

/// Bytes in hexadecimal, with a count for runs of equal ones.
fn hex(bytes: &[u8]) -> String {
    let mut text = String::new();
    for run in bytes.chunk_by(|a, b| a == b) {
        match run.len() {
            1..=4 => text += &format!("{:02X}", run[0]).repeat(run.len()),
            length => text += &format!(" {:02X}*{length} ", run[0]),
        }
    }
    text.trim().to_string()
}
