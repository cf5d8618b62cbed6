//! SEG-Y revision 0 reels and their canonical records: the five calls of document 01, the two of
//! document 02's CR 1, and the one of each of its CR 5, CR 6, CR 7, CR 9 and CR 10, with the scalars of
//! CR 2, the count of CR 3, the codes of CR 4 and the sample fields of CR 8, in plain Rust, written from
//! the papers alone. The differential test compares the library with them.
//!
//! A refused call changes no byte of its output. So each call on a whole reel or record makes two
//! passes: the first looks for causes to refuse, the second writes.

use std::ops::Range;

mod boxes;
mod nearest;
mod order;
mod page;
mod scalars;
#[cfg(test)]
mod tests;

pub use boxes::{check_box, BoxTaken};
pub use order::{compare, RefusedOf};

const CARD_BYTES: usize = 3_200;
/// The cards and the binary header, after which the traces begin.
const REEL_HEADERS: usize = 3_600;
const TRACE_HEADER: usize = 240;

/// A trailer follows the samples of each trace on an Eagle reel, and ends in these two bytes.
const TRAILER: usize = 960;
const TRAILER_END: [u8; 2] = [0xFF, 0xFF];
/// Columns 79 and 80 of card 40, the last two card bytes, hold a check on an Eagle reel.
const CHECK: usize = 2;

/// The assigned fields of either header stand at its front without gaps.
const BINARY_FIELDS: usize = 60;
const TRACE_FIELDS: usize = 180;

// Offsets in the binary header: fields 3217, 3221 and 3225.
const INTERVAL: usize = 16;
const COUNT: usize = 20;
const CODE: usize = 24;

// Offsets in a trace header: fields 115 and 117.
const TRACE_COUNT: usize = 114;
const TRACE_INTERVAL: usize = 116;

const MOST_SAMPLES: u16 = 32_767;
const MOST_INTERVAL: u16 = 32_767;
const MOST_TRACES: usize = 100_000;

/// Tag and length stand before the content of each field of a record.
const FIELD_HEAD: usize = 3;
const TAG_CARDS: u8 = 0x01;
const TAG_BINARY: u8 = 0x02;
const TAG_TRACE: u8 = 0x03;
const TAG_SAMPLES: u8 = 0x04;
const TAG_COUNT: u8 = 0x05;
const COUNT_BYTES: usize = 4;
const PAIR_BYTES: usize = 6;

/// The samples in each sample field of a trace; the last has the remaining ones.
const FIELD_SAMPLES: usize = 6_000;
/// The most samples that an earlier record has in the single field of a trace.
const MOST_IN_SINGLE_FIELD: usize = 8_000;

const EBCDIC_BLANK: u8 = 0x40;

/// A card has as many characters, and so has a line of a listing before its line feed.
const COLUMNS: usize = 80;
const LINE_BYTES: usize = COLUMNS + 1;
const LISTING_BYTES: usize = CARD_BYTES / COLUMNS * LINE_BYTES;
const LINE_FEED: u8 = 0x0A;

/// What a taken call on a record answers. The length is that of what was written.
#[derive(Clone, Copy, Debug, PartialEq, Eq)]
pub struct Taken {
    pub traces: u64,
    pub samples: u64,
    pub length: u64,
}

/// What reading a reel answers where it is taken. The length is that of the record that was written,
/// and the last is how many words of the reel are not normal.
#[derive(Clone, Copy, Debug, PartialEq, Eq)]
pub struct ReelRead {
    pub traces: u64,
    pub samples: u64,
    pub length: u64,
    pub not_normal: u64,
}

/// What nearest writing answers where it is taken. The length is that of the reel that was written, and
/// the last is how many samples have another value on it than in the record.
#[derive(Clone, Copy, Debug, PartialEq, Eq)]
pub struct NearestWritten {
    pub traces: u64,
    pub samples: u64,
    pub length: u64,
    pub changed: u64,
}

/// What reading a word answers where it is taken: its pair, and whether it is an IBM word that is not
/// normal.
#[derive(Clone, Copy, Debug, PartialEq, Eq)]
pub struct WordRead {
    pub pair: [u8; 6],
    pub not_normal: bool,
}

/// The number of the cause, and what stands beside it in document 01's table, or beside numbers 17
/// to 22 in document 02.
#[derive(Clone, Copy, Debug, PartialEq, Eq)]
pub struct Refused {
    pub number: u64,
    pub beside: u64,
}

fn refused<T>(number: u64, beside: usize) -> Result<T, Refused> {
    Err(Refused {
        number,
        beside: beside as u64,
    })
}

/// Reads one word. Under code 3 it is the first two bytes, under code 8 the first.
pub fn read_word(code: u32, word: [u8; 4]) -> Result<WordRead, Refused> {
    let Some(code) = Code::numbered(code) else {
        return refused(2, 0);
    };
    let pair = match code {
        Code::Ibm => Pair::of_ibm(word),
        Code::Whole32 => Pair::of_whole32(word),
        Code::Whole16 => Pair::of_whole16([word[0], word[1]]),
        Code::Gain if word[0] != 0 => return refused(9, 0),
        Code::Gain => Pair::of_gain(word),
        Code::Ieee if !is_finite(word) => return refused(19, 0),
        Code::Ieee => Pair::of_ieee(word),
        Code::Whole8 => Pair::of_whole8([word[0]]),
    };
    Ok(WordRead {
        pair: pair.bytes(),
        not_normal: matches!(code, Code::Ibm) && !is_normal(word),
    })
}

/// Writes one pair. Under code 3 the word is the first two bytes, under code 8 the first, and the rest
/// is 00.
pub fn write_pair(code: u32, pair: [u8; 6]) -> Result<[u8; 4], Refused> {
    let Some(code) = Code::numbered(code) else {
        return refused(11, 0);
    };
    let pair = Pair::of_bytes(&pair);
    if !pair.is_canonical() {
        return refused(13, 0);
    }
    let word = match code {
        Code::Ibm => pair.ibm(),
        Code::Whole32 => pair.whole32(),
        Code::Whole16 => pair.whole16().map(|[high, low]| [high, low, 0, 0]),
        Code::Gain => pair.gain(),
        Code::Ieee => pair.ieee(),
        Code::Whole8 => pair.whole8().map(|[byte]| [byte, 0, 0, 0]),
    };
    word.map_or(refused(14, 0), Ok)
}

/// Reads a plain reel and writes its record to the front of the output.
pub fn read_reel(reel: &[u8], out: &mut [u8]) -> Result<ReelRead, Refused> {
    read(Layout::Plain, reel, out)
}

/// Reads an Eagle reel and writes its record to the front of the output.
pub fn read_eagle(reel: &[u8], out: &mut [u8]) -> Result<ReelRead, Refused> {
    read(Layout::Eagle, reel, out)
}

/// Reads a reel of either layout.
fn read(layout: Layout, reel: &[u8], out: &mut [u8]) -> Result<ReelRead, Refused> {
    let (code, shape) = check_reel(layout, reel)?;
    let length = shape.record_length();
    let Some(mut room) = out.get_mut(..length) else {
        return refused(10, length);
    };

    let cards = put_field(&mut room, TAG_CARDS, CARD_BYTES);
    for (card, &byte) in cards.iter_mut().zip(&reel[..CARD_BYTES]) {
        *card = card_byte(byte);
    }
    if layout == Layout::Eagle {
        cards[CARD_BYTES - CHECK..].fill(EBCDIC_BLANK);
    }

    let binary = put_field(&mut room, TAG_BINARY, BINARY_FIELDS);
    binary.copy_from_slice(&reel[CARD_BYTES..][..BINARY_FIELDS]);
    put_number(binary, CODE, 0);

    let mut not_normal = 0;
    let trace_length = shape.trace_length(code);
    for trace in reel[REEL_HEADERS..].chunks_exact(trace_length + layout.trailer()) {
        let (header, words) = trace[..trace_length].split_at(TRACE_HEADER);
        let fields = put_field(&mut room, TAG_TRACE, TRACE_FIELDS);
        fields.copy_from_slice(&header[..TRACE_FIELDS]);
        for group in scalars::GROUPS {
            group.respell(fields);
        }
        put_number(fields, TRACE_COUNT, shape.samples);
        put_number(fields, TRACE_INTERVAL, shape.interval);

        for words in words.chunks(FIELD_SAMPLES * code.width()) {
            let samples = words.len() / code.width();
            let pairs = put_field(&mut room, TAG_SAMPLES, PAIR_BYTES * samples);
            match code {
                Code::Ibm => {
                    put_pairs(words, pairs, Pair::of_ibm);
                    not_normal += words
                        .chunks_exact(4)
                        .filter(|word| !is_normal(array(word)))
                        .count();
                }
                Code::Whole32 => put_pairs(words, pairs, Pair::of_whole32),
                Code::Whole16 => put_pairs(words, pairs, Pair::of_whole16),
                Code::Gain => put_pairs(words, pairs, Pair::of_gain),
                Code::Ieee => put_pairs(words, pairs, Pair::of_ieee),
                Code::Whole8 => put_pairs(words, pairs, Pair::of_whole8),
            }
        }
    }

    let count = put_field(&mut room, TAG_COUNT, COUNT_BYTES);
    count.copy_from_slice(&(shape.traces as u32).to_be_bytes());
    Ok(ReelRead {
        traces: shape.traces as u64,
        samples: u64::from(shape.samples),
        length: length as u64,
        not_normal: not_normal as u64,
    })
}

/// Writes a record as a reel under a target code to the front of the output.
pub fn write_reel(record: &[u8], code: u32, out: &mut [u8]) -> Result<Taken, Refused> {
    let Some(code) = Code::numbered(code) else {
        return refused(11, 0);
    };
    let (shape, held) = check_record(record, Some(code))?;
    let length = shape.reel_length(code);
    let Some(reel) = out.get_mut(..length) else {
        return refused(10, length);
    };

    let (headers, traces) = reel.split_at_mut(REEL_HEADERS);
    let (cards, binary) = headers.split_at_mut(CARD_BYTES);
    cards.copy_from_slice(&record[FIELD_HEAD..][..CARD_BYTES]);
    let (fields, unassigned) = binary.split_at_mut(BINARY_FIELDS);
    fields.copy_from_slice(&record[BINARY_PLACE + FIELD_HEAD..][..BINARY_FIELDS]);
    put_number(fields, CODE, code as u16);
    unassigned.fill(0);

    for (trace, held) in traces.chunks_exact_mut(shape.trace_length(code)).zip(held) {
        let (header, mut words) = trace.split_at_mut(TRACE_HEADER);
        let (fields, unassigned) = header.split_at_mut(TRACE_FIELDS);
        fields.copy_from_slice(&record[held.header]);
        unassigned.fill(0);

        for pairs in held.samples {
            let pairs = &record[pairs];
            let room = pairs.len() / PAIR_BYTES * code.width();
            let (room, rest) = words.split_at_mut(room);
            words = rest;
            match code {
                Code::Ibm => put_words(pairs, room, Pair::ibm),
                Code::Whole32 => put_words(pairs, room, Pair::whole32),
                Code::Whole16 => put_words(pairs, room, Pair::whole16),
                Code::Gain => put_words(pairs, room, Pair::gain),
                Code::Ieee => put_words(pairs, room, Pair::ieee),
                Code::Whole8 => put_words(pairs, room, Pair::whole8),
            }
        }
    }
    Ok(shape.taken(length))
}

/// Writes a record as a reel under a target code to the front of the output, each sample as the nearest
/// value of that code. It is what exact writing makes of the record with those values in it, and they
/// all fit.
pub fn write_nearest(record: &[u8], code: u32, out: &mut [u8]) -> Result<NearestWritten, Refused> {
    let Some(target) = Code::numbered(code) else {
        return refused(11, 0);
    };
    let (shape, held) = check_record(record, None)?;
    let length = shape.reel_length(target);
    if out.len() < length {
        return refused(10, length);
    }

    let rows = nearest::rows(target);
    let mut rounded = record.to_vec();
    let mut changed = 0;
    for pairs in held.into_iter().flat_map(|trace| trace.samples) {
        for pair in rounded[pairs].chunks_exact_mut(PAIR_BYTES) {
            let near = nearest::nearest(Pair::of_bytes(pair), &rows).bytes();
            changed += u64::from(pair != near);
            pair.copy_from_slice(&near);
        }
    }
    let written = write_reel(&rounded, code, out).expect("each sample fits, and so does the reel");
    Ok(NearestWritten {
        traces: written.traces,
        samples: written.samples,
        length: written.length,
        changed,
    })
}

/// Looks up the assigned field that begins at a byte number: of the binary header for trace 0, of
/// that trace's header from 1 on.
pub fn look_up(reel: &[u8], trace: usize, byte: u32) -> Result<i32, Refused> {
    let (code, shape) = check_reel(Layout::Plain, reel)?;
    if trace > shape.traces {
        return refused(15, 0);
    }
    if trace == 0 {
        let Some(width) = binary_field(byte) else {
            return refused(16, 0);
        };
        return Ok(signed(&reel[byte as usize - 1..][..width]));
    }
    let Some(width) = trace_field(byte) else {
        return refused(16, 0);
    };
    let header = REEL_HEADERS + (trace - 1) * shape.trace_length(code);
    Ok(
        match (byte, signed(&reel[header + byte as usize - 1..][..width])) {
            (115, 0) => i32::from(shape.samples),
            (117, 0) => i32::from(shape.interval),
            (_, number) => number,
        },
    )
}

/// Writes the card text of a record to the front of the output as a listing, and gives its length.
pub fn list_cards(record: &[u8], out: &mut [u8]) -> Result<u64, Refused> {
    check_record(record, None)?;
    let Some(listing) = out.get_mut(..LISTING_BYTES) else {
        return refused(10, LISTING_BYTES);
    };

    let cards = record[FIELD_HEAD..][..CARD_BYTES].chunks_exact(COLUMNS);
    for (line, card) in listing.chunks_exact_mut(LINE_BYTES).zip(cards) {
        for (character, &code) in line.iter_mut().zip(card) {
            *character = page::CHARACTERS[code as usize];
        }
        line[COLUMNS] = LINE_FEED;
    }
    Ok(LISTING_BYTES as u64)
}

/// Writes the record with the text of the listing to the front of the output.
pub fn take_cards(record: &[u8], listing: &[u8], out: &mut [u8]) -> Result<Taken, Refused> {
    let (shape, _) = check_record(record, None)?;
    if listing.len() != LISTING_BYTES {
        return refused(17, listing.len());
    }
    let lines = listing.chunks_exact(LINE_BYTES);
    if let Some(line) = lines.clone().position(|line| line[COLUMNS] != LINE_FEED) {
        return refused(17, line * LINE_BYTES + COLUMNS);
    }
    let length = record.len();
    let Some(corrected) = out.get_mut(..length) else {
        return refused(10, length);
    };

    corrected.copy_from_slice(record);
    let cards = corrected[FIELD_HEAD..][..CARD_BYTES].chunks_exact_mut(COLUMNS);
    for (card, line) in cards.zip(lines) {
        for (byte, &character) in card.iter_mut().zip(line) {
            *byte = card_byte(page::CODES[character as usize]);
        }
    }
    Ok(shape.taken(length))
}

/// Eight card bytes as one number, the first byte highest: 40 for each 00, and every other byte as it
/// was.
pub fn blank_eight(cards: u64) -> u64 {
    u64::from_be_bytes(cards.to_be_bytes().map(card_byte))
}

/// A card byte as a record holds it: 00 is taken as the blank.
fn card_byte(byte: u8) -> u8 {
    if byte == 0 {
        EBCDIC_BLANK
    } else {
        byte
    }
}

/// The bytes of the binary header's field that begins at a byte number.
fn binary_field(byte: u32) -> Option<usize> {
    match byte {
        3201 | 3205 | 3209 => Some(4),
        3213..=3259 if byte % 2 == 1 => Some(2),
        _ => None,
    }
}

/// The bytes of the trace header's field that begins at a byte number.
fn trace_field(byte: u32) -> Option<usize> {
    match byte {
        1..=25 | 37..=65 | 73..=85 if byte % 4 == 1 => Some(4),
        29..=35 | 69..=71 | 89..=179 if byte % 2 == 1 => Some(2),
        _ => None,
    }
}

/// The signed number in the two or four bytes of a header field.
fn signed(field: &[u8]) -> i32 {
    if field.len() == 2 {
        i32::from(i16::from_be_bytes(array(field)))
    } else {
        i32::from_be_bytes(array(field))
    }
}

/// The format codes, by their numbers on a reel.
#[derive(Clone, Copy, PartialEq)]
enum Code {
    Ibm = 1,
    Whole32 = 2,
    Whole16 = 3,
    Gain = 4,
    Ieee = 5,
    Whole8 = 8,
}

impl Code {
    fn numbered(number: u32) -> Option<Code> {
        match number {
            1 => Some(Code::Ibm),
            2 => Some(Code::Whole32),
            3 => Some(Code::Whole16),
            4 => Some(Code::Gain),
            5 => Some(Code::Ieee),
            8 => Some(Code::Whole8),
            _ => None,
        }
    }

    /// The bytes of a word on a reel.
    fn width(self) -> usize {
        match self {
            Code::Whole8 => 1,
            Code::Whole16 => 2,
            Code::Ibm | Code::Whole32 | Code::Gain | Code::Ieee => 4,
        }
    }
}

/// How a reel is laid out: as document 01 says, or as CR 7 says of Eagle reels.
#[derive(Clone, Copy, PartialEq)]
enum Layout {
    Plain,
    Eagle,
}

impl Layout {
    fn allows(self, code: Code) -> bool {
        match self {
            Layout::Plain => true,
            Layout::Eagle => code == Code::Ibm,
        }
    }

    /// The bytes behind the samples of each trace.
    fn trailer(self) -> usize {
        match self {
            Layout::Plain => 0,
            Layout::Eagle => TRAILER,
        }
    }
}

/// What the lengths of a plain reel and of a record follow from, and the interval that fills field 117.
/// A reel's length follows from its code as well.
struct Shape {
    samples: u16,
    interval: u16,
    traces: usize,
}

impl Shape {
    /// The bytes of a trace: its header and its samples, without a trailer.
    fn trace_length(&self, code: Code) -> usize {
        TRACE_HEADER + self.samples as usize * code.width()
    }

    fn reel_length(&self, code: Code) -> usize {
        REEL_HEADERS + self.traces * self.trace_length(code)
    }

    /// The bytes of the record that reading gives.
    fn record_length(&self) -> usize {
        let samples = self.samples as usize;
        let fields = samples.div_ceil(FIELD_SAMPLES);
        let trace = FIELD_HEAD + TRACE_FIELDS + FIELD_HEAD * fields + PAIR_BYTES * samples;
        TRACES_PLACE + self.traces * trace + FIELD_HEAD + COUNT_BYTES
    }

    fn taken(&self, length: usize) -> Taken {
        Taken {
            traces: self.traces as u64,
            samples: u64::from(self.samples),
            length: length as u64,
        }
    }
}

/// Looks for the causes 1 to 9, for 18 between 8 and 9, for 19 where 9 stands, and for 20 behind them.
fn check_reel(layout: Layout, reel: &[u8]) -> Result<(Code, Shape), Refused> {
    if reel.len() < REEL_HEADERS {
        return refused(1, reel.len());
    }
    let binary = &reel[CARD_BYTES..REEL_HEADERS];
    let code = match Code::numbered(u32::from(number_at(binary, CODE))) {
        Some(code) if layout.allows(code) => code,
        _ => return refused(2, CARD_BYTES + CODE),
    };
    let samples = number_at(binary, COUNT);
    if !(1..=MOST_SAMPLES).contains(&samples) {
        return refused(3, CARD_BYTES + COUNT);
    }
    let interval = number_at(binary, INTERVAL);
    if !(1..=MOST_INTERVAL).contains(&interval) {
        return refused(4, CARD_BYTES + INTERVAL);
    }

    let mut shape = Shape {
        samples,
        interval,
        traces: 0,
    };
    let trace_length = shape.trace_length(code);
    let whole_length = trace_length + layout.trailer();
    let traces = reel[REEL_HEADERS..].chunks_exact(whole_length);
    shape.traces = traces.len();
    if !traces.remainder().is_empty() {
        return refused(5, REEL_HEADERS + shape.traces * whole_length);
    }
    if shape.traces > MOST_TRACES {
        return refused(6, REEL_HEADERS + MOST_TRACES * whole_length);
    }

    for (index, trace) in traces.enumerate() {
        let place = REEL_HEADERS + index * whole_length;
        let (header, words) = trace[..trace_length].split_at(TRACE_HEADER);
        let trace_samples = number_at(header, TRACE_COUNT);
        if trace_samples != 0 && trace_samples != samples {
            return refused(7, place + TRACE_COUNT);
        }
        let trace_interval = number_at(header, TRACE_INTERVAL);
        if trace_interval != 0 && trace_interval != interval {
            return refused(8, place + TRACE_INTERVAL);
        }
        for group in scalars::GROUPS {
            if !group.is_allowed(header) {
                return refused(18, place + group.scalar);
            }
        }
        let mut words = words.chunks_exact(code.width());
        let found = match code {
            Code::Gain => words.position(|word| word[0] != 0).map(|word| (9, word)),
            Code::Ieee => words
                .position(|word| !is_finite(array(word)))
                .map(|word| (19, word)),
            Code::Ibm | Code::Whole32 | Code::Whole16 | Code::Whole8 => None,
        };
        if let Some((number, word)) = found {
            return refused(number, place + TRACE_HEADER + 4 * word);
        }
        if layout == Layout::Eagle && !trace.ends_with(&TRAILER_END) {
            return refused(20, place + whole_length - TRAILER_END.len());
        }
    }
    Ok((code, shape))
}

const BINARY_PLACE: usize = FIELD_HEAD + CARD_BYTES;
const TRACES_PLACE: usize = BINARY_PLACE + FIELD_HEAD + BINARY_FIELDS;

/// Where the content of a trace's fields stands in a record.
struct HeldTrace {
    header: Range<usize>,
    samples: Vec<Range<usize>>,
}

/// Looks for the causes 12 and 13, front to back, and for 14 where there is neither. Without a target
/// code there is no 14.
fn check_record(record: &[u8], code: Option<Code>) -> Result<(Shape, Vec<HeldTrace>), Refused> {
    let cards = field(record, 0, TAG_CARDS, CARD_BYTES)?;
    if let Some(card) = cards.iter().position(|&byte| byte == 0) {
        return refused(13, FIELD_HEAD + card);
    }

    let binary = field(record, BINARY_PLACE, TAG_BINARY, BINARY_FIELDS)?;
    let interval = number_at(binary, INTERVAL);
    if !(1..=MOST_INTERVAL).contains(&interval) {
        return refused(13, BINARY_PLACE + FIELD_HEAD + INTERVAL);
    }
    let samples = number_at(binary, COUNT);
    if !(1..=MOST_SAMPLES).contains(&samples) {
        return refused(13, BINARY_PLACE + FIELD_HEAD + COUNT);
    }
    if number_at(binary, CODE) != 0 {
        return refused(13, BINARY_PLACE + FIELD_HEAD + CODE);
    }

    let mut shape = Shape {
        samples,
        interval,
        traces: 0,
    };
    let mut place = TRACES_PLACE;
    let mut traces = Vec::new();
    let mut misfit = None;
    while traces.len() < MOST_TRACES && record.get(place) == Some(&TAG_TRACE) {
        let header = field(record, place, TAG_TRACE, TRACE_FIELDS)?;
        for group in scalars::GROUPS {
            if !group.is_smallest(header) {
                return refused(13, place + FIELD_HEAD + group.scalar);
            }
        }
        if number_at(header, TRACE_COUNT) != samples {
            return refused(13, place + FIELD_HEAD + TRACE_COUNT);
        }
        if number_at(header, TRACE_INTERVAL) != interval {
            return refused(13, place + FIELD_HEAD + TRACE_INTERVAL);
        }
        let header = content_at(place, TRACE_FIELDS);
        place = header.end;

        let mut fields = Vec::new();
        for share in shares(record, place, samples as usize) {
            let pairs = field(record, place, TAG_SAMPLES, PAIR_BYTES * share)?;
            let found = match code {
                None => check_pairs(pairs, |pair| Some(pair.bytes())),
                Some(Code::Ibm) => check_pairs(pairs, Pair::ibm),
                Some(Code::Whole32) => check_pairs(pairs, Pair::whole32),
                Some(Code::Whole16) => check_pairs(pairs, Pair::whole16),
                Some(Code::Gain) => check_pairs(pairs, Pair::gain),
                Some(Code::Ieee) => check_pairs(pairs, Pair::ieee),
                Some(Code::Whole8) => check_pairs(pairs, Pair::whole8),
            };
            let content = content_at(place, pairs.len());
            let pair_place = |pair| content.start + PAIR_BYTES * pair;
            match found {
                Pairs::NotCanonical(pair) => return refused(13, pair_place(pair)),
                Pairs::Misfit(pair) => misfit = misfit.or(Some(pair_place(pair))),
                Pairs::Fit => {}
            }
            place = content.end;
            fields.push(content);
        }
        traces.push(HeldTrace {
            header,
            samples: fields,
        });
    }

    shape.traces = traces.len();
    let count = field(record, place, TAG_COUNT, COUNT_BYTES)?;
    if u32::from_be_bytes(array(count)) as usize != shape.traces {
        return refused(12, place);
    }
    let end = place + FIELD_HEAD + COUNT_BYTES;
    if record.len() > end {
        return refused(12, end);
    }
    misfit.map_or(Ok((shape, traces)), |place| refused(14, place))
}

/// The samples in each sample field of the trace whose first one should stand at a place of the record:
/// all in one where the length there is that of the earlier single field, and by CR 8 otherwise.
fn shares(record: &[u8], place: usize, samples: usize) -> Vec<usize> {
    let may_be_single = (FIELD_SAMPLES + 1..=MOST_IN_SINGLE_FIELD).contains(&samples);
    let length = record.get(place + 1..place + FIELD_HEAD);
    let length = length.map(|bytes| number_at(bytes, 0) as usize);
    if may_be_single && length == Some(PAIR_BYTES * samples) {
        return vec![samples];
    }
    let firsts = (0..samples).step_by(FIELD_SAMPLES);
    firsts
        .map(|first| FIELD_SAMPLES.min(samples - first))
        .collect()
}

/// Where the content of a field stands whose tag stands at a place.
fn content_at(place: usize, length: usize) -> Range<usize> {
    place + FIELD_HEAD..place + FIELD_HEAD + length
}

/// The content of the field whose tag should stand at a place of the record.
fn field(record: &[u8], place: usize, tag: u8, length: usize) -> Result<&[u8], Refused> {
    let [high, low] = (length as u16).to_be_bytes();
    match record[place..].strip_prefix(&[tag, high, low]) {
        Some(rest) if rest.len() >= length => Ok(&rest[..length]),
        _ => refused(12, place),
    }
}

/// What the pairs of a trace come to. The number is the first such pair's, counted from 0.
enum Pairs {
    Fit,
    Misfit(usize),
    NotCanonical(usize),
}

fn check_pairs<const W: usize>(pairs: &[u8], word_of: impl Fn(Pair) -> Option<[u8; W]>) -> Pairs {
    let mut found = Pairs::Fit;
    for (index, pair) in pairs.chunks_exact(PAIR_BYTES).enumerate() {
        let pair = Pair::of_bytes(pair);
        if !pair.is_canonical() {
            return Pairs::NotCanonical(index);
        }
        if word_of(pair).is_none() && matches!(found, Pairs::Fit) {
            found = Pairs::Misfit(index);
        }
    }
    found
}

fn put_pairs<const W: usize>(words: &[u8], pairs: &mut [u8], pair_of: impl Fn([u8; W]) -> Pair) {
    for (word, room) in words
        .chunks_exact(W)
        .zip(pairs.chunks_exact_mut(PAIR_BYTES))
    {
        room.copy_from_slice(&pair_of(array(word)).bytes());
    }
}

fn put_words<const W: usize>(
    pairs: &[u8],
    words: &mut [u8],
    word_of: impl Fn(Pair) -> Option<[u8; W]>,
) {
    for (pair, room) in pairs
        .chunks_exact(PAIR_BYTES)
        .zip(words.chunks_exact_mut(W))
    {
        let word = word_of(Pair::of_bytes(pair)).expect("the first pass found that it fits");
        room.copy_from_slice(&word);
    }
}

/// Puts a field's tag and length at the front of the room that is left, and gives its content.
fn put_field<'a>(room: &mut &'a mut [u8], tag: u8, length: usize) -> &'a mut [u8] {
    let (field, rest) = std::mem::take(room).split_at_mut(FIELD_HEAD + length);
    *room = rest;
    let (head, content) = field.split_at_mut(FIELD_HEAD);
    head[0] = tag;
    put_number(head, 1, length as u16);
    content
}

fn number_at(bytes: &[u8], offset: usize) -> u16 {
    u16::from_be_bytes([bytes[offset], bytes[offset + 1]])
}

fn put_number(bytes: &mut [u8], offset: usize, number: u16) {
    bytes[offset..offset + 2].copy_from_slice(&number.to_be_bytes());
}

fn array<const W: usize>(bytes: &[u8]) -> [u8; W] {
    bytes.try_into().expect("a slice of that length")
}

/// Whether an IBM word is the normal word of its value. For zero that is 00000000; otherwise the first
/// hexadecimal digit of the fraction isn't 0, unless the characteristic is 0.
fn is_normal(word: [u8; 4]) -> bool {
    let bits = u32::from_be_bytes(word);
    let (characteristic, fraction) = (bits >> 24 & 0x7F, bits & 0x00FF_FFFF);
    if fraction == 0 {
        bits == 0
    } else {
        fraction >> 20 != 0 || characteristic == 0
    }
}

/// The parts of an IEEE word: its sign bit, its 8-bit exponent and its 23-bit fraction.
fn ieee_parts(word: [u8; 4]) -> (bool, i16, i32) {
    let bits = u32::from_be_bytes(word);
    let exponent = (bits >> 23 & 0xFF) as i16;
    (bits >> 31 == 1, exponent, (bits & 0x007F_FFFF) as i32)
}

/// Whether an IEEE word has a value. Those of the largest exponent are the infinities and the
/// not-a-numbers.
fn is_finite(word: [u8; 4]) -> bool {
    let (_, exponent, _) = ieee_parts(word);
    exponent != 255
}

/// The canonical sample, of the value `mantissa` × 2^`exponent`.
#[derive(Clone, Copy)]
struct Pair {
    exponent: i16,
    mantissa: i32,
}

const LEAST_EXPONENT: i16 = -280;
const MOST_EXPONENT: i16 = 251;

impl Pair {
    fn of_bytes(bytes: &[u8]) -> Pair {
        Pair {
            exponent: i16::from_be_bytes(array(&bytes[..2])),
            mantissa: i32::from_be_bytes(array(&bytes[2..])),
        }
    }

    fn bytes(self) -> [u8; PAIR_BYTES] {
        let mut bytes = [0; PAIR_BYTES];
        bytes[..2].copy_from_slice(&self.exponent.to_be_bytes());
        bytes[2..].copy_from_slice(&self.mantissa.to_be_bytes());
        bytes
    }

    /// The most negative mantissa is even, so an odd one is within its limits.
    fn is_canonical(self) -> bool {
        if self.mantissa == 0 {
            self.exponent == 0
        } else {
            self.mantissa % 2 != 0 && (LEAST_EXPONENT..=MOST_EXPONENT).contains(&self.exponent)
        }
    }

    /// The pair of `number` × 2^`exponent`: the power of two is counted out of the number.
    fn of_value(number: i32, exponent: i16) -> Pair {
        if number == 0 {
            return Pair {
                exponent: 0,
                mantissa: 0,
            };
        }
        let twos = number.trailing_zeros();
        Pair {
            exponent: exponent + twos as i16,
            mantissa: number >> twos,
        }
    }

    /// Sign and magnitude: the fraction times 16^(characteristic - 70).
    fn of_ibm(word: [u8; 4]) -> Pair {
        let [first, fraction @ ..] = word;
        let characteristic = i16::from(first & 0x7F);
        let magnitude = i32::from_be_bytes([0, fraction[0], fraction[1], fraction[2]]);
        let number = if first & 0x80 == 0 {
            magnitude
        } else {
            -magnitude
        };
        Pair::of_value(number, 4 * characteristic - 280)
    }

    fn of_whole32(word: [u8; 4]) -> Pair {
        Pair::of_value(i32::from_be_bytes(word), 0)
    }

    fn of_whole16(word: [u8; 2]) -> Pair {
        Pair::of_value(i32::from(i16::from_be_bytes(word)), 0)
    }

    /// The first byte has been found to be 00.
    fn of_gain([_, gain, high, low]: [u8; 4]) -> Pair {
        Pair::of_value(i32::from(i16::from_be_bytes([high, low])), -i16::from(gain))
    }

    /// The word has been found to have a value. With f the fraction over 2^23 that is 1.f times
    /// 2^(exponent - 127); where the exponent is 0 it is subnormal, 0.f times 2^-126. Both zeros are
    /// zero.
    fn of_ieee(word: [u8; 4]) -> Pair {
        let (negative, exponent, fraction) = ieee_parts(word);
        let (magnitude, power) = if exponent == 0 {
            (fraction, -126)
        } else {
            ((1 << 23) + fraction, exponent - 127)
        };
        Pair::of_value(if negative { -magnitude } else { magnitude }, power - 23)
    }

    fn of_whole8(word: [u8; 1]) -> Pair {
        Pair::of_value(i32::from(i8::from_be_bytes(word)), 0)
    }

    /// The normal word. The least characteristic at which the fraction stays below 2^24 leaves its
    /// first hexadecimal digit other than 0, unless that characteristic is 0. There the fraction is
    /// longest, so where the mantissa would have to be shifted down no characteristic serves.
    fn ibm(self) -> Option<[u8; 4]> {
        if self.mantissa == 0 {
            return Some([0; 4]);
        }
        let magnitude = self.mantissa.unsigned_abs();
        let bits = i32::from(self.exponent) + 280;
        let over = bits + 32 - magnitude.leading_zeros() as i32 - 24;
        let characteristic = (over + 3).max(0) / 4;
        let shift = bits - 4 * characteristic;
        if shift < 0 || characteristic > 127 {
            return None;
        }
        let sign = u32::from(self.mantissa < 0);
        Some((sign << 31 | (characteristic as u32) << 24 | magnitude << shift).to_be_bytes())
    }

    fn whole32(self) -> Option<[u8; 4]> {
        let whole = i32::try_from(self.whole()?).ok()?;
        Some(whole.to_be_bytes())
    }

    fn whole16(self) -> Option<[u8; 2]> {
        let whole = i16::try_from(self.whole()?).ok()?;
        Some(whole.to_be_bytes())
    }

    /// With an odd mantissa a negative exponent needs just that gain; the others need none.
    fn gain(self) -> Option<[u8; 4]> {
        let gain = u8::try_from(-self.exponent.min(0)).ok()?;
        let whole = if gain == 0 {
            self.whole()?
        } else {
            i64::from(self.mantissa)
        };
        let [high, low] = i16::try_from(whole).ok()?.to_be_bytes();
        Some([0, gain, high, low])
    }

    /// The word whose first bit is that of the highest power of two in the value, if that power is
    /// from -126 to 127 and the mantissa has at most 24 bits. Below are the subnormal words, whose last
    /// bit is always 2^-149. For zero it is the word of plus zero.
    fn ieee(self) -> Option<[u8; 4]> {
        if self.mantissa == 0 {
            return Some([0; 4]);
        }
        let magnitude = self.mantissa.unsigned_abs();
        let length = 32 - magnitude.leading_zeros() as i32;
        let last = i32::from(self.exponent);
        let first = last + length - 1;
        let bits = if first > 127 || length > 24 || last < -149 {
            return None;
        } else if first < -126 {
            magnitude << (last + 149)
        } else {
            let fraction = (magnitude << (24 - length)) - (1 << 23);
            ((first + 127) as u32) << 23 | fraction
        };
        let sign = u32::from(self.mantissa < 0);
        Some((sign << 31 | bits).to_be_bytes())
    }

    fn whole8(self) -> Option<[u8; 1]> {
        let whole = i8::try_from(self.whole()?).ok()?;
        Some(whole.to_be_bytes())
    }

    /// The value, where it is whole and within 64 bits.
    fn whole(self) -> Option<i64> {
        match self.exponent {
            0..=31 => Some(i64::from(self.mantissa) << self.exponent),
            _ => None,
        }
    }
}
