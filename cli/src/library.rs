//! A safe module over the C interface, which `include/aukpocket.h` explains.
//!
//! A call is lent slices and answers with numbers. It keeps no reference, allocates nothing, and leaves its output as it was where it
//! refuses. A slice is never null, even an empty one, and one that is lent for writing overlaps no other: so what the header asks of its
//! caller holds for every call that compiles. `blank_eight` takes a number, gives a number and refuses nothing.

use std::cmp::Ordering;

/// What the library declares, as the header has it.
mod c {
    #[repr(C)]
    pub struct ReelAnswer {
        pub number: u64,
        pub traces: u64,
        pub samples: u64,
        pub length: u64,
        pub beside: u64,
        pub not_normal: u64,
        pub changed: u64,
    }

    #[repr(C)]
    pub struct FieldAnswer {
        pub number: u32,
        pub value: i32,
        pub beside: u64,
    }

    #[repr(C)]
    pub struct OrderAnswer {
        pub number: u32,
        pub order: i32,
        pub which: u64,
        pub beside: u64,
    }

    #[repr(C)]
    pub struct BoxAnswer {
        pub number: u64,
        pub reels: u64,
        pub traces: u64,
        pub beside: u64,
    }

    #[repr(C)]
    pub struct SampleAnswer {
        pub number: u64,
        pub beside: u64,
        pub not_normal: u64,
    }

    // The sizes that a C compiler gives these structures. tests/command.py holds the header to the same.
    const _: () = assert!(size_of::<ReelAnswer>() == 56);
    const _: () = assert!(size_of::<FieldAnswer>() == 16);
    const _: () = assert!(size_of::<OrderAnswer>() == 24);
    const _: () = assert!(size_of::<BoxAnswer>() == 32);
    const _: () = assert!(size_of::<SampleAnswer>() == 24);
    const _: () = assert!(size_of::<usize>() == 8);

    extern "C" {
        pub fn aukpocket_read_reel(
            reel: *const u8,
            reel_length: usize,
            record: *mut u8,
            record_length: usize,
        ) -> ReelAnswer;
        pub fn aukpocket_read_eagle(
            reel: *const u8,
            reel_length: usize,
            record: *mut u8,
            record_length: usize,
        ) -> ReelAnswer;
        pub fn aukpocket_write_reel(
            record: *const u8,
            record_length: usize,
            code: u32,
            reel: *mut u8,
            reel_length: usize,
        ) -> ReelAnswer;
        pub fn aukpocket_write_nearest(
            record: *const u8,
            record_length: usize,
            code: u32,
            reel: *mut u8,
            reel_length: usize,
        ) -> ReelAnswer;
        pub fn aukpocket_look_up(
            reel: *const u8,
            reel_length: usize,
            trace: usize,
            byte_number: u32,
        ) -> FieldAnswer;
        pub fn aukpocket_list_cards(
            record: *const u8,
            record_length: usize,
            listing: *mut u8,
            listing_length: usize,
        ) -> ReelAnswer;
        pub fn aukpocket_take_cards(
            record: *const u8,
            record_length: usize,
            listing: *const u8,
            listing_length: usize,
            out: *mut u8,
            out_length: usize,
        ) -> ReelAnswer;
        pub fn aukpocket_compare(
            first: *const u8,
            first_length: usize,
            second: *const u8,
            second_length: usize,
        ) -> OrderAnswer;
        pub fn aukpocket_check_box(
            reels: *const u8,
            reels_length: usize,
            lengths: *const u64,
            lengths_count: usize,
        ) -> BoxAnswer;
        pub fn aukpocket_blank_eight(cards: u64) -> u64;
        pub fn aukpocket_read_word(code: u32, word: *const u8, pair: *mut u8) -> SampleAnswer;
        pub fn aukpocket_write_pair(code: u32, pair: *const u8, word: *mut u8) -> SampleAnswer;
    }
}

/// A reel or record that was taken: its traces, the samples of each, and the length of what stands at the front of the output.
#[derive(Clone, Copy, Debug, PartialEq, Eq)]
pub struct Taken {
    pub traces: u64,
    pub samples: u64,
    pub length: usize,
}

/// A reel that was read: as above, and how many of its words weren't normal, 0 under every code but 1.
#[derive(Clone, Copy, Debug, PartialEq, Eq)]
pub struct ReelRead {
    pub traces: u64,
    pub samples: u64,
    pub length: usize,
    pub not_normal: u64,
}

/// A record that was written by nearest values: as above, and how many of its samples have another value on the reel. Where that is 0 the
/// reel is exact.
#[derive(Clone, Copy, Debug, PartialEq, Eq)]
pub struct NearestWritten {
    pub traces: u64,
    pub samples: u64,
    pub length: usize,
    pub changed: u64,
}

/// A word that was read: its canonical pair, and whether it is an IBM word that isn't normal.
#[derive(Clone, Copy, Debug, PartialEq, Eq)]
pub struct WordRead {
    pub pair: [u8; 6],
    pub not_normal: bool,
}

/// A box of reels that was taken as one line: how many reels it has, and how many traces they have together.
#[derive(Clone, Copy, Debug, PartialEq, Eq)]
pub struct BoxChecked {
    pub reels: u64,
    pub traces: u64,
}

/// A refusal: the number of its cause, 1 to 22, and what stands beside it: a place, counted from 0, or a length.
#[derive(Clone, Copy, Debug, PartialEq, Eq)]
pub struct Refusal {
    pub number: u64,
    pub beside: u64,
}

/// One of two records that are compared.
#[derive(Clone, Copy, Debug, PartialEq, Eq)]
pub enum Which {
    First,
    Second,
}

/// A refusal of one of two records: which it is, the number of the cause, 12 or 13, and the place in that record, counted from 0.
#[derive(Clone, Copy, Debug, PartialEq, Eq)]
pub struct RecordRefusal {
    pub which: Which,
    pub number: u64,
    pub beside: u64,
}

/// A format code: its number, what its samples are, and how many bytes each has on a reel.
#[derive(Clone, Copy, Debug, PartialEq, Eq)]
pub struct Code {
    pub number: u32,
    pub name: &'static str,
    pub sample_length: u64,
}

/// The format codes that there are. Every other is refused, by 2 on a reel and by 11 as a target. An Eagle reel has code 1 alone.
pub const CODES: [Code; 6] = [
    Code {
        number: 1,
        name: "IBM floating point",
        sample_length: 4,
    },
    Code {
        number: 2,
        name: "whole numbers of four bytes",
        sample_length: 4,
    },
    Code {
        number: 3,
        name: "whole numbers of two bytes",
        sample_length: 2,
    },
    Code {
        number: 4,
        name: "two bytes with a gain",
        sample_length: 4,
    },
    Code {
        number: 5,
        name: "IEEE floating point",
        sample_length: 4,
    },
    Code {
        number: 8,
        name: "whole numbers of one byte",
        sample_length: 1,
    },
];

impl Code {
    /// The code of that number, where there is one.
    pub fn of(number: u32) -> Option<Code> {
        CODES.into_iter().find(|code| code.number == number)
    }
}

/// The bytes of a listing: 40 lines of 80 characters, each closed by 0A.
pub const LISTING_LENGTH: usize = 3240;

/// The bytes of a record of that many traces and samples a trace, which stand in fields of 6,000. A trace of 6,001 to 8,000 samples in the
/// earlier form, a single field, has three bytes less.
pub fn record_length(traces: u64, samples: u64) -> Option<u64> {
    let heads = 183 + 3 * samples.div_ceil(6000);
    let trace = samples.checked_mul(6)?.checked_add(heads)?;
    traces.checked_mul(trace)?.checked_add(3273)
}

/// The bytes of a plain reel of that many traces and samples a trace, under a code. None where there is no such code.
pub fn reel_length(traces: u64, samples: u64, code: u32) -> Option<u64> {
    let width = Code::of(code)?.sample_length;
    let trace = samples.checked_mul(width)?.checked_add(240)?;
    traces.checked_mul(trace)?.checked_add(3600)
}

/// Reads a reel, writes its record to the front of the output, and counts its words that aren't normal.
pub fn read_reel(reel: &[u8], record: &mut [u8]) -> Result<ReelRead, Refusal> {
    read_by(c::aukpocket_read_reel, &[20], reel, record)
}

/// Reads an Eagle reel: as above, but each trace is followed by a trailer, and the code is 1.
pub fn read_eagle(reel: &[u8], record: &mut [u8]) -> Result<ReelRead, Refusal> {
    read_by(c::aukpocket_read_eagle, &[9, 19], reel, record)
}

/// A function of the C interface that reads a reel into a record.
type Reading = unsafe extern "C" fn(*const u8, usize, *mut u8, usize) -> c::ReelAnswer;

/// Reads a reel by such a function, which never refuses by these numbers.
fn read_by(
    call: Reading,
    never: &[u64],
    reel: &[u8],
    record: &mut [u8],
) -> Result<ReelRead, Refusal> {
    let room = record.len();
    // SAFETY: each pointer is a slice's own, with its length.
    let answer = unsafe { call(reel.as_ptr(), reel.len(), record.as_mut_ptr(), room) };
    reel_read(answer, never, room)
}

/// Writes a record as a reel under a target code to the front of the output.
pub fn write_reel(record: &[u8], code: u32, reel: &mut [u8]) -> Result<Taken, Refusal> {
    let room = reel.len();
    // SAFETY: each pointer is a slice's own, with its length.
    let answer = unsafe {
        c::aukpocket_write_reel(record.as_ptr(), record.len(), code, reel.as_mut_ptr(), room)
    };
    taken(answer, room)
}

/// Writes a record as a reel under a target code to the front of the output, each sample as the nearest value of the code, and counts those
/// that changed.
pub fn write_nearest(record: &[u8], code: u32, reel: &mut [u8]) -> Result<NearestWritten, Refusal> {
    let room = reel.len();
    // SAFETY: each pointer is a slice's own, with its length.
    let answer = unsafe {
        c::aukpocket_write_nearest(record.as_ptr(), record.len(), code, reel.as_mut_ptr(), room)
    };
    nearest_written(answer, room)
}

/// Looks up the field that begins at a byte number, counted from 1: of the binary header for trace 0, else of that trace's header.
pub fn look_up(reel: &[u8], trace: usize, byte_number: u32) -> Result<i32, Refusal> {
    // SAFETY: the pointer is the slice's own, with its length.
    let answer = unsafe { c::aukpocket_look_up(reel.as_ptr(), reel.len(), trace, byte_number) };
    let c::FieldAnswer {
        number,
        value,
        beside,
    } = answer;
    if number != 0 {
        assert!(value == 0, "the library tells of a field beside a refusal");
        return Err(refusal(number.into(), beside));
    }
    assert!(beside == 0, "the library tells of a place without a cause");
    Ok(value)
}

/// The listing of a record's cards.
pub fn list_cards(record: &[u8]) -> Result<[u8; LISTING_LENGTH], Refusal> {
    let mut listing = [0; LISTING_LENGTH];
    // SAFETY: each pointer is a slice's own, with its length.
    let answer = unsafe {
        c::aukpocket_list_cards(
            record.as_ptr(),
            record.len(),
            listing.as_mut_ptr(),
            LISTING_LENGTH,
        )
    };
    let taken = taken(answer, LISTING_LENGTH)?;
    assert!(
        (taken.traces, taken.samples, taken.length) == (0, 0, LISTING_LENGTH),
        "the library tells of other counts than a listing has"
    );
    Ok(listing)
}

/// Writes a record with the text of a listing to the front of the output.
pub fn take_cards(record: &[u8], listing: &[u8], out: &mut [u8]) -> Result<Taken, Refusal> {
    let room = out.len();
    // SAFETY: each pointer is a slice's own, with its length.
    let answer = unsafe {
        c::aukpocket_take_cards(
            record.as_ptr(),
            record.len(),
            listing.as_ptr(),
            listing.len(),
            out.as_mut_ptr(),
            room,
        )
    };
    taken(answer, room)
}

/// The order of two records: `Less` where the first is the lesser, `Equal` where they hold the same, whatever their forms. The first is
/// judged before the second.
pub fn compare(first: &[u8], second: &[u8]) -> Result<Ordering, RecordRefusal> {
    // SAFETY: each pointer is a slice's own, with its length. Both are only read, so that they may overlap.
    let answer =
        unsafe { c::aukpocket_compare(first.as_ptr(), first.len(), second.as_ptr(), second.len()) };
    ordered(answer, first.len(), second.len())
}

/// Checks that reels are one line. They are lent as one slice, one behind the other, with the length of each. A place beside a refusal is
/// counted in that slice; the length beside 1 is that of the first reel of under 3,600 bytes.
pub fn check_box(reels: &[u8], lengths: &[u64]) -> Result<BoxChecked, Refusal> {
    // SAFETY: each pointer is a slice's own, with its length. Both are only read.
    let answer = unsafe {
        c::aukpocket_check_box(
            reels.as_ptr(),
            reels.len(),
            lengths.as_ptr(),
            lengths.len(),
        )
    };
    box_checked(answer, reels.len(), lengths.len())
}

/// Eight card bytes as one number, the first of them its highest byte, with 40 for each byte 00 and every other byte as it was.
pub fn blank_eight(cards: u64) -> u64 {
    // SAFETY: the function takes every number and is lent no bytes.
    unsafe { c::aukpocket_blank_eight(cards) }
}

/// The canonical pair of a word under a code, and whether the word isn't normal.
pub fn read_word(code: u32, word: [u8; 4]) -> Result<WordRead, Refusal> {
    let mut pair = [0; 6];
    // SAFETY: the header asks for four bytes and for six, and the arrays have as many.
    let answer = unsafe { c::aukpocket_read_word(code, word.as_ptr(), pair.as_mut_ptr()) };
    let not_normal = sample_not_normal(answer, 1)? == 1;
    Ok(WordRead { pair, not_normal })
}

/// The word of a pair under a target code.
pub fn write_pair(code: u32, pair: [u8; 6]) -> Result<[u8; 4], Refusal> {
    let mut word = [0; 4];
    // SAFETY: the header asks for six bytes and for four, and the arrays have as many.
    let answer = unsafe { c::aukpocket_write_pair(code, pair.as_ptr(), word.as_mut_ptr()) };
    sample_not_normal(answer, 0)?;
    Ok(word)
}

/// What an answer says where the call was taken: the counts that every call on a reel or record gives, and those of one call alone.
struct Answered {
    taken: Taken,
    not_normal: u64,
    changed: u64,
}

/// What an answer says, for an output of that room. Each member is named, so that none is dropped unnoticed. A length beyond the room would
/// tell of bytes that aren't there: another library was linked.
fn answered(answer: c::ReelAnswer, room: usize) -> Result<Answered, Refusal> {
    let c::ReelAnswer {
        number,
        traces,
        samples,
        length,
        beside,
        not_normal,
        changed,
    } = answer;
    if number != 0 {
        assert!(
            (traces, samples, length, not_normal, changed) == (0, 0, 0, 0, 0),
            "the library tells of counts beside a refusal"
        );
        return Err(refusal(number, beside));
    }
    assert!(beside == 0, "the library tells of a place without a cause");
    let length = usize::try_from(length).unwrap_or(usize::MAX);
    assert!(
        length <= room,
        "the library tells of {length} bytes in an output of {room}"
    );
    let taken = Taken {
        traces,
        samples,
        length,
    };
    Ok(Answered {
        taken,
        not_normal,
        changed,
    })
}

/// What the answer of reading a reel says, in a layout that has no cause of these numbers.
fn reel_read(answer: c::ReelAnswer, never: &[u64], room: usize) -> Result<ReelRead, Refusal> {
    assert!(
        !never.contains(&answer.number),
        "the library refuses a reel by {}, which is no cause in its layout",
        answer.number
    );
    let Answered {
        taken,
        not_normal,
        changed,
    } = answered(answer, room)?;
    check_not_normal(not_normal, taken.traces.saturating_mul(taken.samples));
    check_changed(changed, 0);
    Ok(ReelRead {
        traces: taken.traces,
        samples: taken.samples,
        length: taken.length,
        not_normal,
    })
}

/// What the answer of nearest writing says, which takes every sample.
fn nearest_written(answer: c::ReelAnswer, room: usize) -> Result<NearestWritten, Refusal> {
    assert!(
        answer.number != 14,
        "the library refuses nearest writing by 14"
    );
    let Answered {
        taken,
        not_normal,
        changed,
    } = answered(answer, room)?;
    check_not_normal(not_normal, 0);
    check_changed(changed, taken.traces.saturating_mul(taken.samples));
    Ok(NearestWritten {
        traces: taken.traces,
        samples: taken.samples,
        length: taken.length,
        changed,
    })
}

/// What the answer of a call that reads no words and rounds no samples says.
fn taken(answer: c::ReelAnswer, room: usize) -> Result<Taken, Refusal> {
    let Answered {
        taken,
        not_normal,
        changed,
    } = answered(answer, room)?;
    check_not_normal(not_normal, 0);
    check_changed(changed, 0);
    Ok(taken)
}

/// What the answer of comparing two records of these lengths says. A record is refused by 12 or 13 alone.
fn ordered(
    answer: c::OrderAnswer,
    first_length: usize,
    second_length: usize,
) -> Result<Ordering, RecordRefusal> {
    let c::OrderAnswer {
        number,
        order,
        which,
        beside,
    } = answer;
    if number == 0 {
        assert!(which == 0, "the library tells of a record without a cause");
        assert!(beside == 0, "the library tells of a place without a cause");
        return Ok(match order {
            -1 => Ordering::Less,
            0 => Ordering::Equal,
            1 => Ordering::Greater,
            _ => panic!("the library tells of the order {order}, which is none"),
        });
    }
    assert!(order == 0, "the library tells of an order beside a refusal");
    assert!(
        matches!(number, 12 | 13),
        "the library refuses a record by {number}, which is no cause where two are compared"
    );
    let (which, length) = match which {
        1 => (Which::First, first_length),
        2 => (Which::Second, second_length),
        _ => panic!("the library refuses record {which} of two"),
    };
    assert!(
        beside <= length as u64,
        "the library tells of place {beside} in a record of {length} bytes"
    );
    Err(RecordRefusal {
        which,
        number: number.into(),
        beside,
    })
}

/// The least bytes of a reel, and of a trace, which has one sample of one byte.
const LEAST_REEL: u64 = 3600;
const LEAST_TRACE: u64 = 241;

/// What the answer of checking a box of that length, with so many reels, says.
fn box_checked(answer: c::BoxAnswer, length: usize, count: usize) -> Result<BoxChecked, Refusal> {
    let c::BoxAnswer {
        number,
        reels,
        traces,
        beside,
    } = answer;
    if number != 0 {
        assert!(
            (reels, traces) == (0, 0),
            "the library tells of counts beside a refusal"
        );
        let most = match number {
            1 => LEAST_REEL - 1,
            2..=9 | 18 | 19 | 22 => (length as u64).saturating_sub(1),
            21 => 0,
            _ => panic!("the library refuses a box by {number}, which is no cause there"),
        };
        assert!(
            beside <= most,
            "the library tells of {beside} beside {number} in a box of {length} bytes"
        );
        return Err(Refusal { number, beside });
    }
    assert!(beside == 0, "the library tells of a place without a cause");
    assert!(
        reels == count as u64,
        "the library tells of {reels} reels in a box of {count}"
    );
    assert!(
        traces <= length as u64 / LEAST_TRACE,
        "the library tells of {traces} traces in a box of {length} bytes"
    );
    Ok(BoxChecked { reels, traces })
}

/// How many words that aren't normal the answer of a single-sample call tells of, which reads that many words.
fn sample_not_normal(answer: c::SampleAnswer, words: u64) -> Result<u64, Refusal> {
    let c::SampleAnswer {
        number,
        beside,
        not_normal,
    } = answer;
    if number != 0 {
        assert!(
            not_normal == 0,
            "the library tells of counts beside a refusal"
        );
        return Err(refusal(number, beside));
    }
    assert!(beside == 0, "the library tells of a place without a cause");
    check_not_normal(not_normal, words);
    Ok(not_normal)
}

/// Ends the run where a call that reads that many words tells of more that aren't normal.
fn check_not_normal(not_normal: u64, words: u64) {
    assert!(
        not_normal <= words,
        "the library tells of {not_normal} words that aren't normal where {words} were read"
    );
}

/// Ends the run where a call that writes that many samples by nearest values tells of more that changed.
fn check_changed(changed: u64, samples: u64) {
    assert!(
        changed <= samples,
        "the library tells of {changed} samples that changed where {samples} were written by nearest values"
    );
}

fn refusal(number: u64, beside: u64) -> Refusal {
    assert!(
        number <= 20,
        "the library refuses by {number}, which is no cause"
    );
    Refusal { number, beside }
}

#[cfg(test)]
mod tests {
    use super::*;
    use std::panic::catch_unwind;

    /// The reel of document 01: one trace of two samples, 41100000 and C276A000.
    fn example() -> Vec<u8> {
        let mut reel = vec![0x40; 3200];
        reel.resize(3600 + 240, 0);
        reel[3216..3218].copy_from_slice(&2000u16.to_be_bytes());
        reel[3221] = 2;
        reel[3225] = 1;
        reel.extend([0x41, 0x10, 0, 0, 0xC2, 0x76, 0xA0, 0]);
        reel
    }

    #[test]
    fn a_reel_and_its_record() {
        let reel = example();
        let mut record = vec![0xEE; 3471 + 5];
        let read = read_reel(&reel, &mut record).unwrap();
        assert_eq!((read.traces, read.samples, read.length), (1, 2, 3471));
        assert_eq!(read.not_normal, 0);
        assert_eq!(record_length(1, 2), Some(3471));
        assert_eq!(record[3471..], [0xEE; 5]);
        let mut again = vec![0xEE; 3848];
        let taken = write_reel(&record[..3471], 1, &mut again).unwrap();
        assert_eq!((taken.traces, taken.samples, taken.length), (1, 2, 3848));
        assert_eq!(reel_length(1, 2, 1), Some(3848));
        assert_eq!(again[3840..], reel[3840..]);
        // With 1 in place of its second sample, which has eighths, every code holds the record.
        record[3458..3464].copy_from_slice(&[0, 0, 0, 0, 0, 1]);
        for code in CODES {
            let length = reel_length(1, 2, code.number).unwrap();
            assert_eq!(length, 3840 + 2 * code.sample_length);
            let refused = write_reel(&record[..3471], code.number, &mut []).unwrap_err();
            assert_eq!((refused.number, refused.beside), (10, length));
            let taken = write_reel(&record[..3471], code.number, &mut again).unwrap();
            assert_eq!(taken.length as u64, length);
            let mut back = vec![0; 3471];
            read_reel(&again[..taken.length], &mut back).unwrap();
            assert_eq!(back, record[..3471]);
        }
        assert_eq!(reel_length(0, 1, 6), None);
    }

    /// A trace's samples stand in fields of 6,000. Of 6,001 to 8,000 a single field is taken too, and comes back as two.
    #[test]
    fn long_traces() {
        for (samples, fields) in [(6000, 1), (6001, 2), (8000, 2), (8001, 2), (32_767, 6)] {
            let length = 3273 + 183 + 3 * fields + 6 * u64::from(samples);
            assert_eq!(record_length(1, samples.into()), Some(length));
            let mut reel = example();
            reel[3220..3222].copy_from_slice(&u16::to_be_bytes(samples));
            reel.resize(3840 + 4 * usize::from(samples), 0);
            let mut record = vec![0; length as usize];
            let refused = read_reel(&reel, &mut record[1..]).unwrap_err();
            assert_eq!((refused.number, refused.beside), (10, length));
            let read = read_reel(&reel, &mut record).unwrap();
            assert_eq!((read.samples, read.length), (samples.into(), record.len()));
            let mut again = vec![0; reel.len()];
            write_reel(&record, 1, &mut again).unwrap();
            assert_eq!(again[3840..], reel[3840..]);
            if fields == 1 {
                continue;
            }
            let mut earlier = record.clone();
            earlier.drain(3452 + 36_000..3452 + 36_003);
            earlier[3450..3452].copy_from_slice(&(6 * u32::from(samples)).to_be_bytes()[2..]);
            let mut written = vec![0; reel.len()];
            let answer = write_reel(&earlier, 1, &mut written);
            if samples > 8000 {
                assert_eq!(answer.map_err(|refused| refused.beside), Err(3449));
                continue;
            }
            assert_eq!(answer.unwrap().length, reel.len());
            assert_eq!(written, again);
            let mut back = vec![0; record.len()];
            read_reel(&written, &mut back).unwrap();
            assert_eq!(back, record);
            let listing = list_cards(&earlier).unwrap();
            let mut taken = vec![0; earlier.len()];
            take_cards(&earlier, &listing, &mut taken).unwrap();
            assert_eq!(taken, earlier);
        }
        assert_eq!(record_length(100_000, 32_767), Some(19_680_303_273));
        let mut reel = example();
        reel[3220..3222].copy_from_slice(&32_768u16.to_be_bytes());
        let refused = read_reel(&reel, &mut []).unwrap_err();
        assert_eq!((refused.number, refused.beside), (3, 3220));
    }

    #[test]
    fn refusals_leave_the_output() {
        let reel = example();
        let mut short = [0xEE; 3470];
        let refused = read_reel(&reel, &mut short).unwrap_err();
        assert_eq!((refused.number, refused.beside), (10, 3471));
        assert!(short.iter().all(|&b| b == 0xEE));
        let refused = read_reel(&[], &mut []).unwrap_err();
        assert_eq!((refused.number, refused.beside), (1, 0));
        let refused = write_reel(&[], 1, &mut []).unwrap_err();
        assert_eq!((refused.number, refused.beside), (12, 0));
        let refused = write_reel(&[], 257, &mut []).unwrap_err();
        assert_eq!((refused.number, refused.beside), (11, 0));
    }

    /// A reel of code 1 as an Eagle reel: with a trailer behind each trace, and a check in columns 79 and 80 of card 40.
    fn as_eagle(reel: &[u8], samples: usize) -> Vec<u8> {
        let mut eagle = reel[..3600].to_vec();
        eagle[3198..3200].copy_from_slice(&[0x12, 0xC1]);
        for trace in reel[3600..].chunks(240 + 4 * samples) {
            eagle.extend(trace);
            eagle.extend([0xA5; 958]);
            eagle.extend([0xFF, 0xFF]);
        }
        eagle
    }

    /// An Eagle reel has the record of the plain reel that means the same; and what it is refused by.
    #[test]
    fn eagle_reels() {
        let mut reel = example();
        let second: Vec<u8> = reel[3600..].iter().map(|byte| byte | 0x02).collect();
        reel.extend(&second);
        for field in [68, 70, 114, 116] {
            reel[3848 + field..][..2].fill(0);
        }
        let eagle = as_eagle(&reel, 2);
        assert_eq!(eagle.len(), 3600 + 2 * 1208);
        let (mut record, mut plain) = (vec![0xEE; 3669 + 5], vec![0xEE; 3669 + 5]);
        let read = read_eagle(&eagle, &mut record).unwrap();
        assert_eq!((read.traces, read.samples, read.length), (2, 2, 3669));
        assert_eq!(read_reel(&reel, &mut plain), Ok(read));
        assert_eq!(record, plain);
        let refused = |eagle: &[u8], room: usize| {
            let mut record = vec![0xEE; room];
            let refused = read_eagle(eagle, &mut record).unwrap_err();
            assert!(record.iter().all(|&byte| byte == 0xEE));
            (refused.number, refused.beside)
        };
        assert_eq!(refused(&eagle, 3668), (10, 3669));
        assert_eq!(refused(&eagle, 0), (10, 3669));
        assert_eq!(refused(&eagle[..3599], 4000), (1, 3599));
        assert_eq!(refused(&eagle[..eagle.len() - 1], 4000), (5, 4808));
        assert_eq!(refused(&reel, 4000), (5, 3600));
        assert_eq!(read_reel(&eagle, &mut []).unwrap_err().number, 5);
        for (places, expected) in [
            (&[3225][..], (2, 3224)),
            (&[3216, 3217, 3220], (3, 3220)),
            (&[3216], (4, 3216)),
            (&[4806], (20, 4806)),
            (&[4807], (20, 4806)),
            (&[4806, 4807, 4808 + 115, 6015], (20, 4806)),
            (&[3715, 4807], (7, 3714)),
            (&[3717, 4807], (8, 3716)),
            (&[3669, 4807], (18, 3668)),
            (&[3671, 4807], (18, 3670)),
            (&[4808 + 115, 6015], (7, 4808 + 114)),
            (&[6015], (20, 6014)),
        ] {
            let mut damaged = eagle.clone();
            for &place in places {
                damaged[place] ^= 0x90;
            }
            assert_eq!(refused(&damaged, 4000), expected, "{places:?}");
        }
    }

    /// Bytes that both calls take: four plain traces of 20 samples are as long as one with a trailer.
    #[test]
    fn both_layouts() {
        let mut bytes = example();
        bytes.truncate(3600);
        bytes.resize(3600 + 1280, 0);
        bytes[3221] = 20;
        bytes[4878..].fill(0xFF);
        let (mut record, mut eagle) = (vec![0; 4497], vec![0; 3579]);
        let read = read_reel(&bytes, &mut record).unwrap();
        assert_eq!((read.traces, read.samples, read.length), (4, 20, 4497));
        let read = read_eagle(&bytes, &mut eagle).unwrap();
        assert_eq!((read.traces, read.samples, read.length), (1, 20, 3579));
        assert_eq!(record[..3572], eagle[..3572]);
    }

    /// Samples that become the nearest value, and those that have it already: the reel, the count, and what is left of the output.
    #[test]
    fn nearest() {
        let mut record = vec![0; 3471];
        read_reel(&example(), &mut record).unwrap();
        for (code, samples, changed) in [
            (1, &[0x41, 0x10, 0, 0, 0xC2, 0x76, 0xA0, 0][..], 0),
            (2, &[0, 0, 0, 1, 0xFF, 0xFF, 0xFF, 0x89], 1),
            (3, &[0, 1, 0xFF, 0x89], 1),
            (4, &[0, 0, 0, 1, 0, 3, 0xFC, 0x4B], 0),
            (5, &[0x3F, 0x80, 0, 0, 0xC2, 0xED, 0x40, 0], 0),
            (8, &[1, 0x89], 1),
        ] {
            let mut reel = vec![0xEE; 3848 + 5];
            let written = write_nearest(&record, code, &mut reel).unwrap();
            let length = 3840 + samples.len();
            let counts = (written.traces, written.samples, written.length);
            assert_eq!(counts, (1, 2, length), "{code}");
            assert_eq!(written.changed, changed, "{code}");
            assert_eq!(reel[3840..length], *samples, "{code}");
            assert!(reel[length..].iter().all(|&byte| byte == 0xEE));
            let refused = write_nearest(&record, code, &mut reel[..length - 1]).unwrap_err();
            assert_eq!((refused.number, refused.beside), (10, length as u64));
        }
        // Exact writing refuses what nearest writing rounds; both refuse a wrong code and a wrong record.
        assert_eq!(write_reel(&record, 2, &mut []).unwrap_err().number, 14);
        record[3] = 0;
        for (code, expected) in [(6, (11, 0)), (2, (13, 3))] {
            let refused = write_nearest(&record, code, &mut []).unwrap_err();
            assert_eq!((refused.number, refused.beside), expected);
        }
    }

    #[test]
    fn cards() {
        let mut record = vec![0; 3471];
        read_reel(&example(), &mut record).unwrap();
        record[3..7].copy_from_slice(&[0xC3, 0x25, 0x15, 0xFF]);
        let mut listing = list_cards(&record).unwrap();
        assert_eq!(listing[..5], [b'C', 0x0A, 0x85, 0x9F, b' ']);
        assert_eq!(listing[3238..], [b' ', 0x0A]);
        listing[81] = b'A';
        listing[82] = 0;
        let mut out = vec![0xEE; 3471 + 5];
        let taken = take_cards(&record, &listing, &mut out).unwrap();
        assert_eq!((taken.traces, taken.samples, taken.length), (1, 2, 3471));
        record[83] = 0xC1;
        assert_eq!(out[..3471], record);
        assert_eq!(out[3471..], [0xEE; 5]);
        let refused = take_cards(&record, &listing, &mut out[..3470]).unwrap_err();
        assert_eq!((refused.number, refused.beside), (10, 3471));
        listing[161] = b' ';
        let refused = take_cards(&record, &listing, &mut []).unwrap_err();
        assert_eq!((refused.number, refused.beside), (17, 161));
        let refused = take_cards(&record, &listing[..3239], &mut []).unwrap_err();
        assert_eq!((refused.number, refused.beside), (17, 3239));
        record[3] = 0;
        let refused = take_cards(&record, &listing, &mut []).unwrap_err();
        assert_eq!((refused.number, refused.beside), (13, 3));
        let refused = list_cards(&record[..3470]).unwrap_err();
        assert_eq!((refused.number, refused.beside), (13, 3));
        let refused = list_cards(&[]).unwrap_err();
        assert_eq!((refused.number, refused.beside), (12, 0));
    }

    /// A record of one trace of two samples, with these numbers of two bytes, each at its place, in place of the example's.
    fn record_with(numbers: &[(usize, u16)]) -> Vec<u8> {
        let mut record = vec![0; 3471];
        read_reel(&example(), &mut record).unwrap();
        for (place, number) in numbers {
            record[*place..place + 2].copy_from_slice(&number.to_be_bytes());
        }
        record
    }

    /// Each part of a record decides before all that stand behind it, by its own kind of number; whichever record comes first.
    #[test]
    fn order() {
        use Ordering::{Equal, Greater, Less};
        // The places of a card byte, of a number of the binary header and of the trace, and of the exponents of both samples.
        let (card, binary, trace, first_pair, second_pair) = (1000, 3232, 3297, 3452, 3458);
        // A large coordinate, which may stand under several scalars.
        let scaled = |scalar: i16| [(3341, 0x7FFF), (3339, scalar as u16)];
        let [hundredths, whole, tens] = [-100, 1, 10].map(scaled);
        for (first, second, order) in [
            (&[][..], &[][..], Equal),
            (&[(card, 0x4001)], &[(card, 0x40FF)], Less),
            (&[(card, 0x7F40)], &[(card, 0x8040)], Less),
            (&[(card, 0x4140)], &[(card, 0x4041), (binary, 1)], Greater),
            (&[(binary, 0xFFFF)], &[(binary, 0)], Less),
            (&[(binary, 0x8000)], &[(binary, 0x7FFF)], Less),
            (&[(binary, 1)], &[(trace, 1)], Greater),
            (&[(trace, 0xFFFE)], &[(trace, 0xFFFF)], Less),
            (&[(trace, 2)], &[(trace, 1), (first_pair, 8)], Greater),
            (&whole[..], &[], Greater),
            (&hundredths[..], &whole[..], Less),
            (&whole[..], &tens[..], Less),
            (&[(first_pair, 1)], &[(first_pair, 0)], Greater),
            (&[(first_pair, 0xFFFF)], &[(second_pair, 3)], Less),
            // -949 * 2^3 is less than -949 * 2^-3, and so is -949 * 2^-2.
            (&[(second_pair, 3)], &[], Less),
            (&[(second_pair, 0xFFFE)], &[], Less),
            (&[(second_pair, 0xFFFC)], &[], Greater),
        ] {
            let [one, other] = [first, second].map(record_with);
            assert_eq!(compare(&one, &other), Ok(order), "{first:?} {second:?}");
            assert_eq!(compare(&other, &one), Ok(order.reverse()));
            assert_eq!(compare(&one, &one), Ok(Equal));
        }
    }

    /// A record whose traces end first is the lesser, and one of another form is equal.
    #[test]
    fn order_of_traces_and_forms() {
        let record = record_with(&[]);
        let front = [&record[..3266], &[5, 0, 4, 0, 0, 0, 0]].concat();
        let two = [&record[..3464], &record[3266..3464], &[5, 0, 4, 0, 0, 0, 2]].concat();
        assert_eq!(compare(&front, &record), Ok(Ordering::Less));
        assert_eq!(compare(&two, &record), Ok(Ordering::Greater));
        assert_eq!(compare(&front, &front), Ok(Ordering::Equal));
        let mut reel = example();
        reel[3220..3222].copy_from_slice(&6001u16.to_be_bytes());
        reel.resize(3840 + 4 * 6001, 0);
        let mut new = vec![0; record_length(1, 6001).unwrap() as usize];
        read_reel(&reel, &mut new).unwrap();
        let mut earlier = new.clone();
        earlier.drain(39_452..39_455);
        earlier[3450..3452].copy_from_slice(&36_006u16.to_be_bytes());
        assert_eq!(compare(&new, &earlier), Ok(Ordering::Equal));
        earlier[39_457] = 1;
        assert_eq!(compare(&new, &earlier), Ok(Ordering::Less));
        assert_eq!(compare(&earlier, &new), Ok(Ordering::Greater));
    }

    /// The first record's refusal comes before the second's.
    #[test]
    fn order_refused() {
        let record = record_with(&[]);
        let refused = |first: &[u8], second: &[u8]| {
            let refused = compare(first, second).unwrap_err();
            (refused.which, refused.number, refused.beside)
        };
        let mut blank = record.clone();
        blank[7] = 0;
        let cut = &record[..3470];
        assert_eq!(refused(cut, &record), (Which::First, 12, 3464));
        assert_eq!(refused(&record, cut), (Which::Second, 12, 3464));
        assert_eq!(refused(&blank, &record), (Which::First, 13, 7));
        assert_eq!(refused(&record, &blank), (Which::Second, 13, 7));
        assert_eq!(refused(cut, &blank), (Which::First, 12, 3464));
        assert_eq!(refused(&blank, cut), (Which::First, 13, 7));
        assert_eq!(refused(&[], &[]), (Which::First, 12, 0));
        assert_eq!(refused(&record, &[]), (Which::Second, 12, 0));
        let long = [&record[..], &[0]].concat();
        assert_eq!(refused(&record, &long), (Which::Second, 12, 3471));
    }

    /// The reel of document 01 as one of a line: with its number, and with as many traces from a number on.
    fn reel_of_line(reel: u32, traces: u32, first: u32) -> Vec<u8> {
        let mut bytes = example();
        let trace = bytes.split_off(3600);
        bytes[3208..3212].copy_from_slice(&reel.to_be_bytes());
        for i in 0..traces {
            let start = bytes.len();
            bytes.extend(&trace);
            bytes[start..start + 4].copy_from_slice(&(first + i).to_be_bytes());
            bytes[start + 4..start + 8].copy_from_slice(&(1 + i).to_be_bytes());
        }
        bytes
    }

    /// What checking reels as a box answers.
    fn checked(reels: &[Vec<u8>]) -> Result<(u64, u64), (u64, u64)> {
        let lengths: Vec<u64> = reels.iter().map(|reel| reel.len() as u64).collect();
        check_box(&reels.concat(), &lengths)
            .map(|taken| (taken.reels, taken.traces))
            .map_err(|refused| (refused.number, refused.beside))
    }

    /// Reels of one line, one of them without traces; and each field that has a rule, one more than it should be on each reel.
    #[test]
    fn a_box() {
        let line = [
            reel_of_line(7, 2, 101),
            reel_of_line(8, 0, 0),
            reel_of_line(9, 1, 103),
        ];
        assert_eq!(checked(&line), Ok((3, 3)));
        assert_eq!(checked(&line[1..]), Ok((2, 1)));
        assert_eq!(checked(&line[1..2]), Ok((1, 0)));
        assert_eq!(checked(&[]), Ok((0, 0)));
        // The line numbers of the second and third reel, all other numbers of the headers, and those of the traces.
        for (reel, place) in [
            (1, 3204),
            (2, 3204),
            (1, 3208),
            (2, 3208),
            (0, 3848),
            (2, 3600),
            (0, 3604),
            (0, 3852),
            (2, 3604),
        ] {
            let mut other = line.clone();
            other[reel][place + 3] ^= 0x10;
            let start: usize = line[..reel].iter().map(Vec::len).sum();
            assert_eq!(checked(&other), Err((22, (start + place) as u64)));
        }
        // The interval of a reel without traces; the number of the first reel is free, so the one behind it is wrong.
        let mut other = line.clone();
        other[1][3217] ^= 0x10;
        assert_eq!(checked(&other), Err((22, 4096 + 3216)));
        other[0][3211] = 1;
        assert_eq!(checked(&other), Err((22, 4096 + 3208)));
    }

    /// Lengths that don't add up come before everything, also where their sum would wrap; a reel's own causes have places in the slice.
    #[test]
    fn a_box_refused() {
        let refused = |reels: &[u8], lengths: &[u64]| {
            let refused = check_box(reels, lengths).unwrap_err();
            (refused.number, refused.beside)
        };
        let line = [reel_of_line(1, 1, 1), reel_of_line(2, 1, 2)];
        let both = line.concat();
        let length = line[0].len() as u64;
        assert_eq!(check_box(&both, &[length, length]).unwrap().traces, 2);
        for lengths in [
            &[][..],
            &[length],
            &[length, length - 1],
            &[length, length, 1],
            &[0],
            &[length, length, u64::MAX, 1],
            &[2 * length, 1 << 63, 1 << 63],
        ] {
            assert_eq!(refused(&both, lengths), (21, 0), "{lengths:?}");
        }
        assert_eq!(refused(&[], &[0]), (1, 0));
        assert_eq!(refused(&both, &[length, length, 0]), (1, 0));
        assert_eq!(refused(&both, &[length, 3599, length - 3599]), (1, 3599));
        let mut wrong = both.clone();
        wrong[line[0].len() + 3225] = 7;
        assert_eq!(refused(&wrong, &[length, length]), (2, length + 3224));
        assert_eq!(refused(&both, &[2 * length]), (5, 7568));
    }

    /// Eight card bytes: one byte in each place that has a 1 in `places`, another in the rest.
    fn eight(places: u8, there: u8, rest: u8) -> [u8; 8] {
        let byte = |place| match places & place {
            0 => rest,
            _ => there,
        };
        [0x80, 0x40, 0x20, 0x10, 0x08, 0x04, 0x02, 0x01].map(byte)
    }

    /// Zeros in every set of places, beside every other byte. The machine's own order gives the same bytes.
    #[test]
    fn eight_cards() {
        assert_eq!(blank_eight(0), 0x4040_4040_4040_4040);
        assert_eq!(blank_eight(0x0001_80FF_C300_0100), 0x4001_80FF_C340_0140);
        for [other, zeros] in (0x0100..=0xFFFF).map(u16::to_be_bytes) {
            let (cards, blanked) = (eight(zeros, 0x00, other), eight(zeros, 0x40, other));
            let given = blank_eight(u64::from_be_bytes(cards)).to_be_bytes();
            assert_eq!(given, blanked, "{cards:02X?}");
            let given = blank_eight(u64::from_ne_bytes(cards)).to_ne_bytes();
            assert_eq!(given, blanked, "{cards:02X?}");
        }
    }

    /// Reading blanks the zeros among all card bytes, and a reel that has blanks there has the same record.
    #[test]
    fn cards_of_a_reel() {
        let others = [0x01, 0x7F, 0x80, 0xC1, 0xFF];
        let cards = |zero| -> Vec<u8> {
            let eights = (0..400).map(|word| eight(word as u8, zero, others[word % 5]));
            eights.flatten().collect()
        };
        let [zeros, blanks] = [0x00, 0x40].map(|zero| {
            let (mut reel, mut record) = (example(), vec![0; 3471]);
            reel[..3200].copy_from_slice(&cards(zero));
            read_reel(&reel, &mut record).unwrap();
            record
        });
        assert_eq!(zeros[3..3203], cards(0x40));
        assert_eq!(zeros, blanks);
    }

    #[test]
    fn fields() {
        let reel = example();
        assert_eq!(look_up(&reel, 0, 3217), Ok(2000));
        assert_eq!(look_up(&reel, 1, 115), Ok(2));
        assert_eq!(look_up(&reel, 2, 115).unwrap_err().number, 15);
        assert_eq!(look_up(&reel, 1, 116).unwrap_err().number, 16);
    }

    /// Elevations and coordinates: a record has the smallest power's scalar, a field is looked up as it stands on the reel.
    #[test]
    fn scalars() {
        let record_of = |reel: &[u8]| {
            let mut record = vec![0; 3471];
            read_reel(reel, &mut record).map(|_| record)
        };
        let mut reel = example();
        reel[3640..3644].copy_from_slice(&1000i32.to_be_bytes());
        reel[3668..3670].copy_from_slice(&(-10i16).to_be_bytes());
        let mut record = record_of(&reel).unwrap();
        assert_eq!(record[3309..3313], 1_000_000i32.to_be_bytes());
        assert_eq!(record[3337..3341], [0xD8, 0xF0, 0xD8, 0xF0]);
        assert_eq!(look_up(&reel, 1, 41), Ok(1000));
        assert_eq!(look_up(&reel, 1, 69), Ok(-10));
        assert_eq!(look_up(&reel, 1, 71), Ok(0));
        // The same elevation under another scalar.
        let mut other = reel.clone();
        other[3640..3644].copy_from_slice(&10_000i32.to_be_bytes());
        other[3668..3670].copy_from_slice(&(-100i16).to_be_bytes());
        assert_eq!(record_of(&other), Ok(record.clone()));
        other[3670..3672].copy_from_slice(&7i16.to_be_bytes());
        let refused = record_of(&other).unwrap_err();
        assert_eq!((refused.number, refused.beside), (18, 3670));
        assert_eq!(look_up(&other, 0, 3217), Err(refused));
        record[3339..3341].copy_from_slice(&1i16.to_be_bytes());
        let refused = write_reel(&record, 1, &mut []).unwrap_err();
        assert_eq!((refused.number, refused.beside), (13, 3339));
        assert_eq!(list_cards(&record).unwrap_err(), refused);
    }

    #[test]
    fn samples() {
        let pair = [0xFF, 0xFD, 0xFF, 0xFF, 0xFC, 0x4B];
        let read = read_word(1, [0xC2, 0x76, 0xA0, 0]).unwrap();
        assert_eq!((read.pair, read.not_normal), (pair, false));
        assert_eq!(write_pair(1, pair), Ok([0xC2, 0x76, 0xA0, 0]));
        assert_eq!(write_pair(2, pair).unwrap_err().number, 14);
        assert_eq!(read_word(4, [1, 0, 0, 0]).unwrap_err().number, 9);
        for code in 0..300 {
            let refused = (
                read_word(code, [0; 4]).err().map(|refused| refused.number),
                write_pair(code, [0; 6]).err().map(|refused| refused.number),
            );
            let expected = match Code::of(code) {
                Some(_) => (None, None),
                None => (Some(2), Some(11)),
            };
            assert_eq!(refused, expected, "{code}");
        }
    }

    /// The value of a pair, which 64 bits hold exactly.
    fn value(pair: [u8; 6]) -> f64 {
        let e = i16::from_be_bytes([pair[0], pair[1]]);
        let m = i32::from_be_bytes([pair[2], pair[3], pair[4], pair[5]]);
        let power = f64::from_bits(((i64::from(e) + 1023) as u64) << 52);
        f64::from(m) * power
    }

    /// Words of code 5 against this machine's own numbers: every sign and exponent with fractions of all lengths.
    #[test]
    fn ieee_words() {
        let ones = (0..24).map(|length| (1u32 << length) - 1);
        let fractions: Vec<u32> = ones
            .flat_map(|ones| [ones, ones + 1, 0x007F_FFFF & !ones, 0x0055_5555 & ones])
            .filter(|fraction| fraction >> 23 == 0)
            .collect();
        for word in (0..512).flat_map(|first: u32| fractions.iter().map(move |f| first << 23 | f)) {
            let (bytes, number) = (word.to_be_bytes(), f32::from_bits(word));
            if !number.is_finite() {
                let refused = read_word(5, bytes).unwrap_err();
                assert_eq!((refused.number, refused.beside), (19, 0), "{word:08X}");
                continue;
            }
            let read = read_word(5, bytes).unwrap();
            assert_eq!(value(read.pair), f64::from(number), "{word:08X}");
            assert!(!read.not_normal);
            let written = if number == 0.0 { [0; 4] } else { bytes };
            assert_eq!(write_pair(5, read.pair), Ok(written), "{word:08X}");
        }
    }

    /// Values about the edges of code 5, by exponent and mantissa: what is between two of its numbers, or beyond them, doesn't fit.
    #[test]
    fn values_that_are_no_ieee_word() {
        let write = |e: i16, m: i32| {
            let ([a, b], [c, d, f, g]) = (e.to_be_bytes(), m.to_be_bytes());
            write_pair(5, [a, b, c, d, f, g]).map_err(|refused| refused.number)
        };
        assert_eq!(write(-149, 1), Ok([0, 0, 0, 1]));
        assert_eq!(write(-149, -0x007F_FFFF), Ok([0x80, 0x7F, 0xFF, 0xFF]));
        assert_eq!(write(-126, 1), Ok([0, 0x80, 0, 0]));
        assert_eq!(write(104, 0x00FF_FFFF), Ok([0x7F, 0x7F, 0xFF, 0xFF]));
        assert_eq!(write(127, -1), Ok([0xFF, 0, 0, 0]));
        for (e, m) in [
            (-150, 1),
            (-150, 0x00FF_FFFF),
            (-280, -1),
            (0, 0x0100_0001),
            (104, 0x01FF_FFFF),
            (105, 0x00FF_FFFF),
            (128, 1),
            (251, -1),
        ] {
            assert_eq!(write(e, m), Err(14), "{m} * 2^{e}");
        }
    }

    /// Code 8: the first byte of a word is the sample, and the rest is ignored on reading and 00 on writing.
    #[test]
    fn words_of_one_byte() {
        for byte in 0..=255 {
            let read = read_word(8, [byte, 0xA5, 0xFF, 0x01]).unwrap();
            assert_eq!(value(read.pair), f64::from(byte as i8));
            assert!(!read.not_normal);
            assert_eq!(write_pair(8, read.pair), Ok([byte, 0, 0, 0]));
        }
        let [whole, half] = [[0, 0, 0, 0, 0, 129], [0xFF, 0xFF, 0, 0, 0, 1]];
        assert_eq!(write_pair(8, whole).unwrap_err().number, 14);
        assert_eq!(write_pair(8, half).unwrap_err().number, 14);
        // 128 doesn't fit, and -128 does.
        assert_eq!(write_pair(8, [0, 7, 0, 0, 0, 1]).unwrap_err().number, 14);
        let least = [0, 7, 0xFF, 0xFF, 0xFF, 0xFF];
        assert_eq!(write_pair(8, least), Ok([0x80, 0, 0, 0]));
    }

    /// Words at the edge of what is normal, each alone and all on a reel; and the same bytes as whole numbers.
    #[test]
    fn words_not_normal() {
        let words = [
            (0x0000_0000, false),
            (0x0000_0001, false),
            (0x8000_0001, false),
            (0x000F_FFFF, false),
            (0x4110_0000, false),
            (0xFFF0_0000, false),
            (0x8000_0000, true),
            (0x7F00_0000, true),
            (0xC100_0000, true),
            (0x0100_0000, true),
            (0x4201_0000, true),
            (0xC10F_FFFF, true),
            (0x0100_0001, true),
        ];
        for (word, is_not) in words {
            let word = u32::to_be_bytes(word);
            let read = |code| read_word(code, word).unwrap().not_normal;
            assert_eq!((read(1), read(2)), (is_not, false), "{word:02X?}");
        }
        let mut reel = example();
        reel.truncate(3840);
        reel.extend(words.iter().flat_map(|(word, _)| u32::to_be_bytes(*word)));
        reel[3221] = words.len() as u8;
        let mut record = vec![0; record_length(1, words.len() as u64).unwrap() as usize];
        assert_eq!(read_reel(&reel, &mut record).unwrap().not_normal, 7);
        reel[3225] = 2;
        assert_eq!(read_reel(&reel, &mut record).unwrap().not_normal, 0);
    }

    /// An order that no call gives is never handed on.
    #[test]
    fn orders_that_are_wrong() {
        let answer = |number, order, which, beside| c::OrderAnswer {
            number,
            order,
            which,
            beside,
        };
        let right = |number, order, which, beside| {
            ordered(answer(number, order, which, beside), 20, 30)
                .map_err(|refused| (refused.which, refused.number, refused.beside))
        };
        assert_eq!(right(0, -1, 0, 0), Ok(Ordering::Less));
        assert_eq!(right(0, 0, 0, 0), Ok(Ordering::Equal));
        assert_eq!(right(0, 1, 0, 0), Ok(Ordering::Greater));
        assert_eq!(right(12, 0, 1, 20), Err((Which::First, 12, 20)));
        assert_eq!(right(13, 0, 2, 30), Err((Which::Second, 13, 30)));
        for (number, order, which, beside) in [
            (0, 2, 0, 0),
            (0, -2, 0, 0),
            (0, 0, 1, 0),
            (0, 1, 0, 7),
            (12, 1, 1, 7),
            (12, -1, 2, 7),
            (12, 0, 0, 7),
            (12, 0, 3, 7),
            (12, 0, 1, 21),
            (13, 0, 2, 31),
            (14, 0, 1, 7),
            (10, 0, 2, 7),
        ] {
            let wrong = catch_unwind(|| ordered(answer(number, order, which, beside), 20, 30));
            assert!(wrong.is_err(), "{number} {order} {which} {beside}");
        }
    }

    /// What no box has is never handed on.
    #[test]
    fn boxes_that_are_wrong() {
        let told = |(number, reels, traces, beside)| {
            let answer = c::BoxAnswer {
                number,
                reels,
                traces,
                beside,
            };
            box_checked(answer, 7682, 2)
        };
        for (answer, traces) in [((0, 2, 0, 0), 0), ((0, 2, 31, 0), 31)] {
            assert_eq!(told(answer), Ok(BoxChecked { reels: 2, traces }));
        }
        for (number, beside) in [(1, 3599), (2, 7681), (9, 0), (18, 1), (19, 2), (22, 7681)] {
            let refusal = Refusal { number, beside };
            assert_eq!(told((number, 0, 0, beside)), Err(refusal));
        }
        assert_eq!(told((21, 0, 0, 0)).unwrap_err().number, 21);
        for answer in [
            (0, 1, 0, 0),
            (0, 3, 0, 0),
            (0, 2, 32, 0),
            (0, 2, 1, 1),
            (1, 0, 0, 3600),
            (5, 0, 0, 7682),
            (22, 0, 0, 7682),
            (22, 1, 0, 7),
            (22, 0, 1, 7),
            (21, 0, 0, 1),
            (10, 0, 0, 7),
            (17, 0, 0, 7),
            (20, 0, 0, 7),
            (23, 0, 0, 7),
        ] {
            assert!(catch_unwind(|| told(answer)).is_err(), "{answer:?}");
        }
    }

    /// Counts that no call gives are never handed on.
    #[test]
    fn counts_that_are_wrong() {
        let reel = |number, not_normal, changed| c::ReelAnswer {
            number,
            traces: 3 * u64::from(number == 0),
            samples: 2 * u64::from(number == 0),
            length: 9 * u64::from(number == 0),
            beside: 7 * u64::from(number != 0),
            not_normal,
            changed,
        };
        let sample = |number, not_normal| c::SampleAnswer {
            number,
            beside: 0,
            not_normal,
        };
        let read_fails = |answer| catch_unwind(|| reel_read(answer, &[20], 9)).is_err();
        let eagle_fails = |answer| catch_unwind(|| reel_read(answer, &[9, 19], 9)).is_err();
        let nearest_fails = |answer| catch_unwind(|| nearest_written(answer, 9)).is_err();
        let taken_fails = |answer| catch_unwind(|| taken(answer, 9)).is_err();
        let sample_fails =
            |answer, words| catch_unwind(|| sample_not_normal(answer, words)).is_err();
        assert_eq!(reel_read(reel(0, 6, 0), &[20], 9).unwrap().not_normal, 6);
        assert!(read_fails(reel(0, 7, 0)));
        assert!(read_fails(reel(0, 6, 1)));
        assert!(read_fails(reel(5, 1, 0)));
        assert!(read_fails(reel(5, 0, 1)));
        assert_eq!(reel_read(reel(19, 0, 0), &[20], 9).unwrap_err().number, 19);
        assert!(read_fails(reel(20, 0, 0)));
        assert_eq!(reel_read(reel(20, 0, 0), &[19], 9).unwrap_err().number, 20);
        assert!(eagle_fails(reel(9, 0, 0)));
        assert!(eagle_fails(reel(19, 0, 0)));
        assert!(eagle_fails(reel(21, 0, 0)));
        assert!(eagle_fails(reel(0, 7, 0)));
        assert_eq!(nearest_written(reel(0, 0, 6), 9).unwrap().changed, 6);
        assert!(nearest_fails(reel(0, 0, 7)));
        assert!(nearest_fails(reel(0, 1, 6)));
        assert!(nearest_fails(reel(13, 0, 1)));
        assert_eq!(nearest_written(reel(13, 0, 0), 9).unwrap_err().number, 13);
        assert!(nearest_fails(reel(14, 0, 0)));
        assert_eq!(taken(reel(0, 0, 0), 9).unwrap().traces, 3);
        assert!(taken_fails(reel(0, 1, 0)));
        assert!(taken_fails(reel(0, 0, 1)));
        assert!(taken_fails(reel(14, 1, 0)));
        assert!(taken_fails(reel(14, 0, 1)));
        assert_eq!(sample_not_normal(sample(0, 1), 1), Ok(1));
        assert!(sample_fails(sample(0, 2), 1));
        assert!(sample_fails(sample(0, 1), 0));
        assert_eq!(sample_not_normal(sample(9, 0), 1).unwrap_err().number, 9);
        assert!(sample_fails(sample(9, 1), 1));
    }
}
