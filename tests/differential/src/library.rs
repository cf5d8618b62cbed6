//! The calls of include/aukpocket.h, and the independent implementation's answers in their form.

use independent::{BoxTaken, NearestWritten, ReelRead, Refused, RefusedOf, Taken, WordRead};
use std::cmp::Ordering;

#[repr(C)]
#[derive(Clone, Copy, Debug, PartialEq, Eq)]
pub struct ReelAnswer {
    pub number: u64,
    pub traces: u64,
    pub samples: u64,
    pub length: u64,
    pub beside: u64,
    pub not_normal: u64,
    pub changed: u64,
}

#[repr(C)]
#[derive(Clone, Copy, Debug, PartialEq, Eq)]
pub struct FieldAnswer {
    pub number: u32,
    pub value: i32,
    pub beside: u64,
}

#[repr(C)]
#[derive(Clone, Copy, Debug, PartialEq, Eq)]
pub struct SampleAnswer {
    pub number: u64,
    pub beside: u64,
    pub not_normal: u64,
}

#[repr(C)]
#[derive(Clone, Copy, Debug, PartialEq, Eq)]
pub struct OrderAnswer {
    pub number: u32,
    pub order: i32,
    pub which: u64,
    pub beside: u64,
}

#[repr(C)]
#[derive(Clone, Copy, Debug, PartialEq, Eq)]
pub struct BoxAnswer {
    pub number: u64,
    pub reels: u64,
    pub traces: u64,
    pub beside: u64,
}

extern "C" {
    fn aukpocket_read_reel(
        reel: *const u8,
        reel_length: usize,
        record: *mut u8,
        record_length: usize,
    ) -> ReelAnswer;
    fn aukpocket_read_eagle(
        reel: *const u8,
        reel_length: usize,
        record: *mut u8,
        record_length: usize,
    ) -> ReelAnswer;
    fn aukpocket_write_reel(
        record: *const u8,
        record_length: usize,
        code: u32,
        reel: *mut u8,
        reel_length: usize,
    ) -> ReelAnswer;
    fn aukpocket_write_nearest(
        record: *const u8,
        record_length: usize,
        code: u32,
        reel: *mut u8,
        reel_length: usize,
    ) -> ReelAnswer;
    fn aukpocket_list_cards(
        record: *const u8,
        record_length: usize,
        listing: *mut u8,
        listing_length: usize,
    ) -> ReelAnswer;
    fn aukpocket_take_cards(
        record: *const u8,
        record_length: usize,
        listing: *const u8,
        listing_length: usize,
        out: *mut u8,
        out_length: usize,
    ) -> ReelAnswer;
    fn aukpocket_look_up(
        reel: *const u8,
        reel_length: usize,
        trace: usize,
        byte_number: u32,
    ) -> FieldAnswer;
    fn aukpocket_read_word(code: u32, word: *const u8, pair: *mut u8) -> SampleAnswer;
    fn aukpocket_write_pair(code: u32, pair: *const u8, word: *mut u8) -> SampleAnswer;
    fn aukpocket_blank_eight(cards: u64) -> u64;
    fn aukpocket_compare(
        first: *const u8,
        first_length: usize,
        second: *const u8,
        second_length: usize,
    ) -> OrderAnswer;
    fn aukpocket_check_box(
        reels: *const u8,
        reels_length: usize,
        lengths: *const u64,
        lengths_count: usize,
    ) -> BoxAnswer;
}

pub fn read_reel(reel: &[u8], out: &mut [u8]) -> ReelAnswer {
    unsafe { aukpocket_read_reel(reel.as_ptr(), reel.len(), out.as_mut_ptr(), out.len()) }
}

pub fn read_eagle(reel: &[u8], out: &mut [u8]) -> ReelAnswer {
    unsafe { aukpocket_read_eagle(reel.as_ptr(), reel.len(), out.as_mut_ptr(), out.len()) }
}

pub fn write_reel(record: &[u8], code: u32, out: &mut [u8]) -> ReelAnswer {
    unsafe {
        aukpocket_write_reel(
            record.as_ptr(),
            record.len(),
            code,
            out.as_mut_ptr(),
            out.len(),
        )
    }
}

pub fn write_nearest(record: &[u8], code: u32, out: &mut [u8]) -> ReelAnswer {
    unsafe {
        aukpocket_write_nearest(
            record.as_ptr(),
            record.len(),
            code,
            out.as_mut_ptr(),
            out.len(),
        )
    }
}

pub fn list_cards(record: &[u8], out: &mut [u8]) -> ReelAnswer {
    unsafe { aukpocket_list_cards(record.as_ptr(), record.len(), out.as_mut_ptr(), out.len()) }
}

pub fn take_cards(record: &[u8], listing: &[u8], out: &mut [u8]) -> ReelAnswer {
    unsafe {
        aukpocket_take_cards(
            record.as_ptr(),
            record.len(),
            listing.as_ptr(),
            listing.len(),
            out.as_mut_ptr(),
            out.len(),
        )
    }
}

pub fn look_up(reel: &[u8], trace: usize, byte: u32) -> FieldAnswer {
    unsafe { aukpocket_look_up(reel.as_ptr(), reel.len(), trace, byte) }
}

pub fn read_word(code: u32, word: &[u8; 4], pair: &mut [u8; 6]) -> SampleAnswer {
    unsafe { aukpocket_read_word(code, word.as_ptr(), pair.as_mut_ptr()) }
}

pub fn write_pair(code: u32, pair: &[u8; 6], word: &mut [u8; 4]) -> SampleAnswer {
    unsafe { aukpocket_write_pair(code, pair.as_ptr(), word.as_mut_ptr()) }
}

pub fn blank_eight(cards: u64) -> u64 {
    unsafe { aukpocket_blank_eight(cards) }
}

pub fn compare(first: &[u8], second: &[u8]) -> OrderAnswer {
    unsafe { aukpocket_compare(first.as_ptr(), first.len(), second.as_ptr(), second.len()) }
}

pub fn check_box(slice: &[u8], lengths: &[u64]) -> BoxAnswer {
    unsafe { aukpocket_check_box(slice.as_ptr(), slice.len(), lengths.as_ptr(), lengths.len()) }
}

/// Beside a refusal all that it doesn't name is 0.
impl From<Refused> for ReelAnswer {
    fn from(Refused { number, beside }: Refused) -> ReelAnswer {
        ReelAnswer {
            number,
            traces: 0,
            samples: 0,
            length: 0,
            beside,
            not_normal: 0,
            changed: 0,
        }
    }
}

/// Reading changes no sample.
impl From<Result<ReelRead, Refused>> for ReelAnswer {
    fn from(result: Result<ReelRead, Refused>) -> ReelAnswer {
        match result {
            Ok(ReelRead {
                traces,
                samples,
                length,
                not_normal,
            }) => ReelAnswer {
                number: 0,
                traces,
                samples,
                length,
                beside: 0,
                not_normal,
                changed: 0,
            },
            Err(cause) => cause.into(),
        }
    }
}

/// Nearest writing counts no words, but the samples that it changed.
impl From<Result<NearestWritten, Refused>> for ReelAnswer {
    fn from(result: Result<NearestWritten, Refused>) -> ReelAnswer {
        match result {
            Ok(NearestWritten {
                traces,
                samples,
                length,
                changed,
            }) => ReelAnswer {
                number: 0,
                traces,
                samples,
                length,
                beside: 0,
                not_normal: 0,
                changed,
            },
            Err(cause) => cause.into(),
        }
    }
}

/// Any other call on a record counts nothing.
impl From<Result<Taken, Refused>> for ReelAnswer {
    fn from(result: Result<Taken, Refused>) -> ReelAnswer {
        match result {
            Ok(Taken {
                traces,
                samples,
                length,
            }) => ReelAnswer {
                number: 0,
                traces,
                samples,
                length,
                beside: 0,
                not_normal: 0,
                changed: 0,
            },
            Err(cause) => cause.into(),
        }
    }
}

/// A listing has a length only.
impl From<Result<u64, Refused>> for ReelAnswer {
    fn from(result: Result<u64, Refused>) -> ReelAnswer {
        result
            .map(|length| Taken {
                traces: 0,
                samples: 0,
                length,
            })
            .into()
    }
}

impl From<Result<i32, Refused>> for FieldAnswer {
    fn from(result: Result<i32, Refused>) -> FieldAnswer {
        match result {
            Ok(value) => FieldAnswer {
                number: 0,
                value,
                beside: 0,
            },
            Err(Refused { number, beside }) => FieldAnswer {
                number: number as u32,
                value: 0,
                beside,
            },
        }
    }
}

/// The order is -1 where the first record is the lesser, 1 where the second is.
impl From<Result<Ordering, RefusedOf>> for OrderAnswer {
    fn from(result: Result<Ordering, RefusedOf>) -> OrderAnswer {
        match result {
            Ok(order) => OrderAnswer {
                number: 0,
                order: match order {
                    Ordering::Less => -1,
                    Ordering::Equal => 0,
                    Ordering::Greater => 1,
                },
                which: 0,
                beside: 0,
            },
            Err(RefusedOf {
                which,
                number,
                beside,
            }) => OrderAnswer {
                number: number as u32,
                order: 0,
                which,
                beside,
            },
        }
    }
}

/// Beside a refusal both counts are 0.
impl From<Result<BoxTaken, Refused>> for BoxAnswer {
    fn from(result: Result<BoxTaken, Refused>) -> BoxAnswer {
        match result {
            Ok(BoxTaken { reels, traces }) => BoxAnswer {
                number: 0,
                reels,
                traces,
                beside: 0,
            },
            Err(Refused { number, beside }) => BoxAnswer {
                number,
                reels: 0,
                traces: 0,
                beside,
            },
        }
    }
}

/// A single word's answer, and the pair handed out: all 00 beside a refusal.
pub fn word_answer(result: Result<WordRead, Refused>) -> (SampleAnswer, [u8; 6]) {
    match result {
        Ok(WordRead { pair, not_normal }) => (
            SampleAnswer {
                number: 0,
                beside: 0,
                not_normal: u64::from(not_normal),
            },
            pair,
        ),
        Err(cause) => (cause.into(), [0; 6]),
    }
}

/// A single pair's answer, and the word handed out: all 00 beside a refusal.
pub fn pair_answer(result: Result<[u8; 4], Refused>) -> (SampleAnswer, [u8; 4]) {
    match result {
        Ok(word) => (
            SampleAnswer {
                number: 0,
                beside: 0,
                not_normal: 0,
            },
            word,
        ),
        Err(cause) => (cause.into(), [0; 4]),
    }
}

impl From<Refused> for SampleAnswer {
    fn from(Refused { number, beside }: Refused) -> SampleAnswer {
        SampleAnswer {
            number,
            beside,
            not_normal: 0,
        }
    }
}
