//! Comparing: the records of the benchmark differ where they should and nowhere else, and all orders of them
//! are right.

use super::*;
use crate::order::{self, Comparing, Held, Second, LARGE, SMALL};
use crate::passes::{self, RECORD_END, RECORD_HEAD};
use independent::RefusedOf;
use std::cmp::Ordering;
use std::ops::Range;

const TRACES: usize = 3;
const DAMAGES: usize = 40_000;

/// The records of the benchmark, of some traces, and the small one as it is.
fn all_held() -> Vec<Held> {
    let large = LARGE.map(|(samples, kinds)| {
        let stride = passes::held_stride(samples.into());
        Held::new((samples, kinds), RECORD_HEAD + TRACES * stride + RECORD_END)
    });
    large.into_iter().chain([Held::new(SMALL, 0)]).collect()
}

/// From the first place at which two records of one length differ to behind the last.
fn differing(first: &[u8], second: &[u8]) -> Option<Range<usize>> {
    assert_eq!(first.len(), second.len());
    let differs = |&at: &usize| first[at] != second[at];
    let start = (0..first.len()).find(differs)?;
    let last = (start..first.len()).rfind(differs)?;
    Some(start..last + 1)
}

/// Each kind stands at its place in the list, every one is measured, all three orders are among them, and a
/// record with the same bytes, which memcmp takes, always is.
#[test]
fn kinds_of_second_records() {
    for (k, (kind, _, order)) in order::SECONDS.into_iter().enumerate() {
        assert_eq!((kind as usize, kind.order()), (k, order));
        assert!(LARGE.iter().any(|(_, kinds)| kinds.contains(&kind)));
    }
    for order in [Ordering::Less, Ordering::Equal, Ordering::Greater] {
        assert!(order::SECONDS.iter().any(|(.., one)| *one == order));
    }
    for (_, kinds) in LARGE.into_iter().chain([SMALL]) {
        assert!(kinds.contains(&Second::Equal));
    }
}

/// The second records differ from the first in the bytes that their kind says, all are valid, and the library
/// and the independent implementation find the order of each, both ways round.
#[test]
fn records_that_are_compared() {
    for (held, traces) in all_held().iter().zip([TRACES, TRACES, TRACES, 1]) {
        let first = &held.first;
        let n = usize::from(held.samples);
        assert_eq!(first.len(), passes::record_length(n, traces));
        assert!(order::is_valid(first));
        for (kind, second) in &held.seconds {
            assert!(order::is_valid(second));
            let allowed = match kind {
                Second::Equal => {
                    assert_eq!(differing(first, second), None);
                    assert_ne!(first.as_ptr(), second.as_ptr());
                    continue;
                }
                Second::OtherForm => {
                    assert_eq!(second.len(), first.len() - TRACES * FIELD_HEAD);
                    assert_eq!(reels::earlier(first, held.samples), *second);
                    continue;
                }
                Second::OtherSample => {
                    let end = first.len() - RECORD_END;
                    end - PAIR_BYTES..end
                }
                Second::OtherHeader => {
                    let start = RECORD_HEAD + FIELD_HEAD;
                    start..start + passes::TRACE_FIELDS
                }
                Second::OtherCard => FIELD_HEAD..FIELD_HEAD + 1,
            };
            let found = differing(first, second).expect("a difference");
            assert!(allowed.start <= found.start && found.end <= allowed.end);
        }
        order::agree(held, library::compare);
    }
}

/// A library that finds a wrong order is noticed before anything is timed.
#[test]
fn wrong_orders_are_noticed() {
    type Found = Result<Ordering, RefusedOf>;
    fn always_equal(_: &[u8], _: &[u8]) -> Found {
        Ok(Ordering::Equal)
    }
    fn other_way_round(first: &[u8], second: &[u8]) -> Found {
        library::compare(second, first)
    }
    /// Header numbers have a sign, and forms don't count.
    fn by_bytes(first: &[u8], second: &[u8]) -> Found {
        Ok(first.cmp(second))
    }
    fn without_cards(first: &[u8], second: &[u8]) -> Found {
        let mut second = second.to_vec();
        second[FIELD_HEAD..][..CARD_BYTES].copy_from_slice(&first[FIELD_HEAD..][..CARD_BYTES]);
        library::compare(first, &second)
    }
    fn without_last_sample(first: &[u8], second: &[u8]) -> Found {
        let mut second = second.to_vec();
        let [from, to] = [first.len(), second.len()].map(|end| end - RECORD_END - PAIR_BYTES);
        second[to..][..PAIR_BYTES].copy_from_slice(&first[from..][..PAIR_BYTES]);
        library::compare(first, &second)
    }
    fn without_first_header(first: &[u8], second: &[u8]) -> Found {
        let mut second = second.to_vec();
        let header = RECORD_HEAD + FIELD_HEAD..RECORD_HEAD + FIELD_HEAD + passes::TRACE_FIELDS;
        second[header.clone()].copy_from_slice(&first[header]);
        library::compare(first, &second)
    }
    /// The earlier form isn't taken.
    fn one_form(first: &[u8], second: &[u8]) -> Found {
        if first.len() != second.len() {
            return Err(RefusedOf {
                which: 2,
                number: 12,
                beside: 3_449,
            });
        }
        library::compare(first, second)
    }

    let all = all_held();
    let is_noticed =
        |held: &Held, compare: Comparing| catch_unwind(|| order::agree(held, compare)).is_err();
    for held in &all {
        assert!(!is_noticed(held, library::compare));
        assert!(!is_noticed(held, independent::compare));
    }
    let [of_2000, of_8000, _, small] = &all[..] else {
        panic!("three large ones and the small one");
    };
    for held in [of_2000, small] {
        for wrong in [
            always_equal,
            other_way_round,
            by_bytes,
            without_cards,
            without_last_sample,
            without_first_header,
        ] {
            assert!(is_noticed(held, wrong));
        }
    }
    for wrong in [by_bytes, one_form] {
        assert!(is_noticed(of_8000, wrong));
    }
}

/// Both yardsticks look at the whole: memcmp at every byte, and judging at the cards, at the last sample and
/// at the end.
#[test]
fn yardsticks_of_comparing() {
    let held = Held::new(SMALL, 0);
    let record = &held.first;
    assert!(order::same_bytes(record, &record.clone()));
    for at in 0..record.len() {
        let mut other = record.clone();
        other[at] ^= 1;
        assert!(!order::same_bytes(record, &other));
    }
    let pair = record.len() - RECORD_END - PAIR_BYTES;
    for (at, byte) in [
        (FIELD_HEAD + CARD_BYTES - 1, 0),
        (pair + PAIR_BYTES - 1, 0x02),
        (record.len() - 1, 0x55),
    ] {
        let mut other = record.clone();
        other[at] = byte;
        assert!(!order::is_valid(&other), "byte {at}");
    }
}

/// Damaged records, the first, the second or both: the library answers as the independent implementation
/// does, with the order or with the record that is refused, its cause and its place.
#[test]
fn comparing_damaged_records() {
    let mut random = Random(10);
    let mut orders = [0; 3];
    let mut causes = [[0; CAUSES]; 2];
    let whole = Held::new((SAMPLES, &[]), BYTES).first;
    for _ in 0..DAMAGES {
        let which = random.below(3);
        let [first, second] = [0, 1].map(|other| match which == other {
            true => whole.clone(),
            false => damaged(&mut random, &whole),
        });
        let found = library::compare(&first, &second);
        assert_eq!(found, independent::compare(&first, &second));
        match found {
            Ok(order) => orders[(order as i32 + 1) as usize] += 1,
            Err(refused) => causes[refused.which as usize - 1][refused.number as usize] += 1,
        }
    }
    for count in orders {
        assert!(count > 50, "{orders:?}");
    }
    for causes in causes {
        assert!(causes[12] > 50 && causes[13] > 50, "{causes:?}");
        assert_eq!(causes.iter().sum::<i32>(), causes[12] + causes[13]);
    }
}
