//! The order of records, by document 02's CR 9: what they hold is compared item by item, and samples as
//! exact whole numbers.

use super::nearest::Whole;
use super::{
    binary_field, check_record, signed, trace_field, HeldTrace, Pair, Refused, BINARY_FIELDS,
    BINARY_PLACE, CARD_BYTES, FIELD_HEAD, PAIR_BYTES, TRACE_FIELDS,
};
use std::cmp::Ordering;

/// Which of two records is refused, 1 or 2, by which number, and the place in that record.
#[derive(Clone, Copy, Debug, PartialEq, Eq)]
pub struct RefusedOf {
    pub which: u64,
    pub number: u64,
    pub beside: u64,
}

/// Compares two records: less where the first is the lesser, greater where the second is. The first is
/// judged whole before the second. The first item that differs decides, and the count of traces only where
/// all traces that both have are equal.
pub fn compare(first: &[u8], second: &[u8]) -> Result<Ordering, RefusedOf> {
    let [first_traces, second_traces] = [held(1, first)?, held(2, second)?];

    let mut order = cards(first)
        .cmp(cards(second))
        .then_with(|| binary_numbers(first).cmp(&binary_numbers(second)));
    for (a, b) in first_traces.iter().zip(&second_traces) {
        order = order
            .then_with(|| trace_numbers(first, a).cmp(&trace_numbers(second, b)))
            .then_with(|| {
                let samples = samples(first, a).zip(samples(second, b));
                let mut orders = samples.map(|(a, b)| by_value(a, b));
                let first_other = orders.find(|&order| order != Ordering::Equal);
                first_other.unwrap_or(Ordering::Equal)
            });
    }
    Ok(order.then(first_traces.len().cmp(&second_traces.len())))
}

/// Where the traces of a record stand that neither 12 nor 13 applies to.
fn held(which: u64, record: &[u8]) -> Result<Vec<HeldTrace>, RefusedOf> {
    match check_record(record, None) {
        Ok((_, traces)) => Ok(traces),
        Err(Refused { number, beside }) => Err(RefusedOf {
            which,
            number,
            beside,
        }),
    }
}

/// The card bytes, which have no sign.
fn cards(record: &[u8]) -> &[u8] {
    &record[FIELD_HEAD..][..CARD_BYTES]
}

/// The numbers of the binary header, the first byte number first.
fn binary_numbers(record: &[u8]) -> Vec<i32> {
    let fields = &record[BINARY_PLACE + FIELD_HEAD..][..BINARY_FIELDS];
    let byte_numbers = 3201..3201 + BINARY_FIELDS as u32;
    byte_numbers
        .filter_map(|byte| Some((byte, binary_field(byte)?)))
        .map(|(byte, width)| signed(&fields[byte as usize - 3201..][..width]))
        .collect()
}

/// The numbers of a trace header, the first byte number first.
fn trace_numbers(record: &[u8], trace: &HeldTrace) -> Vec<i32> {
    let fields = &record[trace.header.clone()];
    let byte_numbers = 1..1 + TRACE_FIELDS as u32;
    byte_numbers
        .filter_map(|byte| Some((byte, trace_field(byte)?)))
        .map(|(byte, width)| signed(&fields[byte as usize - 1..][..width]))
        .collect()
}

/// The samples of a trace in their order, in however many fields they stand.
fn samples<'a>(record: &'a [u8], trace: &'a HeldTrace) -> impl Iterator<Item = Pair> + 'a {
    let fields = trace.samples.iter().map(|field| &record[field.clone()]);
    fields.flat_map(|field| field.chunks_exact(PAIR_BYTES).map(Pair::of_bytes))
}

/// The order of two samples by V, which is m × 2^(e + 280): below zero that of the larger size is the
/// lesser.
fn by_value(a: Pair, b: Pair) -> Ordering {
    let size = |pair: Pair| {
        let power = i32::from(pair.exponent) + 280;
        Whole::of(u64::from(pair.mantissa.unsigned_abs()), power as u32)
    };
    match (a.mantissa < 0, b.mantissa < 0) {
        (false, false) => size(a).cmp(&size(b)),
        (true, true) => size(b).cmp(&size(a)),
        (true, false) => Ordering::Less,
        (false, true) => Ordering::Greater,
    }
}
