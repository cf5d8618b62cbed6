//! The library's two passes in plain Rust, the first over all causes, the second writing into the
//! lent buffer, around what is done for each group of a trace header and for each sample.

use independent::{NearestWritten, ReelRead, Refused, Taken};
use std::ops::{Range, RangeInclusive};

pub const CARD_BYTES: usize = 3_200;
pub const REEL_HEADERS: usize = 3_600;
const TRACE_HEADER: usize = 240;
const BINARY_FIELDS: usize = 60;
pub const TRACE_FIELDS: usize = 180;

/// The bytes of a trailer, which follows each trace of an Eagle reel, and the two at its end.
pub const TRAILER: usize = 960;
pub const TRAILER_END: [u8; 2] = [0xFF, 0xFF];

/// The check of an Eagle reel is the last two card bytes, columns 79 and 80 of card 40.
pub const CHECK: Range<usize> = CARD_BYTES - 2..CARD_BYTES;

/// Offsets in a trace header: of fields 41 to 65 and of 69, their scalar; of field 71 and of 73 to 85,
/// on which it acts.
pub const ELEVATIONS: usize = 40;
pub const ELEVATION_SCALAR: usize = 68;
pub const COORDINATE_SCALAR: usize = 70;
pub const COORDINATES: usize = 72;

// Offsets of fields 3217, 3221 and 3225 in the binary header, of 115 and 117 in a trace's.
const INTERVAL: usize = 16;
const COUNT: usize = 20;
const CODE: usize = 24;
const TRACE_COUNT: usize = 114;
const TRACE_INTERVAL: usize = 116;

pub const MOST_SAMPLES: u16 = 32_767;
const MOST_INTERVAL: u16 = 32_767;
pub const MOST_TRACES: usize = 100_000;

pub const FIELD_HEAD: usize = 3;
pub const PAIR_BYTES: usize = 6;

/// The samples in each field of a trace but the last, which has the remaining ones; and how many a trace of
/// the earlier form has, all in a single field.
pub const FIELD_SAMPLES: usize = 6_000;
pub const EARLIER: RangeInclusive<usize> = FIELD_SAMPLES + 1..=8_000;

pub const RECORD_HEAD: usize = 2 * FIELD_HEAD + CARD_BYTES + BINARY_FIELDS;
pub const RECORD_END: usize = FIELD_HEAD + 4;

/// The numbers of the causes that apply to a word, and of those that apply to a pair.
pub const BAD_GAIN: u64 = 9;
pub const NOT_FINITE: u64 = 19;
pub const NOT_CANONICAL: u64 = 13;
pub const UNFIT: u64 = 14;

/// What is done for the elevations and the coordinates of a trace, by the fields of its header; and
/// for each sample, by the words and the pairs of a trace and an allowed code.
pub trait Steps {
    /// Whether a reel may have this scalar.
    fn is_allowed(scalar: i16) -> bool;

    /// Puts both groups of a reel's header and their scalars as a record holds them. The first pass has
    /// found that the scalars are allowed.
    fn put_groups(header: &[u8], fields: &mut [u8]);

    /// The offset of a record's first scalar that isn't that of the smallest power.
    fn refused_scalar(fields: &[u8]) -> Option<usize>;

    /// The first gain word that is refused, and the first infinity or not-a-number of IEEE words.
    fn refused_gain(words: &[u8]) -> Option<usize>;
    fn refused_ieee(words: &[u8]) -> Option<usize>;

    /// How many words are not normal: 0 but for code 1.
    fn count_words(code: u32, words: &[u8]) -> u64;

    fn put_pairs(code: u32, words: &[u8], pairs: &mut [u8]);

    /// The first pair that is refused, by the number of the cause and the count of those before it.
    fn check_pairs(code: u32, pairs: &[u8]) -> Result<(), (u64, usize)>;

    /// The first pair that isn't canonical.
    fn uncanonical_pair(pairs: &[u8]) -> Option<usize>;

    /// The first pass has found that each pair has a word.
    fn put_words(code: u32, pairs: &[u8], words: &mut [u8]);
}

/// What is done for each sample in nearest writing.
pub trait NearestSteps: Steps {
    /// Puts the word of the nearest value for each pair, and says how many have another value. The first
    /// pass has found that each pair is canonical.
    fn put_nearest(code: u32, pairs: &[u8], words: &mut [u8]) -> u64;
}

fn refused<T>(number: u64, beside: usize) -> Result<T, Refused> {
    Err(Refused {
        number,
        beside: beside as u64,
    })
}

fn be16(bytes: &[u8], at: usize) -> u16 {
    u16::from_be_bytes([bytes[at], bytes[at + 1]])
}

/// Whether a code is one of those that are read and written.
pub fn is_code(code: u32) -> bool {
    matches!(code, 1..=5 | 8)
}

/// The bytes of a sample on a reel.
pub fn sample_bytes(code: u32) -> usize {
    match code {
        3 => 2,
        8 => 1,
        _ => 4,
    }
}

/// The bytes of a field of so many samples.
pub fn field_bytes(samples: usize) -> usize {
    FIELD_HEAD + samples * PAIR_BYTES
}

/// The bytes of a trace in a record, in the new form.
pub fn held_stride(samples: usize) -> usize {
    let fields = samples.div_ceil(FIELD_SAMPLES);
    FIELD_HEAD + TRACE_FIELDS + fields * FIELD_HEAD + samples * PAIR_BYTES
}

/// How many samples stand in each field of a trace but the last, by what stands from the first field on: its
/// length tells the form.
fn share_of(samples: usize, fields: &[u8]) -> usize {
    if EARLIER.contains(&samples)
        && fields.len() >= FIELD_HEAD
        && usize::from(be16(fields, 1)) == samples * PAIR_BYTES
    {
        samples
    } else {
        FIELD_SAMPLES
    }
}

/// The bytes of a record in the new form.
pub fn record_length(samples: usize, traces: usize) -> usize {
    RECORD_HEAD + traces * held_stride(samples) + RECORD_END
}

/// The pairs of each field of samples, of a record in the new form.
pub fn held_pairs(record: &mut [u8], samples: usize) -> impl Iterator<Item = &mut [u8]> {
    record[RECORD_HEAD..]
        .chunks_exact_mut(held_stride(samples))
        .flat_map(|held| held[FIELD_HEAD + TRACE_FIELDS..].chunks_mut(field_bytes(FIELD_SAMPLES)))
        .map(|field| &mut field[FIELD_HEAD..])
}

// ## Reading

/// Reads a plain reel or an Eagle reel.
#[inline(always)]
pub fn read_reel<S: Steps, const EAGLE: bool>(
    reel: &[u8],
    out: &mut [u8],
) -> Result<ReelRead, Refused> {
    let numbers = check_reel::<S, EAGLE>(reel)?;
    let ReelNumbers {
        samples, traces, ..
    } = numbers;
    let length = record_length(samples, traces);
    if out.len() < length {
        return refused(10, length);
    }
    let not_normal = put_record::<S, EAGLE>(reel, &numbers, &mut out[..length]);
    Ok(ReelRead {
        traces: traces as u64,
        samples: samples as u64,
        length: length as u64,
        not_normal,
    })
}

struct ReelNumbers {
    code: u32,
    samples: usize,
    interval: u16,
    stride: usize,
    traces: usize,
}

fn check_reel<S: Steps, const EAGLE: bool>(reel: &[u8]) -> Result<ReelNumbers, Refused> {
    if reel.len() < REEL_HEADERS {
        return refused(1, reel.len());
    }
    let (headers, behind) = reel.split_at(REEL_HEADERS);
    let binary = &headers[CARD_BYTES..];
    let code = u32::from(be16(binary, CODE));
    if !is_code(code) || EAGLE && code != 1 {
        return refused(2, CARD_BYTES + CODE);
    }
    let count = be16(binary, COUNT);
    if !(1..=MOST_SAMPLES).contains(&count) {
        return refused(3, CARD_BYTES + COUNT);
    }
    let interval = be16(binary, INTERVAL);
    if !(1..=MOST_INTERVAL).contains(&interval) {
        return refused(4, CARD_BYTES + INTERVAL);
    }

    let samples = usize::from(count);
    let trailer = if EAGLE { TRAILER } else { 0 };
    let stride = TRACE_HEADER + samples * sample_bytes(code) + trailer;
    let traces = behind.len() / stride;
    if behind.len() % stride != 0 {
        return refused(5, REEL_HEADERS + traces * stride);
    }
    if traces > MOST_TRACES {
        return refused(6, REEL_HEADERS + MOST_TRACES * stride);
    }
    for (trace, place) in behind
        .chunks_exact(stride)
        .zip((REEL_HEADERS..).step_by(stride))
    {
        let (header, words) = trace.split_at(TRACE_HEADER);
        let own = be16(header, TRACE_COUNT);
        if own != 0 && own != count {
            return refused(7, place + TRACE_COUNT);
        }
        let own = be16(header, TRACE_INTERVAL);
        if own != 0 && own != interval {
            return refused(8, place + TRACE_INTERVAL);
        }
        for scalar in [ELEVATION_SCALAR, COORDINATE_SCALAR] {
            if !S::is_allowed(be16(header, scalar) as i16) {
                return refused(18, place + scalar);
            }
        }
        if EAGLE && !trace.ends_with(&TRAILER_END) {
            return refused(20, place + stride - TRAILER_END.len());
        }
        let (number, word) = match code {
            4 => (BAD_GAIN, S::refused_gain(words)),
            5 => (NOT_FINITE, S::refused_ieee(words)),
            _ => continue,
        };
        if let Some(k) = word {
            return refused(number, place + TRACE_HEADER + 4 * k);
        }
    }
    Ok(ReelNumbers {
        code,
        samples,
        interval,
        stride,
        traces,
    })
}

/// Puts the record, and says how many words are not normal.
fn put_record<S: Steps, const EAGLE: bool>(
    reel: &[u8],
    numbers: &ReelNumbers,
    out: &mut [u8],
) -> u64 {
    let (headers, behind) = reel.split_at(REEL_HEADERS);
    let (cards, binary) = headers.split_at(CARD_BYTES);
    let (front, rest) = out.split_at_mut(RECORD_HEAD);
    let (held, end) = rest.split_at_mut(rest.len() - RECORD_END);

    let (card_field, binary_field) = front.split_at_mut(FIELD_HEAD + CARD_BYTES);
    let held_cards = put_head(card_field, 1);
    for (to, &byte) in held_cards.iter_mut().zip(cards) {
        *to = if byte == 0 { 0x40 } else { byte };
    }
    if EAGLE {
        held_cards[CHECK].fill(0x40);
    }
    let fields = put_head(binary_field, 2);
    fields.copy_from_slice(&binary[..BINARY_FIELDS]);
    fields[CODE..CODE + 2].fill(0);

    let mut not_normal = 0;
    for (trace, held) in behind
        .chunks_exact(numbers.stride)
        .zip(held.chunks_exact_mut(held_stride(numbers.samples)))
    {
        let (trace, _) = trace.split_at(trace.len() - if EAGLE { TRAILER } else { 0 });
        let (header, words) = trace.split_at(TRACE_HEADER);
        let (header_field, sample_fields) = held.split_at_mut(FIELD_HEAD + TRACE_FIELDS);
        let fields = put_head(header_field, 3);
        fields.copy_from_slice(&header[..TRACE_FIELDS]);
        S::put_groups(header, fields);
        fill_in(fields, TRACE_COUNT, numbers.samples as u16);
        fill_in(fields, TRACE_INTERVAL, numbers.interval);

        for (words, field) in words
            .chunks(FIELD_SAMPLES * sample_bytes(numbers.code))
            .zip(sample_fields.chunks_mut(field_bytes(FIELD_SAMPLES)))
        {
            S::put_pairs(numbers.code, words, put_head(field, 4));
        }
        not_normal += S::count_words(numbers.code, words);
    }
    put_head(end, 5).copy_from_slice(&(numbers.traces as u32).to_be_bytes());
    not_normal
}

/// Puts the tag and the length of a field that fills the slice, and gives its content.
fn put_head(field: &mut [u8], tag: u8) -> &mut [u8] {
    let (head, content) = field.split_at_mut(FIELD_HEAD);
    let [high, low] = (content.len() as u16).to_be_bytes();
    head.copy_from_slice(&[tag, high, low]);
    content
}

/// The reel's own number for a 0.
fn fill_in(fields: &mut [u8], at: usize, own: u16) {
    if be16(fields, at) == 0 {
        fields[at..at + 2].copy_from_slice(&own.to_be_bytes());
    }
}

// ## Writing

#[inline(always)]
pub fn write_reel<S: Steps>(record: &[u8], code: u32, out: &mut [u8]) -> Result<Taken, Refused> {
    let RecordNumbers { samples, traces } =
        check_record::<S>(record, code, |pairs| S::check_pairs(code, pairs))?;
    let stride = TRACE_HEADER + samples * sample_bytes(code);
    let length = REEL_HEADERS + traces * stride;
    if out.len() < length {
        return refused(10, length);
    }
    put_reel(
        record,
        code,
        samples,
        stride,
        &mut out[..length],
        |pairs, words| S::put_words(code, pairs, words),
    );
    Ok(Taken {
        traces: traces as u64,
        samples: samples as u64,
        length: length as u64,
    })
}

/// Each sample as the nearest value of the code. The first pass looks at the record alone.
#[inline(always)]
pub fn write_nearest<S: NearestSteps>(
    record: &[u8],
    code: u32,
    out: &mut [u8],
) -> Result<NearestWritten, Refused> {
    let RecordNumbers { samples, traces } =
        check_record::<S>(record, code, |pairs| match S::uncanonical_pair(pairs) {
            None => Ok(()),
            Some(k) => Err((NOT_CANONICAL, k)),
        })?;
    let stride = TRACE_HEADER + samples * sample_bytes(code);
    let length = REEL_HEADERS + traces * stride;
    if out.len() < length {
        return refused(10, length);
    }
    let mut changed = 0;
    put_reel(
        record,
        code,
        samples,
        stride,
        &mut out[..length],
        |pairs, words| changed += S::put_nearest(code, pairs, words),
    );
    Ok(NearestWritten {
        traces: traces as u64,
        samples: samples as u64,
        length: length as u64,
        changed,
    })
}

struct RecordNumbers {
    samples: usize,
    traces: usize,
}

/// 11, and 12 and 13 with what else is looked for in the pairs of a trace: the first that is refused, by the
/// number of the cause and the count of those before it.
fn check_record<S: Steps>(
    record: &[u8],
    code: u32,
    check_pairs: impl Fn(&[u8]) -> Result<(), (u64, usize)>,
) -> Result<RecordNumbers, Refused> {
    if !is_code(code) {
        return refused(11, 0);
    }
    let cards = check_field(record, 0, 1, CARD_BYTES)?;
    if let Some(k) = cards.iter().position(|&byte| byte == 0) {
        return refused(13, FIELD_HEAD + k);
    }
    let binary_place = FIELD_HEAD + CARD_BYTES;
    let binary = check_field(record, binary_place, 2, BINARY_FIELDS)?;
    let interval = be16(binary, INTERVAL);
    if !(1..=MOST_INTERVAL).contains(&interval) {
        return refused(13, binary_place + FIELD_HEAD + INTERVAL);
    }
    let count = be16(binary, COUNT);
    if !(1..=MOST_SAMPLES).contains(&count) {
        return refused(13, binary_place + FIELD_HEAD + COUNT);
    }
    if be16(binary, CODE) != 0 {
        return refused(13, binary_place + FIELD_HEAD + CODE);
    }

    let mut at = RECORD_HEAD;
    let mut traces = 0;
    while more(record, traces, at) {
        check_header::<S>(record, count, interval, at)?;
        let trace = at;
        at += FIELD_HEAD + TRACE_FIELDS;
        for samples in shares(record, count, at) {
            let pairs = check_field(record, at, 4, PAIR_BYTES * samples)?;
            if let Err((number, k)) = check_pairs(pairs) {
                // Any 12 or 13 behind a sample that doesn't fit comes before it.
                check_form::<S>(record, count, interval, traces, trace)?;
                return refused(number, at + FIELD_HEAD + PAIR_BYTES * k);
            }
            at += field_bytes(samples);
        }
        traces += 1;
    }
    check_end(record, traces, at)?;
    Ok(RecordNumbers {
        samples: usize::from(count),
        traces,
    })
}

/// Is a trace to be looked for at a place, behind so many traces?
fn more(record: &[u8], traces: usize, at: usize) -> bool {
    traces < MOST_TRACES && record.get(at) == Some(&3)
}

/// 12 and 13 from a place on.
#[cold]
fn check_form<S: Steps>(
    record: &[u8],
    count: u16,
    interval: u16,
    mut traces: usize,
    mut at: usize,
) -> Result<(), Refused> {
    while more(record, traces, at) {
        check_header::<S>(record, count, interval, at)?;
        at += FIELD_HEAD + TRACE_FIELDS;
        for samples in shares(record, count, at) {
            let pairs = check_field(record, at, 4, PAIR_BYTES * samples)?;
            if let Some(k) = S::uncanonical_pair(pairs) {
                return refused(13, at + FIELD_HEAD + PAIR_BYTES * k);
            }
            at += field_bytes(samples);
        }
        traces += 1;
    }
    check_end(record, traces, at)
}

/// 12 and 13 of a trace's header.
fn check_header<S: Steps>(
    record: &[u8],
    count: u16,
    interval: u16,
    at: usize,
) -> Result<(), Refused> {
    let header = check_field(record, at, 3, TRACE_FIELDS)?;
    if let Some(scalar) = S::refused_scalar(header) {
        return refused(13, at + FIELD_HEAD + scalar);
    }
    if be16(header, TRACE_COUNT) != count {
        return refused(13, at + FIELD_HEAD + TRACE_COUNT);
    }
    if be16(header, TRACE_INTERVAL) != interval {
        return refused(13, at + FIELD_HEAD + TRACE_INTERVAL);
    }
    Ok(())
}

/// How many samples each field of a trace has, the first of which stands at a place.
fn shares(record: &[u8], count: u16, at: usize) -> impl Iterator<Item = usize> {
    let samples = usize::from(count);
    let share = share_of(samples, &record[at..]);
    (0..samples)
        .step_by(share)
        .map(move |before| share.min(samples - before))
}

fn check_end(record: &[u8], traces: usize, at: usize) -> Result<(), Refused> {
    let count = check_field(record, at, 5, 4)?;
    if u32::from_be_bytes(count.try_into().unwrap()) as usize != traces {
        return refused(12, at);
    }
    if record.len() > at + RECORD_END {
        return refused(12, at + RECORD_END);
    }
    Ok(())
}

/// The content of the field that stands at a place.
fn check_field(record: &[u8], at: usize, tag: u8, size: usize) -> Result<&[u8], Refused> {
    let field = &record[at..];
    if field.len() < FIELD_HEAD + size || field[0] != tag || usize::from(be16(field, 1)) != size {
        return refused(12, at);
    }
    Ok(&field[FIELD_HEAD..FIELD_HEAD + size])
}

/// Puts the reel, with what puts the words of a field from its pairs.
fn put_reel(
    record: &[u8],
    code: u32,
    samples: usize,
    stride: usize,
    out: &mut [u8],
    mut put_samples: impl FnMut(&[u8], &mut [u8]),
) {
    let (headers, traces) = out.split_at_mut(REEL_HEADERS);
    let (cards, binary) = headers.split_at_mut(CARD_BYTES);
    cards.copy_from_slice(&record[FIELD_HEAD..][..CARD_BYTES]);
    let (fields, unassigned) = binary.split_at_mut(BINARY_FIELDS);
    fields.copy_from_slice(&record[RECORD_HEAD - BINARY_FIELDS..RECORD_HEAD]);
    fields[CODE..CODE + 2].copy_from_slice(&(code as u16).to_be_bytes());
    unassigned.fill(0);

    let mut held = &record[RECORD_HEAD..];
    for trace in traces.chunks_exact_mut(stride) {
        let (header, words) = trace.split_at_mut(TRACE_HEADER);
        let (fields, unassigned) = header.split_at_mut(TRACE_FIELDS);
        let (header_field, behind) = held.split_at(FIELD_HEAD + TRACE_FIELDS);
        fields.copy_from_slice(&header_field[FIELD_HEAD..]);
        unassigned.fill(0);

        let share = share_of(samples, behind);
        let fields = samples.div_ceil(share) * FIELD_HEAD + samples * PAIR_BYTES;
        let (sample_fields, behind) = behind.split_at(fields);
        for (field, words) in sample_fields
            .chunks(field_bytes(share))
            .zip(words.chunks_mut(share * sample_bytes(code)))
        {
            put_samples(&field[FIELD_HEAD..], words);
        }
        held = behind;
    }
}
