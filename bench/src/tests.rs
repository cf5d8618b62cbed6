//! The Rust that is written after the library answers as the independent implementation does,
//! refusals and every byte of the output too; and so does the library.

mod long;
mod order;

use crate::cards::{self, LOOPS};
use crate::eagle::{self, Reading};
use crate::passes::{held_pairs, CARD_BYTES, FIELD_HEAD, PAIR_BYTES, REEL_HEADERS};
use crate::reels::{self, Kind, Random, Zeros, KINDS, ZEROS};
use crate::tables::{name, Call};
use crate::versions::Version;
use crate::{call, library, same, Answer, Who};
use independent::{ReelRead, Refused};
use std::panic::catch_unwind;

/// Who is compared with the independent implementation. There is no tuned Rust of nearest writing, and none
/// of Eagle reading.
fn compared(what: Call) -> &'static [Who] {
    match what {
        Call::Read | Call::Write => &[Who::Library, Who::Same, Who::Tuned],
        Call::Nearest | Call::Eagle => &[Who::Library, Who::Same],
    }
}

const SAMPLES: u16 = 3;
const BYTES: usize = 5_000;
const DAMAGES: usize = 20_000;

/// One more than the highest number of a cause.
const CAUSES: usize = 21;

/// Changes some bytes, one or two at a place, and the length now and then.
fn damaged(random: &mut Random, bytes: &[u8]) -> Vec<u8> {
    damaged_at(random, bytes, |random, length| {
        // All cards are alike; the binary header has what the rest is judged by.
        let (first, end) = match random.below(8) {
            0 => (0, length),
            1 => (3_200, 3_235),
            _ => (3_195, length),
        };
        first + random.below((end - first) as u32) as usize
    })
}

/// The same, at places below a length that are drawn so.
fn damaged_at(
    random: &mut Random,
    bytes: &[u8],
    draw: impl Fn(&mut Random, usize) -> usize,
) -> Vec<u8> {
    let mut bytes = bytes.to_vec();
    for _ in 0..=random.below(3) {
        let place = draw(random, bytes.len());
        let byte = match random.below(5) {
            0 => 0,
            1 => bytes[place] ^ 1 << random.below(8),
            2 => random.below(10) as u8,
            3 => 0xFF,
            _ => random.below(256) as u8,
        };
        // Two bytes FF begin a not-a-number.
        let end = bytes.len().min(place + 1 + random.below(2) as usize);
        bytes[place..end].fill(byte);
    }
    match random.below(16) {
        0 => bytes.truncate(random.below(bytes.len() as u32) as usize),
        1 => bytes.push(random.below(256) as u8),
        _ => {}
    }
    bytes
}

/// The answer and the output on which all agree.
fn agreed_output(what: Call, code: u32, input: &[u8], room: usize) -> (Answer, Vec<u8>) {
    let mut given = vec![0xA5; room];
    let answer = call(Who::Independent, what, code, input, &mut given);
    all_give(what, code, input, answer, &given);
    (answer, given)
}

/// All that are compared with the independent implementation give an answer and an output.
fn all_give(what: Call, code: u32, input: &[u8], answer: Answer, given: &[u8]) {
    for &who in compared(what) {
        let mut out = vec![0xA5; given.len()];
        let name = name(who, what);
        assert_eq!(call(who, what, code, input, &mut out), answer, "{name}");
        assert!(out == given, "{name} gives other bytes");
    }
}

/// The number of the refusal on which all agree, 0 where the call is taken.
fn agreed(what: Call, code: u32, input: &[u8], room: usize) -> usize {
    let (answer, _) = agreed_output(what, code, input, room);
    answer.map_or_else(|refused| refused.number as usize, |_| 0)
}

#[test]
fn reading_damaged_reels() {
    let mut random = Random(1);
    let mut causes = [0; CAUSES];
    for (code, _) in reels::SAMPLES {
        let mut whole = vec![reels::make(code, SAMPLES, BYTES)];
        if code == 1 {
            whole.push(reels::make_not_normal(SAMPLES, BYTES, 2));
        }
        for reel in whole {
            for _ in 0..DAMAGES {
                let reel = damaged(&mut random, &reel);
                let room = 7_000 - random.below(3_000) as usize;
                causes[agreed(Call::Read, code, &reel, room)] += 1;
            }
        }
    }
    for number in [0, 1, 2, 3, 4, 5, 7, 8, 9, 10, 18, 19] {
        assert!(causes[number] > 50, "{causes:?}");
    }
}

/// How many words of a reel aren't normal, on which all agree.
fn counted(reel: &[u8]) -> u64 {
    let code = u32::from(reel[3_225]);
    let mut record = vec![0; crate::record_length(reel, code)];
    assert_eq!(agreed(Call::Read, code, reel, record.len()), 0);
    let read = independent::read_reel(reel, &mut record).expect("a valid reel");
    read.not_normal
}

/// Every first and second byte, the rest of the word zero or not; and the same words under code 2,
/// which has none to count.
#[test]
fn counting_every_kind_of_word() {
    let mut words = Vec::new();
    for last in [0, 1] {
        for front in 0..=u16::MAX {
            let [first, second] = front.to_be_bytes();
            words.push([first, second, 0, last]);
        }
    }
    const N: usize = 512;
    let stride = 240 + 4 * N;
    let mut reel = reels::make(1, N as u16, 3_600 + words.len() / N * stride);
    let mut traces = reel[3_600..].chunks_exact_mut(stride);
    for words in words.chunks_exact(N) {
        let trace = traces.next().expect("a trace for as many words");
        trace[240..].copy_from_slice(words.as_flattened());
    }
    assert!(traces.next().is_none());
    // Where F is 0, all but 00000000. Where only its first digit is, those with a characteristic.
    assert_eq!(counted(&reel), 255 + 254 * (15 + 16));
    reel[3_225] = 2;
    assert_eq!(counted(&reel), 0);
}

/// Every sign and exponent of an IEEE word with some fractions, and every word of one byte.
#[test]
fn reading_every_kind_of_ieee_word_and_every_byte() {
    let (mut reel, record) = one_trace(5);
    let mut causes = [0; CAUSES];
    for front in 0..=u16::MAX {
        for end in [0, 1, 0x0100, 0x8000, 0xFFFF] {
            let word = u32::from(front) << 16 | end;
            reel[3_840..].copy_from_slice(&word.to_be_bytes());
            causes[agreed(Call::Read, 5, &reel, record.len())] += 1;
        }
    }
    // Two signs by 128 first halves of a fraction have the exponent 255.
    assert_eq!(causes[19], 2 * 128 * 5);
    assert_eq!(causes[0], 5 * 0x1_0000 - causes[19]);

    let (mut reel, record) = one_trace(8);
    for byte in 0..=u8::MAX {
        reel[3_840] = byte;
        assert_eq!(agreed(Call::Read, 8, &reel, record.len()), 0);
    }
}

/// One word of a trace of any length, at any place, in the first trace or the second.
#[test]
fn counting_one_word_at_any_place() {
    let mut random = Random(4);
    for samples in 1..=70 {
        let stride = 240 + 4 * usize::from(samples);
        let reel = reels::make(1, samples, 3_600 + 2 * stride);
        assert_eq!(counted(&reel), 0);
        for trace in [0, 1] {
            for k in 0..usize::from(samples) {
                let mut reel = reel.clone();
                let place = 3_600 + trace * stride + 240 + 4 * k;
                reel[place..place + 4].copy_from_slice(&random.not_normal());
                assert_eq!(counted(&reel), 1);
                // It may be one, and isn't.
                reel[place..place + 4].copy_from_slice(&[0x80, 0, 0, 1]);
                assert_eq!(counted(&reel), 0);
            }
        }
    }
}

#[test]
fn writing_damaged_records() {
    let mut random = Random(2);
    let mut causes = [0; CAUSES];
    for (code, _) in reels::SAMPLES {
        let reel = reels::make(code, SAMPLES, BYTES);
        let mut record = vec![0; crate::record_length(&reel, code)];
        independent::read_reel(&reel, &mut record).expect("a valid reel");
        for _ in 0..DAMAGES {
            let record = damaged(&mut random, &record);
            let target = random.below(10);
            let room = 7_000 - random.below(4_000) as usize;
            causes[agreed(Call::Write, target, &record, room)] += 1;
        }
    }
    for number in [0, 10, 11, 12, 13, 14] {
        assert!(causes[number] > 50, "{causes:?}");
    }
}

/// The scalar of the smallest power, which a record may have over any group.
const LEAST: i16 = -10_000;

/// Every scalar there is, in either field and in both, of a reel and of a record, over groups of all
/// magnitudes.
#[test]
fn reading_and_writing_every_scalar() {
    let (mut reel, mut record) = one_trace(1);
    let mut random = Random(3);
    let mut causes = [0; CAUSES];
    for scalar in i16::MIN..=i16::MAX {
        for (of_elevations, of_coordinates) in [(scalar, LEAST), (LEAST, scalar), (scalar, scalar)]
        {
            let most = random.below(32) + 1;
            for place in (40..68).chain(72..88).step_by(4) {
                let number = 1i32 << random.below(most);
                put_bytes(&mut reel, &mut record, place, &number.to_be_bytes());
            }
            put_bytes(&mut reel, &mut record, 68, &of_elevations.to_be_bytes());
            put_bytes(&mut reel, &mut record, 70, &of_coordinates.to_be_bytes());
            causes[agreed(Call::Read, 1, &reel, record.len())] += 1;
            causes[agreed(Call::Write, 1, &record, reel.len())] += 1;
        }
    }
    for number in [13, 18] {
        assert!(causes[number] > 50, "{causes:?}");
    }
}

/// Every allowed scalar, over one number about the limits of each power in each place of its group.
#[test]
fn reading_and_writing_groups_about_the_limits() {
    let (mut reel, mut record) = one_trace(1);
    let mut numbers = vec![0, i32::MIN, i32::MIN + 1];
    for zeros in 0..=9 {
        let largest = i32::MAX / 10i32.pow(zeros);
        for number in [largest - 1, largest, largest.saturating_add(1)] {
            numbers.extend([number, -number]);
        }
    }
    let mut causes = [0; CAUSES];
    for scalar in [
        0i16, 1, 10, 100, 1_000, 10_000, -1, -10, -100, -1_000, -10_000,
    ] {
        for (here, other, group) in [(68, 70, 40..68), (70, 68, 72..88)] {
            for place in group.step_by(4) {
                put_bytes(&mut reel, &mut record, 40, &[0; 48]);
                put_bytes(&mut reel, &mut record, here, &scalar.to_be_bytes());
                put_bytes(&mut reel, &mut record, other, &LEAST.to_be_bytes());
                for number in &numbers {
                    put_bytes(&mut reel, &mut record, place, &number.to_be_bytes());
                    causes[agreed(Call::Read, 1, &reel, record.len())] += 1;
                    causes[agreed(Call::Write, 1, &record, reel.len())] += 1;
                }
            }
        }
    }
    for number in [0, 13] {
        assert!(causes[number] > 50, "{causes:?}");
    }
    assert_eq!(causes[18], 0);
}

/// A reel of one trace and one sample, and its record.
fn one_trace(code: u32) -> (Vec<u8>, Vec<u8>) {
    let reel = reels::make(code, 1, 0);
    let mut record = vec![0; crate::record_length(&reel, code)];
    independent::read_reel(&reel, &mut record).expect("a valid reel");
    (reel, record)
}

/// Puts bytes into the header of their trace, of both.
fn put_bytes(reel: &mut [u8], record: &mut [u8], at: usize, bytes: &[u8]) {
    for header in [&mut reel[3_600..], &mut record[3_269..]] {
        header[at..at + bytes.len()].copy_from_slice(bytes);
    }
}

/// Every exponent of a canonical pair and some beyond, with mantissas about the limits of a fraction
/// and of the whole numbers.
#[test]
fn writing_pairs_about_the_limits() {
    let (reel, mut record) = one_trace(1);
    let pair = record.len() - 13;
    let mut mantissas = vec![0, 2, i32::MIN];
    for bits in [1, 7, 8, 15, 16, 20, 21, 23, 24, 25, 31] {
        let least_beyond = 1i64 << bits;
        for odd in [least_beyond - 1, least_beyond + 1] {
            mantissas.extend(i32::try_from(odd));
            mantissas.extend(i32::try_from(-odd));
        }
    }
    let mut causes = [0; CAUSES];
    for e in -282i16..=253 {
        record[pair..pair + 2].copy_from_slice(&e.to_be_bytes());
        for m in &mantissas {
            record[pair + 2..pair + 6].copy_from_slice(&m.to_be_bytes());
            for (code, _) in reels::SAMPLES {
                causes[agreed(Call::Write, code, &record, reel.len())] += 1;
            }
        }
    }
    for number in [0, 13, 14] {
        assert!(causes[number] > 50, "{causes:?}");
    }
}

/// The bytes of a reel under a code, by its record.
fn reel_length(record: &[u8], code: u32) -> usize {
    let refused = call(Who::Library, Call::Nearest, code, record, &mut []).unwrap_err();
    assert_eq!(refused.number, 10);
    refused.beside as usize
}

/// How many samples of a record change under a code, on which all agree, and the reel.
fn rounded(record: &[u8], code: u32) -> (u64, Vec<u8>) {
    let room = reel_length(record, code);
    let (answer, reel) = agreed_output(Call::Nearest, code, record, room);
    (answer.expect("a valid record").changed, reel)
}

/// The records of the benchmark, small, under every code. Where nothing changes, the reel is that of exact
/// writing. Under the code that a record is made for, none changes of those that fit, and of the others all
/// that have a long mantissa.
#[test]
fn nearest_writing_of_the_benchmark() {
    for (code, _) in reels::SAMPLES {
        for (kind, _, _) in KINDS {
            let mut record = reels::make_record(code, 200, 12_000, kind);
            for (target, _) in reels::SAMPLES {
                let (changed, reel) = rounded(&record, target);
                let mut exact = vec![0xA5; reel.len()];
                let taken = call(Who::Library, Call::Write, target, &record, &mut exact).is_ok();
                assert_eq!(taken, changed == 0);
                assert!(!taken || exact == reel);
            }
            let long: u64 = held_pairs(&mut record, 200).map(long_mantissas).sum();
            let expected = if kind == Kind::Fit { 0 } else { long };
            assert!(kind == Kind::Fit || long > 300);
            assert_eq!(rounded(&record, code).0, expected, "code {code}");
        }
    }
}

/// How many mantissas have more than 24 bits.
fn long_mantissas(pairs: &mut [u8]) -> u64 {
    let mantissas = pairs
        .chunks_exact(PAIR_BYTES)
        .map(|pair| i32::from_be_bytes(pair[2..].try_into().unwrap()));
    mantissas.filter(|m| m.unsigned_abs() >> 24 != 0).count() as u64
}

/// Traces of any length, so that each sample is the first or the last once.
#[test]
fn nearest_writing_of_short_traces() {
    for samples in 1..=9 {
        for (code, _) in reels::SAMPLES {
            for (kind, _, _) in KINDS {
                let record = reels::make_record(code, samples, 4_600, kind);
                for (target, _) in reels::SAMPLES {
                    rounded(&record, target);
                }
            }
        }
    }
}

/// Records that are damaged, under codes that there aren't too, into buffers that may be too short.
#[test]
fn nearest_writing_of_damaged_records() {
    let mut random = Random(5);
    let mut causes = [0; CAUSES];
    for (code, _) in reels::SAMPLES {
        for (kind, _, _) in KINDS {
            let record = reels::make_record(code, SAMPLES, BYTES, kind);
            for _ in 0..DAMAGES / 4 {
                let record = damaged(&mut random, &record);
                let target = random.below(10);
                let room = 7_000 - random.below(4_000) as usize;
                causes[agreed(Call::Nearest, target, &record, room)] += 1;
            }
        }
    }
    for number in [0, 10, 11, 12, 13] {
        assert!(causes[number] > 50, "{causes:?}");
    }
    assert_eq!(causes[14], 0);
}

/// Every exponent of a canonical pair with mantissas about the powers of two, about the halves between
/// them, and random ones, both signs; all those of an exponent in a trace.
#[test]
fn nearest_writing_of_pairs_about_the_limits() {
    let mut random = Random(6);
    let mut mantissas = vec![1];
    for bits in 1..=31 {
        let power = 1i64 << bits;
        let between = power / 2 + i64::from(random.below(1 << (bits - 1)));
        for odd in [power - 1, power + 1, power + power / 2 + 1, between] {
            mantissas.extend(i32::try_from(odd | 1));
        }
    }
    let mantissas: Vec<i32> = mantissas.iter().flat_map(|&m| [m, -m]).collect();
    let mut record = reels::make_record(1, mantissas.len() as u16, 0, Kind::Fit);
    let mut all = [0; 6];
    for e in -280i16..=251 {
        let pairs = held_pairs(&mut record, mantissas.len())
            .next()
            .expect("a trace");
        for (pair, m) in pairs.chunks_exact_mut(PAIR_BYTES).zip(&mantissas) {
            pair[..2].copy_from_slice(&e.to_be_bytes());
            pair[2..].copy_from_slice(&m.to_be_bytes());
        }
        for (changed, (code, _)) in all.iter_mut().zip(reels::SAMPLES) {
            *changed += rounded(&record, code).0;
        }
    }
    let samples = 532 * mantissas.len() as u64;
    for changed in all {
        assert!(changed > samples / 20 && changed < samples, "{all:?}");
    }
}

/// The cards of the benchmark: each kind has as many 00 as it says, and all loops and calls agree on it.
#[test]
fn cards_of_the_benchmark() {
    for (zeros, _) in ZEROS {
        let cards = &reels::make_small(1, 1, zeros)[..CARD_BYTES];
        let count = cards.iter().filter(|&&byte| byte == 0).count();
        match zeros {
            Zeros::No => assert_eq!(count, 0),
            Zeros::All => assert_eq!(count, CARD_BYTES),
            Zeros::Third => assert!((900..1_200).contains(&count), "{count}"),
        }
        cards::agree(&Version::linked(), &mut cards::lents(zeros));
    }
}

/// The cards of a reel's record, on which the library, all loops and the others agree.
fn blanked(reel: &[u8]) -> Vec<u8> {
    let room = crate::record_length(reel, 1);
    let (_, record) = agreed_output(Call::Read, 1, reel, room);
    let held = &record[FIELD_HEAD..][..CARD_BYTES];
    for (name, blanking) in LOOPS {
        let mut out = [0xA5; CARD_BYTES];
        blanking(reel.first_chunk().expect("cards"), &mut out);
        assert!(out == held, "{name}: other bytes");
    }
    held.to_vec()
}

/// A single 00 at any place among other bytes, and a single other byte among 00.
#[test]
fn blanking_one_card_byte_at_any_place() {
    let mut reel = reels::make_small(1, 1, Zeros::No);
    reel.truncate(REEL_HEADERS);
    for byte in [0x01, 0x40, 0x7F, 0x80, 0xFF] {
        for (around, alone) in [(byte, 0x00), (0x00, byte)] {
            for place in 0..CARD_BYTES {
                reel[..CARD_BYTES].fill(around);
                reel[place] = alone;
                let mut expected = [if around == 0 { 0x40 } else { around }; CARD_BYTES];
                expected[place] = if alone == 0 { 0x40 } else { alone };
                assert!(blanked(&reel) == expected, "{alone:02X} at {place}");
            }
        }
    }
}

/// A single 00 at any place among any other bytes.
#[test]
fn blanking_one_card_byte_among_any() {
    let mut reel = reels::make_small(1, 1, Zeros::No);
    for place in 0..CARD_BYTES {
        let mut expected = reel[..CARD_BYTES].to_vec();
        expected[place] = 0x40;
        let before = std::mem::take(&mut reel[place]);
        assert!(blanked(&reel) == expected, "00 at {place}");
        reel[place] = before;
    }
}

/// A plain reel of code 1 and its Eagle reel, of as many traces as stand in so many bytes.
fn plain_and_eagle(samples: u16, bytes: usize, not_normal: bool) -> [Vec<u8>; 2] {
    let plain = if not_normal {
        reels::make_not_normal(samples, bytes, reels::ONE_IN)
    } else {
        reels::make(1, samples, bytes)
    };
    let eagle = reels::with_trailers(&plain, samples);
    [plain, eagle]
}

/// The Eagle reels of the benchmark have the traces of the plain ones, each with 960 bytes behind it that end
/// in FFFF, and all else but a check on card 40; and all agree on both.
#[test]
fn eagle_reels_of_the_benchmark() {
    for samples in eagle::SAMPLES {
        for not_normal in [false, true] {
            let stride = 240 + 4 * usize::from(samples);
            let [plain, reel] = plain_and_eagle(samples, 3_600 + 5 * stride, not_normal);
            assert_eq!(plain.len(), 3_600 + 5 * stride);
            assert_eq!(reel.len(), 3_600 + 5 * (stride + 960));

            assert_eq!(plain[3_198..3_200], [0x40, 0x40]);
            assert!(reel[3_198..3_200].iter().all(|&byte| byte != 0x40));
            assert_eq!(reel[..3_198], plain[..3_198]);
            assert_eq!(reel[3_200..3_600], plain[3_200..3_600]);
            let mut before: &[u8] = &[];
            for (with_trailer, trace) in reel[3_600..]
                .chunks_exact(stride + 960)
                .zip(plain[3_600..].chunks_exact(stride))
            {
                let (front, trailer) = with_trailer.split_at(stride);
                assert!(front == trace && trailer != before);
                assert_eq!(trailer[958..], [0xFF, 0xFF]);
                before = trailer;
            }

            let read = eagle::agree(&plain, &reel, library::read_reel, library::read_eagle);
            assert_eq!((read.traces, read.samples), (5, samples.into()));
            assert_eq!(read.not_normal > 0, not_normal);
            assert_eq!(
                eagle::agree(&plain, &reel, same::read_reel, same::read_eagle),
                read
            );
        }
    }
}

/// A library that reads either reel wrongly is noticed before anything is timed.
#[test]
fn wrong_readings_are_noticed() {
    fn one_byte(reading: Reading, reel: &[u8], out: &mut [u8]) -> Result<ReelRead, Refused> {
        let read = reading(reel, out)?;
        out[out.len() / 2] ^= 1;
        Ok(read)
    }
    fn one_byte_of_plain(reel: &[u8], out: &mut [u8]) -> Result<ReelRead, Refused> {
        one_byte(library::read_reel, reel, out)
    }
    fn one_byte_of_eagle(reel: &[u8], out: &mut [u8]) -> Result<ReelRead, Refused> {
        one_byte(library::read_eagle, reel, out)
    }
    /// The check stands in the record.
    fn check_kept(reel: &[u8], out: &mut [u8]) -> Result<ReelRead, Refused> {
        let read = library::read_eagle(reel, out)?;
        out[FIELD_HEAD..][..CARD_BYTES].copy_from_slice(&reel[..CARD_BYTES]);
        Ok(read)
    }
    /// It counts one word too few.
    fn count_wrong(reel: &[u8], out: &mut [u8]) -> Result<ReelRead, Refused> {
        let read = library::read_eagle(reel, out)?;
        Ok(ReelRead {
            not_normal: read.not_normal - 1,
            ..read
        })
    }
    /// It answers, and writes nothing.
    fn nothing_written(reel: &[u8], out: &mut [u8]) -> Result<ReelRead, Refused> {
        library::read_eagle(reel, &mut out.to_vec())
    }

    let [plain, reel] = plain_and_eagle(100, 12_000, true);
    let is_noticed = |read_reel: Reading, read_eagle: Reading| {
        catch_unwind(|| eagle::agree(&plain, &reel, read_reel, read_eagle)).is_err()
    };
    assert!(!is_noticed(library::read_reel, library::read_eagle));
    assert!(is_noticed(one_byte_of_plain, library::read_eagle));
    assert!(is_noticed(library::read_eagle, library::read_eagle));
    for wrong in [
        one_byte_of_eagle,
        check_kept,
        count_wrong,
        nothing_written,
        library::read_reel,
    ] {
        assert!(is_noticed(library::read_reel, wrong));
    }
}

/// Damaged Eagle reels, in their trailers' last bytes too, into buffers that may be too short.
#[test]
fn reading_damaged_eagle_reels() {
    let mut random = Random(7);
    let mut causes = [0; CAUSES];
    for not_normal in [false, true] {
        let [_, whole] = plain_and_eagle(SAMPLES, BYTES, not_normal);
        let stride = 240 + 4 * usize::from(SAMPLES) + 960;
        for _ in 0..DAMAGES {
            let mut reel = damaged(&mut random, &whole);
            if random.below(8) == 0 {
                let trace = 1 + random.below(5) as usize;
                let place = 3_600 + trace * stride - 1 - random.below(2) as usize;
                if let Some(byte) = reel.get_mut(place) {
                    *byte ^= 1 << random.below(8);
                }
            }
            let room = 7_000 - random.below(3_000) as usize;
            causes[agreed(Call::Eagle, 1, &reel, room)] += 1;
        }
    }
    for number in [0, 1, 2, 3, 4, 5, 7, 8, 10, 18, 20] {
        assert!(causes[number] > 50, "{causes:?}");
    }
    assert_eq!((causes[9], causes[19]), (0, 0));
}

/// The median of an odd number of runs and of an even one.
#[test]
fn medians() {
    assert_eq!(eagle::median(vec![3.0]), 3.0);
    assert_eq!(eagle::median(vec![5.0, 1.0, 3.0]), 3.0);
    assert_eq!(eagle::median(vec![4.0, 1.0, 3.0, 2.0]), 3.0);
}
