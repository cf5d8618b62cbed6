//! Long traces: in several fields of a record, in the single field of the earlier form, in one record by
//! turns, and in fields that no form has.

use super::*;
use crate::passes;

/// N, and how many fields of samples a trace then has.
const LONG: [(u16, usize); 5] = [(6_000, 1), (6_001, 2), (8_000, 2), (8_001, 2), (12_001, 3)];
const TRACES: usize = 3;
const DAMAGES: usize = 200;

/// A reel of a code, of some traces.
fn long_reel(code: u32, samples: u16) -> Vec<u8> {
    let stride = 240 + usize::from(samples) * passes::sample_bytes(code);
    reels::make(code, samples, 3_600 + TRACES * stride)
}

/// Its record, by the independent implementation.
fn long_record(code: u32, samples: u16) -> Vec<u8> {
    let reel = long_reel(code, samples);
    let mut record = vec![0; crate::record_length(&reel, code)];
    independent::read_reel(&reel, &mut record).expect("a valid reel");
    record
}

/// A record in every form that its N has: in the new one, in the earlier one, and in both by turns.
fn forms(record: &[u8], samples: u16) -> Vec<Vec<u8>> {
    let single = usize::from(samples);
    if !(6_001..=8_000).contains(&single) {
        return vec![record.to_vec()];
    }
    let by_turns = |earlier| {
        reels::with_shares(record, samples, |trace| match trace % 2 == earlier {
            true => single,
            false => 6_000,
        })
    };
    let earlier = reels::earlier(record, samples);
    vec![record.to_vec(), earlier, by_turns(0), by_turns(1)]
}

/// The fields of a record, each by its tag, the place of that and the length of its content.
fn fields(record: &[u8]) -> Vec<(u8, usize, usize)> {
    let mut fields = Vec::new();
    let mut at = 0;
    while at < record.len() {
        let length = usize::from(u16::from_be_bytes([record[at + 1], record[at + 2]]));
        fields.push((record[at], at, length));
        at += FIELD_HEAD + length;
    }
    fields
}

/// The refusal on which all agree.
fn agreed_refusal(what: Call, code: u32, input: &[u8], room: usize) -> Refused {
    let (answer, _) = agreed_output(what, code, input, room);
    answer.expect_err("a cause")
}

/// Reading gives the new form, in the fields and of the length that CR 8 has; all forms are written as the
/// same reel, exactly and to the nearest, and that is read as the new form again. The independent
/// implementation is slow in nearest writing, and left out there.
#[test]
fn long_traces_in_every_form() {
    for (samples, count) in LONG.into_iter().chain([(32_767, 6)]) {
        let n = usize::from(samples);
        let length = 3_273 + TRACES * (183 + 3 * count + 6 * n);
        let mut expected = vec![(1, 3_200), (2, 60)];
        for _ in 0..TRACES {
            expected.push((3, 180));
            expected.extend([(4, 36_000)].repeat(count - 1));
            expected.push((4, 6 * (n - 6_000 * (count - 1))));
        }
        expected.push((5, 4));

        for (code, _) in reels::SAMPLES {
            let reel = long_reel(code, samples);
            let (answer, record) = agreed_output(Call::Read, code, &reel, length);
            assert_eq!(answer.map(|read| read.length), Ok(length as u64));
            let short = agreed_refusal(Call::Read, code, &reel, length - 1);
            assert_eq!((short.number, short.beside), (10, length as u64));
            let found = fields(&record).into_iter();
            assert!(found
                .map(|(tag, _, length)| (tag, length))
                .eq(expected.iter().copied()));

            let (answer, written) = agreed_output(Call::Write, code, &record, reel.len());
            for form in forms(&record, samples) {
                let again = agreed_output(Call::Write, code, &form, reel.len());
                assert!(again == (answer, written.clone()));
                all_give(Call::Nearest, code, &form, answer, &written);
                for what in [Call::Write, Call::Nearest] {
                    let short = agreed_refusal(what, code, &form, reel.len() - 1);
                    assert_eq!((short.number, short.beside), (10, reel.len() as u64));
                }
            }
            let counts = answer.map(|taken| (taken.traces, taken.samples));
            assert_eq!(counts, Ok((TRACES as u64, n as u64)));
            let (_, again) = agreed_output(Call::Read, code, &written, length);
            assert!(again == record);
            if code == 1 {
                let eagle = reels::with_trailers(&reel, samples);
                let (_, again) = agreed_output(Call::Eagle, code, &eagle, length);
                assert!(again == record);
            }
        }
    }
}

/// One sample more than there may be, on a reel and in a record.
#[test]
fn traces_too_long() {
    let mut reel = long_reel(1, 6_000);
    let mut record = long_record(1, 6_000);
    reel[3_220..3_222].copy_from_slice(&32_768u16.to_be_bytes());
    record[3_226..3_228].copy_from_slice(&32_768u16.to_be_bytes());
    let refused = agreed_refusal(Call::Read, 1, &reel, 0);
    assert_eq!((refused.number, refused.beside), (3, 3_220));
    for what in [Call::Write, Call::Nearest] {
        let refused = agreed_refusal(what, 1, &record, 0);
        assert_eq!((refused.number, refused.beside), (13, 3_226));
    }
}

/// Words that aren't normal are counted in every field.
#[test]
fn counting_words_of_long_traces() {
    for (samples, _) in LONG {
        let stride = 240 + 4 * usize::from(samples);
        let reel = long_reel(1, samples);
        for k in [0, 5_999, 6_000, 11_999, 12_000] {
            if k < usize::from(samples) {
                let mut reel = reel.clone();
                let place = 3_600 + stride + 240 + 4 * k;
                reel[place..place + 4].copy_from_slice(&[0x80, 0, 0, 0]);
                assert_eq!(counted(&reel), 1);
            }
        }
    }
}

/// Of records whose samples are rounded or beyond the range, all that have a long mantissa change, in every
/// form alike.
#[test]
fn nearest_writing_of_long_traces() {
    for (samples, _) in LONG {
        let n = usize::from(samples);
        for (code, _) in reels::SAMPLES {
            let room = 3_600 + 2 * (240 + n * passes::sample_bytes(code));
            let mut record = reels::make_record(code, samples, room, Kind::Beyond);
            let pairs: usize = held_pairs(&mut record, n).map(|pairs| pairs.len()).sum();
            assert_eq!(pairs, 2 * n * PAIR_BYTES);
            let long = held_pairs(&mut record, n).map(long_mantissas).sum();
            let (answer, written) = agreed_output(Call::Nearest, code, &record, room);
            assert_eq!(answer.map(|written| written.changed), Ok(long));
            for form in forms(&record, samples) {
                all_give(Call::Nearest, code, &form, answer, &written);
            }
        }
    }
}

/// Reels that are damaged about their headers and about the words at the ends of a field.
#[test]
fn reading_damaged_long_reels() {
    let mut random = Random(8);
    let mut causes = [0; CAUSES];
    for (samples, _) in LONG {
        for (code, _) in reels::SAMPLES {
            let whole = long_reel(code, samples);
            let width = passes::sample_bytes(code);
            let stride = 240 + usize::from(samples) * width;
            let room = crate::record_length(&whole, code);
            for _ in 0..DAMAGES {
                let reel = damaged_at(&mut random, &whole, |random, length| {
                    let trace = 3_600 + random.below(TRACES as u32) as usize * stride;
                    let place = match random.below(8) {
                        0 => 3_200 + random.below(30) as usize,
                        1 => trace + 68 + random.below(4) as usize,
                        2 => trace + 114 + random.below(4) as usize,
                        3 => random.below(length as u32) as usize,
                        k => trace + 240 + (k as usize - 4) * 6_000 * width,
                    };
                    let place = place + random.below(8) as usize;
                    place.saturating_sub(4).min(length - 1)
                });
                let room = room + 100 - random.below(120) as usize;
                causes[agreed(Call::Read, code, &reel, room)] += 1;
            }
        }
    }
    for number in [0, 2, 3, 5, 7, 8, 9, 10, 18, 19] {
        assert!(causes[number] > 20, "{causes:?}");
    }
}

/// Records in every form that are damaged about the heads and the ends of their fields.
#[test]
fn writing_damaged_long_records() {
    let mut random = Random(9);
    let mut causes = [[0; CAUSES]; 2];
    for (samples, _) in LONG {
        for (code, _) in reels::SAMPLES {
            let record = long_record(code, samples);
            let room = 3_600 + TRACES * (240 + 4 * usize::from(samples));
            for form in forms(&record, samples) {
                let fields = fields(&form);
                for _ in 0..DAMAGES / 2 {
                    let record = damaged_at(&mut random, &form, |random, length| {
                        let place = match random.below(8) {
                            0 => 3_206 + random.below(30) as usize,
                            1 => random.below(length as u32) as usize,
                            _ => fields[random.below(fields.len() as u32) as usize].1,
                        };
                        let place = place + random.below(16) as usize;
                        place.saturating_sub(8).min(length - 1)
                    });
                    let target = match random.below(4) {
                        0 => random.below(10),
                        _ => code,
                    };
                    let room = room - random.below(100) as usize;
                    for (causes, what) in causes.iter_mut().zip([Call::Write, Call::Nearest]) {
                        causes[agreed(what, target, &record, room)] += 1;
                    }
                }
            }
        }
    }
    let [written, nearest] = causes;
    for number in [0, 10, 11, 12, 13] {
        assert!(written[number] > 20 && nearest[number] > 20, "{causes:?}");
    }
    assert!(written[14] > 20 && nearest[14] == 0, "{causes:?}");
}

/// Fields that no form has: of other shares, one field less and one more. A single field of more than 8,000
/// samples is among them.
#[test]
fn writing_fields_of_no_form() {
    let refused_at = |record: &[u8], place: usize, text: &str| {
        for what in [Call::Write, Call::Nearest] {
            let refused = agreed_refusal(what, 1, record, 0);
            assert_eq!(
                (refused.number, refused.beside),
                (12, place as u64),
                "{text}"
            );
        }
    };
    for (samples, _) in LONG {
        let n = usize::from(samples);
        let record = long_record(1, samples);
        for share in [1_000, 5_999, 6_001, 7_999, 8_000, 8_001, n - 1, n] {
            let is_form = share == 6_000 || share >= n && n <= 8_000;
            for trace in 0..TRACES {
                let shared = reels::with_shares(&record, samples, |one| match one == trace {
                    true => share,
                    false => 6_000,
                });
                if is_form {
                    assert_eq!(agreed(Call::Write, 1, &shared, 0), 10);
                } else {
                    let stride = passes::held_stride(n);
                    let text = format!("N = {n} in fields of {share}");
                    refused_at(&shared, 3_266 + trace * stride + 183, &text);
                }
            }
        }
        for form in forms(&record, samples) {
            for (tag, place, length) in fields(&form) {
                if tag != 4 {
                    continue;
                }
                // The last two samples, or the only one, in a field of their own.
                let end = place + FIELD_HEAD + length;
                let moved = length.min(2 * PAIR_BYTES);
                let mut more = form.clone();
                more[place + 1..place + 3]
                    .copy_from_slice(&((length - moved) as u16).to_be_bytes());
                more.splice(end - moved..end - moved, [4, 0, moved as u8]);
                refused_at(&more, place, "a field more");
                // The head is wanting.
                let mut less = form.clone();
                less.drain(place..place + FIELD_HEAD);
                refused_at(&less, place, "a head less");
                // The record ends before the field does.
                for end in [place, place + 1, place + 2, place + 3, end - 1] {
                    refused_at(&form[..end], place, "cut off");
                }
            }
        }
    }
}

/// Two wrongs in one field or in two: a head that is no field's, a pair that isn't canonical, one that has no
/// word under code 1, at either end of a field. Field by field 12 comes before 13, and 14 behind all others.
#[test]
fn causes_field_by_field() {
    for (samples, form) in [(12_001, 0), (8_000, 2), (8_000, 3)] {
        let record = forms(&long_record(1, samples), samples).swap_remove(form);
        let mut wrongs = Vec::new();
        for (tag, head, length) in fields(&record) {
            if tag == 4 {
                let first = head + FIELD_HEAD;
                let last = head + FIELD_HEAD + length - PAIR_BYTES;
                wrongs.extend([(12, head), (13, first), (14, first), (13, last), (14, last)]);
            }
        }
        for (k, &one) in wrongs.iter().enumerate() {
            for &other in &wrongs[k + 1..] {
                if one.1 == other.1 {
                    continue;
                }
                let mut record = record.clone();
                for (number, place) in [one, other] {
                    match number {
                        12 => record[place] = 6,
                        13 => record[place..place + 6].copy_from_slice(&[0, 0, 0, 0, 0, 2]),
                        _ => record[place..place + 6].copy_from_slice(&[0, 0, 1, 0, 0, 1]),
                    }
                }
                let (number, place) = [one, other]
                    .into_iter()
                    .min_by_key(|&(number, place)| (number == 14, place))
                    .expect("one of two");
                let refused = agreed_refusal(Call::Write, 1, &record, 0);
                assert_eq!((refused.number, refused.beside), (number, place as u64));
                let refused = agreed_refusal(Call::Nearest, 1, &record, 0);
                if number == 14 {
                    assert_eq!(refused.number, 10);
                } else {
                    assert_eq!((refused.number, refused.beside), (number, place as u64));
                }
            }
        }
    }
}

/// The version that is linked with this is the one of CR 8.
#[test]
fn linked_version_is_not_earlier() {
    assert!(!Version::linked().is_earlier());
}
