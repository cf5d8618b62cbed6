//! Eagle reels, by document 02's CR 7: the example with a trailer, each cause and its place, what carries
//! no meaning, and bytes that are a reel under either layout.

use super::*;

/// 960 bytes: these, over and over, and FFFF at the end.
fn trailer(filling: &[u8]) -> Vec<u8> {
    let mut trailer: Vec<u8> = filling.iter().copied().cycle().take(958).collect();
    trailer.extend([0xFF, 0xFF]);
    trailer
}

/// The Eagle reel of a plain one of code 1: a trailer behind each trace, each with other bytes than the
/// one before.
fn with_trailers(plain: &[u8]) -> Vec<u8> {
    let samples = usize::from(number_at(plain, 3220));
    let mut reel = plain[..3600].to_vec();
    for (index, trace) in plain[3600..].chunks_exact(240 + 4 * samples).enumerate() {
        reel.extend(trace);
        reel.extend(trailer(&[index as u8, 0x42, 0x01, 0x00, 0x00]));
    }
    reel
}

/// The plain reel of an Eagle one: without its trailers, and with blanks in columns 79 and 80 of card 40.
fn without_trailers(reel: &[u8]) -> Vec<u8> {
    let samples = usize::from(number_at(reel, 3220));
    let mut plain = reel[..3600].to_vec();
    plain[3198..3200].fill(0x40);
    for trace in reel[3600..].chunks_exact(1200 + 4 * samples) {
        plain.extend(&trace[..240 + 4 * samples]);
    }
    plain
}

/// The example with a trailer behind its trace, which ends at place 4808.
fn eagle_example() -> Vec<u8> {
    with_trailers(&example())
}

/// Three traces of two words. A trace has 248 bytes and its trailer 960: they begin at places 3600, 4808
/// and 6016, the trailers end at 4808, 6016 and 7224, and the record has 3867 bytes.
fn three_traces() -> Vec<u8> {
    let words: &[u32] = &[0x4110_0000, 0xC276_A000];
    with_trailers(&reel_of(1, &[words, words, words]))
}

/// The reel is taken with these numbers and this record, from its own length of output on; the rest of
/// a longer output stays.
fn is_read(reel: &[u8], traces: u64, samples: u64, not_normal: u64, record: &[u8]) {
    let length = length_read(traces, samples);
    let read = ReelRead {
        traces,
        samples,
        length,
        not_normal,
    };
    let length = length as usize;
    for more in [0, 1, 100] {
        let mut out = vec![0xA5; length + more];
        assert_eq!(read_eagle(reel, &mut out), Ok(read));
        assert_eq!(out[..length], *record);
        assert!(out[length..].iter().all(|&byte| byte == 0xA5));
    }
    for room in [0, 1, 3273, length - 1] {
        if room < length {
            unread(reel, room, 10, length);
        }
    }
}

/// The reel is refused by this number with an output of that length, which stays as it was.
fn unread(reel: &[u8], room: usize, number: u64, beside: usize) {
    let mut out = vec![0xA5; room];
    assert_eq!(read_eagle(reel, &mut out), refused(number, beside));
    assert!(out.iter().all(|&byte| byte == 0xA5));
}

/// The reel is refused by this number, whatever the length of the output.
fn is_refused(reel: &[u8], number: u64, beside: usize) {
    for room in [0, 3273, 5000] {
        unread(reel, room, number, beside);
    }
}

/// The record of a reel that is taken.
fn eagle_record(reel: &[u8]) -> Vec<u8> {
    let mut out = vec![0xA5; 3273 + 2 * reel.len()];
    let read = read_eagle(reel, &mut out).expect("a reel that is taken");
    out.truncate(read.length as usize);
    out
}

/// The record of a plain reel that is taken, and its count.
fn plain_record(reel: &[u8]) -> (Vec<u8>, u64) {
    let mut out = vec![0xA5; 3273 + 2 * reel.len()];
    let read = read_reel(reel, &mut out).expect("a reel that is taken");
    out.truncate(read.length as usize);
    (out, read.not_normal)
}

#[test]
fn example_with_a_trailer() {
    let reel = eagle_example();
    assert_eq!(reel.len(), 4808);
    is_read(&reel, 1, 2, 0, &example_record());
}

#[test]
fn reel_of_three_traces() {
    let pairs: &[[u8; 6]] = &[pair(0, 1), pair(-3, -949)];
    let reel = three_traces();
    assert_eq!(reel.len(), 7224);
    is_read(&reel, 3, 2, 0, &record_of(&[pairs, pairs, pairs]));
}

/// A reel without traces is its 3600 bytes of headers.
#[test]
fn no_traces() {
    let mut record = example_record();
    record.truncate(3266);
    record.extend([0x05, 0x00, 0x04, 0x00, 0x00, 0x00, 0x00]);
    is_read(&eagle_example()[..3600], 0, 2, 0, &record);
}

/// The place of 20 is that of the first of the two bytes, whichever of them differs.
#[test]
fn every_end_of_a_trailer() {
    for byte in 0..=0xFF {
        for (end, wrong) in [
            ([byte, 0xFF], byte != 0xFF),
            ([0xFF, byte], byte != 0xFF),
            ([byte, byte], byte != 0xFF),
            ([byte, 0x00], true),
            ([0x00, byte], true),
        ] {
            let mut reel = eagle_example();
            reel[4806..4808].copy_from_slice(&end);
            if wrong {
                is_refused(&reel, 20, 4806);
            } else {
                is_read(&reel, 1, 2, 0, &example_record());
            }
        }
    }
    // FFFF one byte before its place.
    let mut reel = eagle_example();
    reel[4805..4808].copy_from_slice(&[0xFF, 0xFF, 0x00]);
    is_refused(&reel, 20, 4806);
}

/// Of several wrong trailers the first counts.
#[test]
fn wrong_trailers_of_three_traces() {
    let ends = [4806, 6014, 7222];
    for wrong in 1..8 {
        for byte in [0, 1] {
            let mut reel = three_traces();
            for (index, end) in ends.into_iter().enumerate() {
                if wrong >> index & 1 == 1 {
                    reel[end + byte] = 0x7F;
                }
            }
            let first = (wrong as u32).trailing_zeros() as usize;
            is_refused(&reel, 20, ends[first]);
        }
    }
}

/// The 958 other bytes of each trailer.
#[test]
fn every_other_byte_of_a_trailer() {
    let whole = three_traces();
    let record = eagle_record(&whole);
    for trailer in [3848, 5056, 6264] {
        for place in trailer..trailer + 958 {
            for byte in [0x00, 0x01, 0x40, 0x80, 0xFF] {
                let mut reel = whole.clone();
                reel[place] = byte;
                assert_eq!(eagle_record(&reel), record, "place {place}");
            }
        }
        for filling in [[0x00; 2], [0xFF; 2], [0x42, 0x01], [0x05, 0x00]] {
            let mut reel = whole.clone();
            reel[trailer..trailer + 960].copy_from_slice(&self::trailer(&filling));
            assert_eq!(eagle_record(&reel), record);
        }
    }
}

/// 1 to 4, alone; each with its own number beside it.
#[test]
fn causes_of_the_headers() {
    for length in (0..3600).step_by(59).chain([3199, 3200, 3599]) {
        is_refused(&eagle_example()[..length], 1, length);
    }
    for code in (0..=u16::MAX).filter(|&code| code != 1) {
        let mut reel = eagle_example();
        put_number(&mut reel, 3224, code);
        assert_eq!(read_eagle(&reel, &mut []), refused(2, 3224), "{code}");
    }
    for code in [2, 3, 4, 5, 8, 0, 6, 257, 0x0100] {
        let mut reel = eagle_example();
        put_number(&mut reel, 3224, code);
        is_refused(&reel, 2, 3224);
        is_refused(&reel[..3600], 2, 3224);
    }
    for samples in [0, 32_768, 32_769, 65_535] {
        let mut reel = eagle_example();
        put_number(&mut reel, 3220, samples);
        is_refused(&reel, 3, 3220);
    }
    for interval in [0, 32_768, 65_535] {
        let mut reel = eagle_example();
        put_number(&mut reel, 3216, interval);
        is_refused(&reel, 4, 3216);
    }
}

/// A reel that ends anywhere: behind a whole trailer it is taken with as many traces, elsewhere, in a
/// trailer too, 5 has the place behind the last whole trailer.
#[test]
fn reels_cut_anywhere() {
    let mut whole = three_traces();
    whole.extend([0xFF; 247]);
    for length in 3600..whole.len() {
        let traces = (length - 3600) / 1208;
        let behind = [3600, 4808, 6016, 7224][traces];
        if length == behind {
            let length = 3273 + traces * 198;
            assert_eq!(
                read_eagle(&whole[..behind], &mut []),
                refused(10, length),
                "{traces} traces"
            );
        } else {
            assert_eq!(
                read_eagle(&whole[..length], &mut []),
                refused(5, behind),
                "{length} bytes"
            );
        }
    }
    is_refused(&example(), 5, 3600);
    is_refused(&eagle_example()[..4807], 5, 3600);
    is_refused(&eagle_example()[..4806], 5, 3600);
    is_refused(&[&eagle_example()[..], &[0xFF]].concat(), 5, 4808);
    // Another N makes other traces, of 1204 bytes and of 1212: three of them and two.
    for (samples, behind) in [(1, 7212), (3, 6024)] {
        let mut reel = three_traces();
        put_number(&mut reel, 3220, samples);
        is_refused(&reel, 5, behind);
    }
}

/// A dead station's trace without its samples is none by the full length of a trace.
#[test]
fn omitted_samples() {
    let mut reel = three_traces();
    reel[4808 + 28..4808 + 30].copy_from_slice(&[0x00, 0x02]);
    is_read(&reel, 3, 2, 0, &eagle_record(&reel));
    reel.drain(4808 + 240..4808 + 248);
    is_refused(&reel, 5, 6016);
}

/// 1 to 6 in that order, then trace by trace 7, 8, 18 for field 69, 18 for field 71 and 20, then 10. The
/// reel has every cause at first but 1 and 6, and each is mended in turn.
#[test]
fn causes_in_order() {
    let mut reel = three_traces();
    put_number(&mut reel, 3224, 2);
    put_number(&mut reel, 3220, 0);
    put_number(&mut reel, 3216, 0);
    let wrong = [[0xFF, 0x00], [0x00, 0xFF], [0x12, 0x34]];
    for (trace, end) in [3600, 4808, 6016].into_iter().zip(wrong) {
        reel[trace + 68..trace + 72].copy_from_slice(&[0x00, 0x07, 0x00, 0x02]);
        reel[trace + 114..trace + 118].copy_from_slice(&[0x00, 0x03, 0x00, 0x03]);
        reel[trace + 1206..trace + 1208].copy_from_slice(&end);
    }
    reel.push(0x00);

    is_refused(&reel[..3599], 1, 3599);
    for (number, place, right) in [(2, 3224, 1), (3, 3220, 2), (4, 3216, 2000)] {
        is_refused(&reel, number, place);
        put_number(&mut reel, place, right);
    }
    is_refused(&reel, 5, 7224);
    reel.pop();
    for trace in [3600, 4808, 6016] {
        for (number, offset, right) in [
            (7, 114, 0x0002),
            (8, 116, 0x07D0),
            (18, 68, 0xD8F0),
            (18, 70, 0xD8F0),
            (20, 1206, 0xFFFF),
        ] {
            is_refused(&reel, number, trace + offset);
            put_number(&mut reel, trace + offset, right);
        }
    }
    unread(&reel, 3866, 10, 3867);
    is_read(&reel, 3, 2, 0, &eagle_record(&three_traces()));
}

/// Trace 1's 20 comes before each cause of trace 2, and trace 2's causes before trace 3's 20.
#[test]
fn trace_by_trace() {
    for (number, offset, wrong) in [
        (7, 114, 1),
        (8, 116, 1999),
        (18, 68, 3),
        (18, 70, 0x8000),
        (20, 1206, 0),
    ] {
        let mut reel = three_traces();
        put_number(&mut reel, 4808 + offset, wrong);
        is_refused(&reel, number, 4808 + offset);
        put_number(&mut reel, 7222, 0xFFFE);
        is_refused(&reel, number, 4808 + offset);
        put_number(&mut reel, 4806, 0xFEFF);
        is_refused(&reel, 20, 4806);
    }
}

/// 0 in fields 115 and 117, the reel's own numbers, or each in one trace; another number is refused,
/// a trailer's bytes at the same offsets are not.
#[test]
fn counts_and_intervals_of_traces() {
    let record = eagle_record(&three_traces());
    for (first, second) in [(2, 0), (0, 2000), (2, 2000)] {
        for trace in [3600, 4808, 6016] {
            let mut reel = three_traces();
            put_number(&mut reel, trace + 114, first);
            put_number(&mut reel, trace + 116, second);
            assert_eq!(eagle_record(&reel), record);
            put_number(&mut reel, trace + 248 + 114, 7);
            put_number(&mut reel, trace + 248 + 68, 7);
            assert_eq!(eagle_record(&reel), record);
        }
    }
}

/// Columns 79 and 80 of card 40 are blanks in the record, whatever they hold. The other cards' are text,
/// and so is column 78; the binary header behind them stays.
#[test]
fn check_of_the_cards() {
    for byte in 0..=0xFF {
        let blanked = if byte == 0x00 { 0x40 } else { byte };
        for (place, held) in [
            (3198, 0x40),
            (3199, 0x40),
            (0, blanked),
            (78, blanked),
            (79, blanked),
            (3118, blanked),
            (3119, blanked),
            (3120, blanked),
            (3197, blanked),
        ] {
            let mut reel = eagle_example();
            reel[place] = byte;
            let mut record = example_record();
            record[3 + place] = held;
            assert_eq!(eagle_record(&reel), record, "{byte:02X} at {place}");
        }
        let mut reel = eagle_example();
        reel[3196..3202].copy_from_slice(&[0x00, 0x81, byte, byte ^ 0xFF, 0x00, byte]);
        let mut record = example_record();
        record[3 + 3196..3 + 3200].copy_from_slice(&[0x40, 0x81, 0x40, 0x40]);
        record[3206..3208].copy_from_slice(&[0x00, byte]);
        assert_eq!(eagle_record(&reel), record);
    }
    let mut reel = eagle_example();
    reel[..3200].fill(0xC1);
    let mut record = example_record();
    record[3..3 + 3198].fill(0xC1);
    assert_eq!(eagle_record(&reel), record);
    reel[..3200].fill(0x00);
    assert_eq!(eagle_record(&reel), example_record());
}

/// The checks of the headers stand in their last two bytes, which are unassigned, as all from 3261 and
/// from 181 on. Field 169 is a bare number.
#[test]
fn other_checks_and_the_weighting_factor() {
    let mut reel = eagle_example();
    reel[3260..3600].fill(0x99);
    reel[3780..3840].fill(0x77);
    assert_eq!(eagle_record(&reel), example_record());
    reel[3768..3770].copy_from_slice(&[0x80, 0x03]);
    let mut record = example_record();
    record[3269 + 168..3269 + 170].copy_from_slice(&[0x80, 0x03]);
    is_read(&reel, 1, 2, 0, &record);
}

/// Each header field of each trace stands where it does on a plain reel. The numbers are such that none
/// takes a zero.
#[test]
fn fields_of_every_trace() {
    let mut reel = three_traces();
    let mut record = eagle_record(&reel);
    for (trace, held) in [(3600, 3269), (4808, 3467), (6016, 3665)] {
        for offset in (0..180).filter(|offset| !(114..118).contains(offset)) {
            let byte = 0x40 + (trace + offset) as u8 % 0x3F;
            reel[trace + offset] = byte;
            record[held + offset] = byte;
        }
        for scalar in [68, 70] {
            reel[trace + scalar..trace + scalar + 2].copy_from_slice(&[0x03, 0xE8]);
            record[held + scalar..held + scalar + 2].copy_from_slice(&[0x03, 0xE8]);
        }
    }
    is_read(&reel, 3, 2, 0, &record);
}

/// The scalars of each trace are those of CR 2: 12 × 100 and 5 ÷ 10 are 12000000 and 5000
/// ten-thousandths.
#[test]
fn scalars_of_every_trace() {
    let mut reel = three_traces();
    let mut record = eagle_record(&reel);
    for (trace, held) in [(3600, 3269), (4808, 3467), (6016, 3665)] {
        reel[trace + 40..trace + 44].copy_from_slice(&12i32.to_be_bytes());
        reel[trace + 84..trace + 88].copy_from_slice(&5i32.to_be_bytes());
        put_number(&mut reel, trace + 68, 100);
        put_number(&mut reel, trace + 70, -10i16 as u16);
        record[held + 40..held + 44].copy_from_slice(&12_000_000i32.to_be_bytes());
        record[held + 84..held + 88].copy_from_slice(&5_000i32.to_be_bytes());
        is_read(&reel, 3, 2, 0, &record);
    }
    for trace in [3600, 4808, 6016] {
        for scalar in [2, 7, 9_999, 10_001, 0x8000] {
            for offset in [68, 70] {
                let mut reel = reel.clone();
                put_number(&mut reel, trace + offset, scalar);
                is_refused(&reel, 18, trace + offset);
            }
        }
    }
}

/// Words that are not normal count where they are samples. In a trailer there are none: those of
/// `with_trailers` have 42010000 in them.
#[test]
fn words_are_counted() {
    let not_normal = NOT_NORMAL.map(|(bits, _, _)| bits);
    let normal = NORMAL.map(|(bits, _, _)| bits);
    for (words, count) in [(&not_normal[..], 31), (&normal[..], 0)] {
        let reel = with_trailers(&reel_of(1, &[words, words]));
        let samples = words.len() as u64;
        is_read(&reel, 2, samples, 2 * count, &eagle_record(&reel));
    }
    let alone: Vec<&[u32]> = not_normal.chunks(1).chain(normal.chunks(1)).collect();
    let mut reel = with_trailers(&reel_of(1, &alone));
    let record = eagle_record(&reel);
    is_read(&reel, 55, 1, 31, &record);
    for trace in reel[3600..].chunks_exact_mut(1204) {
        trace[244..1204].copy_from_slice(&trailer(&[0x42, 0x01, 0x00, 0x00]));
    }
    is_read(&reel, 55, 1, 31, &record);
}

/// Words that code 4 refuses by 9 and code 5 by 19 are words of code 1.
#[test]
fn every_word_is_taken() {
    let words = [0xFFFF_FFFF, 0x7F80_0000, 0x0100_0000, 0x0000_FFFF];
    let pairs = words.map(|bits| Pair::of_ibm(word(bits)).bytes());
    let reel = with_trailers(&reel_of(1, &[&words]));
    is_read(&reel, 1, 4, 1, &record_of(&[&pairs]));
}

#[test]
fn most_samples() {
    let mut words = vec![0x4110_0000; 32_767];
    words[32_766] = 0x4201_0000;
    let pairs = vec![pair(0, 1); 32_767];
    let reel = with_trailers(&reel_of(1, &[&words, &words]));
    assert_eq!(reel.len(), 3600 + 2 * 132_268);
    is_read(&reel, 2, 32_767, 2, &record_of(&[&pairs, &pairs]));
    is_refused(&reel[..reel.len() - 1], 5, 135_868);
    let mut reel = reel;
    reel[135_867] = 0x00;
    is_refused(&reel, 20, 135_866);
}

/// 100,000 traces of one sample have 120,400,000 bytes, and are taken; one more is refused by 6 at its
/// place, before any cause of a trace; and with a byte behind it by 5.
#[test]
fn most_traces() {
    let behind = 120_403_600;
    let mut reel = vec![0; behind + 1204 + 1];
    reel[..3600].copy_from_slice(&example()[..3600]);
    put_number(&mut reel, 3220, 1);
    for trace in reel[3600..].chunks_exact_mut(1204) {
        trace[1202..].fill(0xFF);
    }
    let length = 3273 + 100_000 * 192;
    let read = ReelRead {
        traces: 100_000,
        samples: 1,
        length: length as u64,
        not_normal: 0,
    };
    let mut out = vec![0xA5; length];
    assert_eq!(read_eagle(&reel[..behind], &mut out), Ok(read));
    assert_eq!(out[length - 4..], [0x00, 0x01, 0x86, 0xA0]);
    assert_eq!(
        read_eagle(&reel[..behind], &mut out[1..]),
        refused(10, length)
    );
    assert_eq!(
        read_eagle(&reel[..behind - 1], &mut out),
        refused(5, behind - 1204)
    );
    assert_eq!(
        read_eagle(&reel[..behind + 1204], &mut out),
        refused(6, behind)
    );
    assert_eq!(read_eagle(&reel, &mut out), refused(5, behind + 1204));
    reel[behind - 1] = 0xFE;
    assert_eq!(
        read_eagle(&reel[..behind], &mut out),
        refused(20, behind - 2)
    );
    assert_eq!(
        read_eagle(&reel[..behind + 1204], &mut out),
        refused(6, behind)
    );
    put_number(&mut reel, 3600 + 114, 7);
    assert_eq!(
        read_eagle(&reel[..behind + 1204], &mut out),
        refused(6, behind)
    );
}

/// Any reel of code 1: cards, headers and words of any bytes, but for the numbers that have limits.
fn any_plain_reel(next: &mut impl FnMut() -> u32, samples: u16, traces: usize) -> Vec<u8> {
    let mut reel: Vec<u8> = (0..3600 + traces * (240 + 4 * usize::from(samples)))
        .map(|_| next() as u8)
        .collect();
    for place in 0..3200 {
        if next() % 8 == 0 {
            reel[place] = 0x00;
        }
    }
    let interval = 1 + (next() % 32_767) as u16;
    put_number(&mut reel, 3216, interval);
    put_number(&mut reel, 3220, samples);
    put_number(&mut reel, 3224, 1);
    for trace in reel[3600..].chunks_exact_mut(240 + 4 * usize::from(samples)) {
        put_number(trace, 68, SCALARS[next() as usize % 11] as u16);
        put_number(trace, 70, SCALARS[next() as usize % 11] as u16);
        put_number(trace, 114, [0, samples][next() as usize % 2]);
        put_number(trace, 116, [0, interval][next() as usize % 2]);
    }
    reel
}

/// An Eagle reel has the record of the plain reel that is left without its trailers and its check. Any
/// other trailers and check leave the record as it is. The record written under code 1 is a plain reel
/// of the same record, and so is the Eagle reel of that one.
#[test]
fn eagle_reels_and_plain_ones() {
    let mut row = numbers(2004);
    let mut next = || row.next().expect("a row without an end");
    for turn in 0..400 {
        let samples = [1, 2, 3, 20, 59, 60, 61][turn % 7];
        let traces = turn % 5;
        let plain = any_plain_reel(&mut next, samples, traces);
        let reel = with_trailers(&plain);
        let record = eagle_record(&reel);
        let (expected, not_normal) = plain_record(&without_trailers(&reel));
        assert_eq!(record, expected);
        is_read(
            &reel,
            traces as u64,
            u64::from(samples),
            not_normal,
            &expected,
        );

        let mut other = reel.clone();
        other[3198..3200].copy_from_slice(&[next() as u8, next() as u8]);
        let length = 1200 + 4 * usize::from(samples);
        for trace in other[3600..].chunks_exact_mut(length) {
            for byte in &mut trace[length - 960..length - 2] {
                *byte = next() as u8;
            }
        }
        assert_eq!(eagle_record(&other), record);

        // The plain reel's own record is another where its last two card bytes are no blanks.
        let (of_plain, _) = plain_record(&plain);
        let blanks = plain[3198..3200]
            .iter()
            .all(|&byte| card_byte(byte) == 0x40);
        assert_eq!(of_plain == record, blanks);
        assert_eq!(of_plain[..3 + 3198], record[..3 + 3198]);
        assert_eq!(of_plain[3 + 3200..], record[3 + 3200..]);

        let mut written = vec![0xA5; plain.len()];
        assert!(write_reel(&record, 1, &mut written).is_ok());
        assert_eq!(plain_record(&written), (record.clone(), 0));
        assert_eq!(eagle_record(&with_trailers(&written)), record);
    }
}

/// Bytes that are one Eagle trace of 20 samples and four plain ones: 240 + 80 + 960 bytes are 4 × 320.
/// Cards and headers are the example's, but for C1 C2 in columns 79 and 80 of card 40. The trailer looks
/// like three plain traces, of numbers 2, 3 and 4, and its last word is 4200FFFF.
fn one_trace_or_four() -> Vec<u8> {
    let mut words = [0; 20];
    words[0] = 0x4110_0000;
    let mut last = [0; 20];
    last[19] = 0x4200_FFFF;
    let mut reel = reel_of(1, &[&words, &[0; 20], &[0; 20], &last]);
    reel[3198..3200].copy_from_slice(&[0xC1, 0xC2]);
    for (index, trace) in reel[3600..].chunks_exact_mut(320).enumerate() {
        trace[3] = 1 + index as u8;
    }
    reel
}

/// What they are under either call, by hand: T 1 or 4, the count 0 or 1, and the records.
#[test]
fn bytes_of_one_eagle_trace_or_four_plain_ones() {
    let reel = one_trace_or_four();
    assert_eq!(reel.len(), 4880);
    let mut first = [pair(0, 0); 20];
    first[0] = pair(0, 1);
    let mut last = [pair(0, 0); 20];
    last[19] = pair(-16, 65_535);

    let mut eagle = record_of(&[&first]);
    eagle[3269 + 3] = 1;
    assert_eq!(eagle.len(), 3579);
    is_read(&reel, 1, 20, 0, &eagle);

    let mut plain = record_of(&[&first, &[pair(0, 0); 20], &[pair(0, 0); 20], &last]);
    plain[3 + 3198..3 + 3200].copy_from_slice(&[0xC1, 0xC2]);
    for index in 0..4 {
        plain[3269 + 306 * index + 3] = 1 + index as u8;
    }
    assert_eq!(plain.len(), 4497);
    counted(&reel, 4, 20, 1);
    assert_eq!(plain_record(&reel), (plain, 1));

    // What an Eagle trailer may hold and a plain header may not, and the other way.
    let mut other = reel.clone();
    put_number(&mut other, 3600 + 320 + 114, 19);
    assert_eq!(read_reel(&other, &mut []), refused(7, 4034));
    is_read(&other, 1, 20, 0, &eagle);
    let mut other = reel;
    other[4879] = 0xFE;
    counted(&other, 4, 20, 1);
    is_refused(&other, 20, 4878);
}

/// Counts of Eagle traces and of plain ones that fill the same bytes, which are 00 but for the FFFF of
/// each trailer. Under the plain layout most of these are the end of a word, 0000FFFF; for N 240 one ends
/// a header, and for N 80 three stand in headers, one at the end and the others in fields 77 and 159.
#[test]
fn bytes_of_other_counts_of_traces() {
    for (samples, eagle_traces, plain_traces, words) in [
        (20, 1, 4, 1),
        (20, 3, 12, 3),
        (60, 1, 3, 1),
        (60, 2, 6, 2),
        (180, 1, 2, 1),
        (240, 5, 9, 4),
        (80, 7, 19, 4),
    ] {
        let length = 1200 + 4 * samples;
        let mut reel = example();
        reel.truncate(3600);
        put_number(&mut reel, 3220, samples as u16);
        reel.resize(3600 + eagle_traces * length, 0x00);
        assert_eq!(reel.len(), 3600 + plain_traces * (240 + 4 * samples));
        for trace in reel[3600..].chunks_exact_mut(length) {
            trace[length - 2..].fill(0xFF);
        }
        let zeros = vec![pair(0, 0); samples];
        let eagle = record_of(&vec![&zeros[..]; eagle_traces]);
        is_read(&reel, eagle_traces as u64, samples as u64, 0, &eagle);

        let (plain, not_normal) = plain_record(&reel);
        assert_eq!(not_normal, 0);
        assert_eq!(plain.len(), 3273 + plain_traces * (186 + 6 * samples));
        let values = plain[3266..plain.len() - 7]
            .chunks_exact(186 + 6 * samples)
            .flat_map(|trace| trace[186..].chunks_exact(6));
        assert_eq!(
            values.filter(|bytes| **bytes == pair(-280, 65_535)).count(),
            words,
            "N {samples}"
        );
    }
}

/// A reel without traces is one under either call; the records differ where card 40 has a check.
#[test]
fn headers_alone_under_either_call() {
    let mut reel = example();
    reel.truncate(3600);
    assert_eq!(eagle_record(&reel), plain_record(&reel).0);
    reel[3199] = 0x00;
    assert_eq!(eagle_record(&reel), plain_record(&reel).0);
    reel[3198] = 0xF7;
    let (plain, _) = plain_record(&reel);
    let mut eagle = plain.clone();
    eagle[3 + 3198] = 0x40;
    assert_eq!(plain[3 + 3198], 0xF7);
    assert_eq!(eagle_record(&reel), eagle);
}

/// An Eagle reel is seldom a plain one: the example's 1208 bytes are four traces of 248 and 216 more.
/// Look-up takes plain reels only.
#[test]
fn eagle_reel_under_the_plain_calls() {
    let reel = eagle_example();
    assert_eq!(read_reel(&reel, &mut [0; 5000]), refused(5, 4592));
    assert_eq!(look_up(&reel, 0, 3225), refused(5, 4592));
    assert_eq!(read_eagle(&example(), &mut [0; 5000]), refused(5, 3600));
}
