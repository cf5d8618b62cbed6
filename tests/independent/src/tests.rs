//! Document 01's samples at the edges and its example, and what document 02's CR 1 to CR 10 make of it.

use super::*;

mod boxes;
mod eagle;
mod long;
mod order;

const CODES: [u32; 6] = [1, 2, 3, 4, 5, 8];

fn pair(exponent: i16, mantissa: i32) -> [u8; 6] {
    Pair { exponent, mantissa }.bytes()
}

fn word(bits: u32) -> [u8; 4] {
    bits.to_be_bytes()
}

fn reads(code: u32, bits: u32, exponent: i16, mantissa: i32) {
    let read = WordRead {
        pair: pair(exponent, mantissa),
        not_normal: false,
    };
    assert_eq!(read_word(code, word(bits)), Ok(read), "{bits:08X}");
}

/// An IBM word that is not normal.
fn reads_not_normal(bits: u32, exponent: i16, mantissa: i32) {
    let read = WordRead {
        pair: pair(exponent, mantissa),
        not_normal: true,
    };
    assert_eq!(read_word(1, word(bits)), Ok(read), "{bits:08X}");
}

fn writes(code: u32, exponent: i16, mantissa: i32, bits: u32) {
    assert_eq!(
        write_pair(code, pair(exponent, mantissa)),
        Ok(word(bits)),
        "e {exponent}, m {mantissa}"
    );
}

fn misfits(code: u32, exponent: i16, mantissa: i32) {
    assert_eq!(write_pair(code, pair(exponent, mantissa)), refused(14, 0));
}

#[test]
fn one() {
    reads(1, 0x4110_0000, 0, 1);
    reads_not_normal(0x4201_0000, 0, 1);
    writes(1, 0, 1, 0x4110_0000);
}

#[test]
fn negative_with_a_fraction() {
    reads(1, 0xC276_A000, -3, -949);
    assert_eq!(
        read_word(1, word(0xC276_A000)).map(|read| read.pair),
        Ok([0xFF, 0xFD, 0xFF, 0xFF, 0xFC, 0x4B])
    );
    writes(1, -3, -949, 0xC276_A000);
}

#[test]
fn zero() {
    reads_not_normal(0x8000_0000, 0, 0);
    reads_not_normal(0x7F00_0000, 0, 0);
    for code in CODES {
        reads(code, 0, 0, 0);
        writes(code, 0, 0, 0);
    }
    reads(4, 0x00FF_0000, 0, 0);
    reads(5, 0x8000_0000, 0, 0);
}

#[test]
fn ends_of_code_1() {
    reads(1, 0x0000_0001, -280, 1);
    writes(1, -280, 1, 0x0000_0001);
    reads(1, 0x7F80_0000, 251, 1);
    writes(1, 251, 1, 0x7F80_0000);
    reads(1, 0x7FFF_FFFF, 228, 16_777_215);
    writes(1, 228, 16_777_215, 0x7FFF_FFFF);
    misfits(1, 251, 3);
}

#[test]
fn gains() {
    reads(4, 0x0001_0002, 0, 1);
    writes(4, 0, 1, 0x0000_0001);
    writes(4, 15, -1, 0x0000_8000);
    misfits(4, 15, 1);
    writes(4, -255, 1, 0x00FF_0001);
    misfits(4, -256, 1);
    assert_eq!(read_word(4, word(0x0100_0000)), refused(9, 0));
}

#[test]
fn lengths_of_the_fraction() {
    writes(1, 0, 16_777_215, 0x46FF_FFFF);
    misfits(1, 0, 16_777_217);
    writes(1, 4, 33_554_416 >> 4, 0x471F_FFFF);
    misfits(1, 1, 33_554_430 >> 1);
}

#[test]
fn most_negative_whole_numbers() {
    reads(2, 0x8000_0000, 31, -1);
    writes(2, 31, -1, 0x8000_0000);
    misfits(2, 31, 1);
    reads(3, 0x8000_1234, 15, -1);
    writes(3, 15, -1, 0x8000_0000);
    misfits(3, 15, 1);
    misfits(3, -1, 1);
}

#[test]
fn single_samples_are_refused_in_order() {
    assert_eq!(read_word(257, word(0x0100_0000)), refused(2, 0));
    assert_eq!(write_pair(0, pair(1, 0)), refused(11, 0));
    for (exponent, mantissa) in [(1, 0), (0, 2), (-281, 1), (252, 1), (0, i32::MIN)] {
        for code in CODES {
            assert_eq!(write_pair(code, pair(exponent, mantissa)), refused(13, 0));
        }
    }
}

/// The numbers of no code: those beside the six, and those that are one of the six in some of their
/// bytes.
#[test]
fn numbers_of_no_code() {
    let beside = (0..=300).filter(|number| !CODES.contains(number));
    let others = CODES
        .into_iter()
        .flat_map(|code| [code << 8, code << 24, code | 1 << 16, code | 1 << 31]);
    for number in beside.chain(others).chain([u32::MAX]) {
        for bits in [0, 0x4110_0000, 0x7F80_0000] {
            assert_eq!(read_word(number, word(bits)), refused(2, 0), "{number}");
        }
        assert_eq!(write_pair(number, pair(0, 1)), refused(11, 0), "{number}");
        assert_eq!(write_pair(number, pair(0, 2)), refused(11, 0), "{number}");
        assert_eq!(
            write_reel(&example_record(), number, &mut []),
            refused(11, 0),
            "{number}"
        );
    }
    for number in (0..=u16::MAX).filter(|&number| !CODES.contains(&u32::from(number))) {
        let mut reel = example();
        reel[3224..3226].copy_from_slice(&number.to_be_bytes());
        assert_eq!(read_reel(&reel, &mut []), refused(2, 3224), "{number}");
    }
}

/// Words of code 5 with their pairs: 1 and its neighbours, the ends of the normal words and of the
/// subnormal ones, and what lies between.
const IEEE: [(u32, i16, i32); 26] = [
    (0x3F80_0000, 0, 1),
    (0xBF80_0000, 0, -1),
    (0x3F7F_FFFF, -24, 16_777_215),
    (0x3F80_0001, -23, 8_388_609),
    (0x4000_0000, 1, 1),
    (0x3F00_0000, -1, 1),
    (0xC2ED_4000, -3, -949),
    (0x4B7F_FFFF, 0, 16_777_215),
    (0x4B80_0000, 24, 1),
    (0x4B80_0001, 1, 8_388_609),
    (0x7F7F_FFFF, 104, 16_777_215),
    (0xFF7F_FFFF, 104, -16_777_215),
    (0x7F00_0000, 127, 1),
    (0x7F00_0001, 104, 8_388_609),
    (0x0080_0000, -126, 1),
    (0x8080_0000, -126, -1),
    (0x0080_0001, -149, 8_388_609),
    (0x0100_0000, -125, 1),
    (0x0100_0001, -148, 8_388_609),
    (0x007F_FFFF, -149, 8_388_607),
    (0x807F_FFFF, -149, -8_388_607),
    (0x0040_0000, -127, 1),
    (0x0000_0001, -149, 1),
    (0x8000_0001, -149, -1),
    (0x0000_0002, -148, 1),
    (0x0000_0003, -149, 3),
];

#[test]
fn ieee_words() {
    for (bits, exponent, mantissa) in IEEE {
        reads(5, bits, exponent, mantissa);
        writes(5, exponent, mantissa, bits);
    }
}

/// Of every word of the largest exponent none has a value.
#[test]
fn infinities_and_not_a_numbers() {
    for first in [0x7F80_0000, 0xFF80_0000] {
        for fraction in 0..1 << 23 {
            assert_eq!(read_word(5, word(first | fraction)), refused(19, 0));
        }
    }
}

/// One bit too many, one power too high, and beside the subnormal words a bit too low.
#[test]
fn values_that_no_ieee_word_has() {
    for sign in [1, -1] {
        for (exponent, mantissa) in [
            (0, 16_777_217),
            (1, 33_554_431),
            (0, i32::MAX),
            (128, 1),
            (127, 3),
            (105, 16_777_215),
            (104, 16_777_217),
            (251, 1),
            (-150, 1),
            (-150, 3),
            (-150, 16_777_215),
            (-149, 16_777_217),
            (-280, 1),
            (-280, i32::MAX),
        ] {
            misfits(5, exponent, sign * mantissa);
        }
    }
}

/// What the host's own 32-bit float of these bits has, or None where that is no number. A 64-bit float
/// has it exactly.
fn value_by_the_host(bits: u32) -> Option<f64> {
    let value = f64::from(f32::from_bits(bits));
    value.is_finite().then_some(value)
}

/// The value of a canonical pair as a 64-bit float of the host's: 31 bits and a power of two within its
/// range, so it is exact.
fn value_of_pair(bytes: [u8; 6]) -> f64 {
    let Pair { exponent, mantissa } = Pair::of_bytes(&bytes);
    let power = f64::from_bits(((i64::from(exponent) + 1023) as u64) << 52);
    f64::from(mantissa) * power
}

/// Reading an IEEE word gives a canonical pair of the value that the host has, and writing that pair
/// gives the word again, or 00000000 for a zero. True if the word has a value.
fn as_the_host_has_it(bits: u32) -> bool {
    let Some(value) = value_by_the_host(bits) else {
        assert_eq!(read_word(5, word(bits)), refused(19, 0), "{bits:08X}");
        return false;
    };
    let read = read_word(5, word(bits)).expect("a word that has a value");
    assert!(!read.not_normal, "{bits:08X}");
    assert!(Pair::of_bytes(&read.pair).is_canonical(), "{bits:08X}");
    assert!(value_of_pair(read.pair) == value, "{bits:08X}");
    let again = if value == 0.0 { 0 } else { bits };
    assert_eq!(write_pair(5, read.pair), Ok(word(again)), "{bits:08X}");
    true
}

/// A row of 32-bit numbers, the same at every run.
fn numbers(mut state: u64) -> impl Iterator<Item = u32> {
    std::iter::repeat_with(move || {
        state = state
            .wrapping_mul(6_364_136_223_846_793_005)
            .wrapping_add(1_442_695_040_888_963_407);
        (state >> 32) as u32
    })
}

/// Under every sign and exponent: fractions of one bit and of two, their complements, those about the
/// ends, and a thousand others; then four million words of any kind.
#[test]
fn ieee_words_by_the_host() {
    let mut fractions: Vec<u32> = (0..64).collect();
    for high in 0..23 {
        for low in 0..=high {
            fractions.push(1 << high | 1 << low);
            fractions.push((2 << high) - (1 << low));
        }
    }
    fractions.extend(numbers(1975).take(1_000).map(|number| number >> 9));
    let complements: Vec<u32> = fractions
        .iter()
        .map(|fraction| 0x7F_FFFF - fraction)
        .collect();
    fractions.extend(complements);
    let mut counts = [0u64; 2];
    for first in 0..512 {
        for &fraction in &fractions {
            counts[usize::from(as_the_host_has_it(first << 23 | fraction))] += 1;
        }
    }
    let each = fractions.len() as u64;
    assert_eq!(counts, [2 * each, 510 * each]);
    assert!(each > 3_000);
    for bits in numbers(1985).take(4_000_000) {
        as_the_host_has_it(bits);
    }
}

/// All words of code 5. Too long for every run: `cargo test --release -- --ignored --nocapture`.
#[test]
#[ignore = "2^32 words take a minute or two"]
fn every_ieee_word_by_the_host() {
    let mut counts = [0u64; 2];
    for bits in 0..=u32::MAX {
        counts[usize::from(as_the_host_has_it(bits))] += 1;
    }
    assert_eq!(counts, [2 << 23, 510 << 23]);
    println!("{} words have a value, {} have none", counts[1], counts[0]);
}

/// A pair has a word of code 5 exactly when the host's 64-bit float of its value stays what it is as a
/// 32-bit float, and the word is that float's.
fn pair_as_the_host_has_it(exponent: i16, mantissa: i32) -> bool {
    let value = value_of_pair(pair(exponent, mantissa));
    let rounded = value as f32;
    let fits = f64::from(rounded) == value;
    let written = if fits {
        Ok(word(rounded.to_bits()))
    } else {
        refused(14, 0)
    };
    assert_eq!(
        write_pair(5, pair(exponent, mantissa)),
        written,
        "e {exponent}, m {mantissa}"
    );
    fits
}

#[test]
fn pairs_to_ieee_words_by_the_host() {
    let mut mantissas = Vec::new();
    for length in 1..=31 {
        let most = ((1u32 << length) - 1) as i32;
        let least = 1 << (length - 1) | 1;
        mantissas.extend([most, least]);
        for number in numbers(length).take(40) {
            mantissas.push(least | (number as i32 & most) | 1);
        }
    }
    let mut counts = [0u64; 2];
    for exponent in LEAST_EXPONENT..=MOST_EXPONENT {
        for &mantissa in &mantissas {
            for mantissa in [mantissa, -mantissa] {
                counts[usize::from(pair_as_the_host_has_it(exponent, mantissa))] += 1;
            }
        }
    }
    assert!(counts.iter().all(|&count| count > 100_000), "{counts:?}");
    let mut row = numbers(2001);
    let mut next = || row.next().expect("a row without an end");
    for _ in 0..2_000_000 {
        let exponent = -280 + (next() % 532) as i16;
        let mantissa = (next() | 1) as i32 >> (next() % 31) | 1;
        pair_as_the_host_has_it(exponent, mantissa);
    }
}

/// All 256 samples of code 8, whatever stands behind them; each is written again with 00 behind it.
#[test]
fn one_byte_samples() {
    for (bits, exponent, mantissa) in [
        (0x0100_0000, 0, 1),
        (0xFF00_0000, 0, -1),
        (0x7F00_0000, 0, 127),
        (0x8000_0000, 7, -1),
        (0x8100_0000, 0, -127),
        (0x4000_0000, 6, 1),
        (0xFE00_0000, 1, -1),
    ] {
        reads(8, bits, exponent, mantissa);
        writes(8, exponent, mantissa, bits);
    }
    for byte in 0..=255u8 {
        let whole = if byte < 128 {
            i32::from(byte)
        } else {
            i32::from(byte) - 256
        };
        let as_16_bits = read_word(3, word((whole as u32) << 16)).expect("any word is taken");
        let only = [byte, 0, 0, 0];
        for behind in [[0, 0, 0], [0, 0, 1], [0x80, 0, 0], [0xFF; 3], [byte; 3]] {
            let read = read_word(8, [byte, behind[0], behind[1], behind[2]]);
            assert_eq!(read, Ok(as_16_bits), "{byte:02X}");
        }
        assert_eq!(write_pair(8, as_16_bits.pair), Ok(only), "{byte:02X}");
    }
    for whole in (-70_000..-128).chain(128..=70_000i32) {
        let twos = whole.trailing_zeros();
        misfits(8, twos as i16, whole >> twos);
    }
    misfits(8, 7, 1);
    misfits(8, 8, -1);
    misfits(8, -1, 1);
    misfits(8, 0, 257);
    misfits(8, 32, 1);
    misfits(8, 251, -1);
}

/// The reel of the paper's example: one trace of the words 41100000 and C276A000.
fn example() -> Vec<u8> {
    let mut reel = vec![0x40; 3200];
    reel.resize(3600, 0);
    reel[3216..3218].copy_from_slice(&2000u16.to_be_bytes());
    reel[3220..3222].copy_from_slice(&2u16.to_be_bytes());
    reel[3224..3226].copy_from_slice(&1u16.to_be_bytes());
    reel.resize(3840, 0);
    reel.extend(word(0x4110_0000));
    reel.extend(word(0xC276_A000));
    reel
}

/// Its record, field by field. The scalars of fields 69 and 71 are -10000, the smallest power's, since
/// all elevations and coordinates are 0.
fn example_record() -> Vec<u8> {
    let mut record = vec![0x01, 0x0C, 0x80];
    record.resize(3203, 0x40);
    record.extend([0x02, 0x00, 0x3C]);
    record.resize(3206 + 60, 0);
    record[3206 + 16..3206 + 18].copy_from_slice(&[0x07, 0xD0]);
    record[3206 + 20..3206 + 22].copy_from_slice(&[0x00, 0x02]);
    record.extend([0x03, 0x00, 0xB4]);
    record.resize(3269 + 180, 0);
    record[3269 + 68..3269 + 72].copy_from_slice(&[0xD8, 0xF0, 0xD8, 0xF0]);
    record[3269 + 114..3269 + 118].copy_from_slice(&[0x00, 0x02, 0x07, 0xD0]);
    record.extend([0x04, 0x00, 0x0C]);
    record.extend([0x00, 0x00, 0x00, 0x00, 0x00, 0x01]);
    record.extend([0xFF, 0xFD, 0xFF, 0xFF, 0xFC, 0x4B]);
    record.extend([0x05, 0x00, 0x04, 0x00, 0x00, 0x00, 0x01]);
    record
}

#[test]
fn example_is_read() {
    let mut out = [0xA5; 4000];
    let read = ReelRead {
        traces: 1,
        samples: 2,
        length: 3471,
        not_normal: 0,
    };
    assert_eq!(read_reel(&example(), &mut out), Ok(read));
    assert_eq!(out[..3471], example_record());
    assert!(out[3471..].iter().all(|&byte| byte == 0xA5));
}

#[test]
fn example_is_written() {
    let mut filled = example();
    filled[3600 + 68..3600 + 72].copy_from_slice(&[0xD8, 0xF0, 0xD8, 0xF0]);
    filled[3600 + 114..3600 + 118].copy_from_slice(&[0x00, 0x02, 0x07, 0xD0]);
    let mut out = [0xA5; 4000];
    let taken = Taken {
        traces: 1,
        samples: 2,
        length: 3848,
    };
    assert_eq!(write_reel(&example_record(), 1, &mut out), Ok(taken));
    assert_eq!(out[..3848], filled);
    assert!(out[3848..].iter().all(|&byte| byte == 0xA5));
}

#[test]
fn example_with_a_short_output() {
    let mut out = [0xA5; 3847];
    assert_eq!(read_reel(&example(), &mut out[..3470]), refused(10, 3471));
    assert_eq!(
        write_reel(&example_record(), 1, &mut out),
        refused(10, 3848)
    );
    assert!(out.iter().all(|&byte| byte == 0xA5));
}

#[test]
fn example_has_a_sample_that_is_not_whole() {
    let mut out = [0xA5; 4000];
    for code in [2, 3, 8] {
        assert_eq!(
            write_reel(&example_record(), code, &mut out),
            refused(14, 3458)
        );
    }
    assert!(out.iter().all(|&byte| byte == 0xA5));
}

/// The example's record as a reel of code 5: the words of 1 and -949/8. The reel is read again.
#[test]
fn example_in_code_5() {
    let mut reel = reel_of(5, &[&[0x3F80_0000, 0xC2ED_4000]]);
    reel[3600 + 68..3600 + 72].copy_from_slice(&[0xD8, 0xF0, 0xD8, 0xF0]);
    reel[3600 + 114..3600 + 118].copy_from_slice(&[0x00, 0x02, 0x07, 0xD0]);
    let mut out = [0xA5; 4000];
    let taken = Taken {
        traces: 1,
        samples: 2,
        length: 3848,
    };
    assert_eq!(write_reel(&example_record(), 5, &mut out), Ok(taken));
    assert_eq!(out[..3848], reel);
    assert!(out[3848..].iter().all(|&byte| byte == 0xA5));
    assert_eq!(
        write_reel(&example_record(), 5, &mut out[..3847]),
        refused(10, 3848)
    );
    counted(&reel, 1, 2, 0);
    assert!(read_reel(&reel, &mut out).is_ok());
    assert_eq!(out[..3471], example_record());
    assert_eq!(look_up(&reel, 0, 3225), Ok(5));
}

/// A reel of one-byte samples: a trace of N samples has 240 + N bytes. Three traces of 1, -128 and 127.
#[test]
fn reel_of_one_byte_samples() {
    let mut reel = reel_of(8, &[&[0]]);
    reel.truncate(3600);
    reel[3220..3222].copy_from_slice(&3u16.to_be_bytes());
    for trace in 1..=3 {
        let start = reel.len();
        reel.resize(start + 240, 0);
        reel[start..start + 4].copy_from_slice(&[0, 0, 0, trace]);
        reel[start + 68..start + 72].copy_from_slice(&[0xD8, 0xF0, 0xD8, 0xF0]);
        reel[start + 114..start + 118].copy_from_slice(&[0x00, 0x03, 0x07, 0xD0]);
        reel.extend([0x01, 0x80, 0x7F]);
    }
    assert_eq!(reel.len(), 3600 + 3 * 243);
    counted(&reel, 3, 3, 0);
    for trace in 1..=3 {
        assert_eq!(look_up(&reel, trace, 1), Ok(trace as i32));
    }
    let mut record = [0xA5; 3885];
    assert!(read_reel(&reel, &mut record).is_ok());
    for trace in 0..3 {
        let pairs = 3266 + 204 * trace + 186;
        let held = [pair(0, 1), pair(7, -1), pair(0, 127)].concat();
        assert_eq!(record[pairs..pairs + 18], held);
    }
    for (code, length) in [(1, 252), (2, 252), (3, 246), (4, 252), (5, 252), (8, 243)] {
        let mut out = vec![0xA5; 3600 + 3 * length];
        let taken = Taken {
            traces: 3,
            samples: 3,
            length: out.len() as u64,
        };
        assert_eq!(write_reel(&record, code, &mut out), Ok(taken));
        if code == 8 {
            assert_eq!(out, reel);
        }
        let mut again = [0xA5; 3885];
        assert!(read_reel(&out, &mut again).is_ok());
        assert_eq!(again, record, "code {code}");
    }
    reel.push(0);
    assert_eq!(read_reel(&reel, &mut record), refused(5, 3600 + 3 * 243));
    reel.truncate(3600 + 3 * 243 - 1);
    assert_eq!(read_reel(&reel, &mut record), refused(5, 3600 + 2 * 243));
}

/// The first word without a value is refused by 19 at its own place, wherever it stands, by reading and
/// by look-up alike; and so is the first of several.
#[test]
fn words_without_a_value_on_a_reel() {
    let one = 0x3F80_0000;
    for bits in [
        0x7F80_0000,
        0xFF80_0000,
        0x7F80_0001,
        0x7FC0_0000,
        0x7FFF_FFFF,
        0xFFFF_FFFF,
    ] {
        for trace in 0..3 {
            for sample in 0..3 {
                let mut words = [[one; 3]; 3];
                words[trace][sample] = bits;
                for (later_trace, later_sample) in
                    [(trace, sample), (trace, 2), (2, sample), (2, 2)]
                {
                    words[later_trace][later_sample] = bits;
                    let traces: Vec<&[u32]> = words.iter().map(|words| &words[..]).collect();
                    let reel = reel_of(5, &traces);
                    let place = 3600 + 252 * trace + 240 + 4 * sample;
                    let mut out = [0xA5; 4000];
                    for room in [0, 4000] {
                        assert_eq!(read_reel(&reel, &mut out[..room]), refused(19, place));
                    }
                    assert!(out.iter().all(|&byte| byte == 0xA5));
                    for (trace, byte) in [(0, 3217), (1, 115), (3, 1), (4, 1), (1, 2)] {
                        assert_eq!(look_up(&reel, trace, byte), refused(19, place));
                    }
                    // Under the other codes these bytes are samples like others; under code 4 the
                    // first byte of the first word isn't 00.
                    counted(&reel_of(1, &traces), 3, 3, 0);
                    counted(&reel_of(2, &traces), 3, 3, 0);
                    counted(&reel_of(8, &traces), 3, 12, 0);
                    let gains = reel_of(4, &traces);
                    assert_eq!(read_reel(&gains, &mut out), refused(9, 3840));
                }
            }
        }
    }
}

#[test]
fn fields_of_the_example() {
    let reel = example();
    assert_eq!(look_up(&reel, 0, 3217), Ok(2000));
    assert_eq!(look_up(&reel, 0, 3225), Ok(1));
    assert_eq!(look_up(&reel, 1, 115), Ok(2));
    assert_eq!(look_up(&reel, 1, 117), Ok(2000));
    assert_eq!(look_up(&reel, 1, 179), Ok(0));
    assert_eq!(look_up(&reel, 1, 181), refused(16, 0));
    assert_eq!(look_up(&reel, 1, 3201), refused(16, 0));
    assert_eq!(look_up(&reel, 0, 1), refused(16, 0));
    assert_eq!(look_up(&reel, 2, 0), refused(15, 0));
}

#[test]
fn counts_of_assigned_fields() {
    assert_eq!((0..4000).filter_map(binary_field).count(), 27);
    assert_eq!(
        (0..4000).filter_map(binary_field).sum::<usize>(),
        BINARY_FIELDS
    );
    assert_eq!((0..4000).filter_map(trace_field).count(), 71);
    assert_eq!(
        (0..4000).filter_map(trace_field).sum::<usize>(),
        TRACE_FIELDS
    );
}

/// Words that are not normal, of every kind: zeros other than 00000000, then a characteristic above 0
/// with 1 to 5 digits 0 at the front of the fraction; with their pairs.
const NOT_NORMAL: [(u32, i16, i32); 31] = [
    (0x8000_0000, 0, 0),
    (0x0100_0000, 0, 0),
    (0x8100_0000, 0, 0),
    (0x4000_0000, 0, 0),
    (0x4100_0000, 0, 0),
    (0xC100_0000, 0, 0),
    (0x7F00_0000, 0, 0),
    (0xFF00_0000, 0, 0),
    (0x0100_0001, -276, 1),
    (0x8100_0001, -276, -1),
    (0x0100_0010, -272, 1),
    (0x0108_0000, -257, 1),
    (0x010F_FFFF, -276, 1_048_575),
    (0x0200_0001, -272, 1),
    (0x0500_0001, -260, 1),
    (0x0600_0001, -256, 1),
    (0x4000_0001, -24, 1),
    (0x410F_FFFF, -20, 1_048_575),
    (0x4101_0000, -4, 1),
    (0x4100_FFFF, -20, 65_535),
    (0x4100_0FFF, -20, 4_095),
    (0x4100_00FF, -20, 255),
    (0x4100_000F, -20, 15),
    (0x4201_0000, 0, 1),
    (0xC201_0000, 0, -1),
    (0xC20F_FFFF, -16, -1_048_575),
    (0x4600_0001, 0, 1),
    (0x7F00_0001, 228, 1),
    (0xFF00_0001, 228, -1),
    (0x7F0F_FFFF, 228, 1_048_575),
    (0xFF08_0000, 247, -1),
];

/// Normal words: 00000000, any other fraction where the characteristic is 0, and a first digit above 0.
const NORMAL: [(u32, i16, i32); 24] = [
    (0x0000_0000, 0, 0),
    (0x0000_0001, -280, 1),
    (0x8000_0001, -280, -1),
    (0x0000_000F, -280, 15),
    (0x0000_0010, -276, 1),
    (0x0001_0000, -264, 1),
    (0x8008_0000, -261, -1),
    (0x000F_FFFF, -280, 1_048_575),
    (0x800F_FFFF, -280, -1_048_575),
    (0x0010_0000, -260, 1),
    (0x80FF_FFFF, -280, -16_777_215),
    (0x0110_0000, -256, 1),
    (0x8110_0000, -256, -1),
    (0x0110_0001, -276, 1_048_577),
    (0x4110_0000, 0, 1),
    (0xC110_0000, 0, -1),
    (0x411F_FFFF, -20, 2_097_151),
    (0x4180_0000, 3, 1),
    (0xC1F0_0000, 0, -15),
    (0xC276_A000, -3, -949),
    (0x46FF_FFFF, 0, 16_777_215),
    (0x471F_FFFF, 4, 2_097_151),
    (0x7F10_0000, 248, 1),
    (0xFFFF_FFFF, 228, -16_777_215),
];

#[test]
fn words_normal_and_not() {
    for (bits, exponent, mantissa) in NOT_NORMAL {
        reads_not_normal(bits, exponent, mantissa);
        assert_ne!(
            write_pair(1, pair(exponent, mantissa)),
            Ok(word(bits)),
            "{bits:08X}"
        );
    }
    for (bits, exponent, mantissa) in NORMAL {
        reads(1, bits, exponent, mantissa);
        writes(1, exponent, mantissa, bits);
    }
}

/// No word of another code counts. A gain word begins with 00, and so is none of those.
#[test]
fn words_of_other_codes() {
    for (bits, _, _) in NOT_NORMAL.into_iter().chain(NORMAL) {
        for code in [2, 3, 8] {
            let read = read_word(code, word(bits)).expect("any word is taken");
            assert!(!read.not_normal, "{bits:08X}");
        }
        let gain = read_word(4, word(bits & 0x00FF_FFFF)).expect("the first byte is 00");
        assert!(!gain.not_normal, "{bits:08X}");
        match read_word(5, word(bits)) {
            Ok(read) => assert!(!read.not_normal, "{bits:08X}"),
            said => assert_eq!(said, refused(19, 0), "{bits:08X}"),
        }
    }
    for (bits, _, _) in NOT_NORMAL {
        assert_eq!(read_word(4, word(bits)), refused(9, 0), "{bits:08X}");
    }
}

/// The exact value of an IBM word, times 16^70 and without its sign, in hexadecimal digits: those of
/// the fraction, and behind them as many zeros as the characteristic says.
fn digits_of_value(bits: u32) -> [u8; 133] {
    let mut digits = [0; 133];
    let first = 127 - (bits >> 24 & 0x7F) as usize;
    for (place, digit) in digits[first..first + 6].iter_mut().enumerate() {
        *digit = (bits >> (20 - 4 * place) & 0xF) as u8;
    }
    digits
}

/// The normal word of a word's value, by trying every characteristic.
fn normal_by_search(bits: u32) -> u32 {
    let value = digits_of_value(bits);
    if value == [0; 133] {
        return 0x0000_0000;
    }
    let sign = bits & 0x8000_0000;
    let mut normal = Vec::new();
    for characteristic in 0..=127 {
        let (before, rest) = value.split_at(127 - characteristic);
        let (fraction, after) = rest.split_at(6);
        let has_the_value = before.iter().chain(after).all(|&digit| digit == 0);
        if has_the_value && (fraction[0] != 0 || characteristic == 0) {
            let fraction = fraction
                .iter()
                .fold(0, |number, &digit| number << 4 | u32::from(digit));
            normal.push(sign | (characteristic as u32) << 24 | fraction);
        }
    }
    assert_eq!(
        normal.len(),
        1,
        "{bits:08X} has the normal words {normal:08X?}"
    );
    normal[0]
}

/// Fractions of every count of leading zero digits: 0; each digit at each place, with 0, F, or any
/// digits behind it.
fn fractions() -> Vec<u32> {
    let mut fractions = vec![0];
    let mut state = 1975u32;
    for place in 0..6 {
        let behind = (1 << (4 * place)) - 1;
        for digit in 1..=15 {
            state = state.wrapping_mul(1_664_525).wrapping_add(1_013_904_223);
            let any = state >> 8 & behind;
            for low in [0, 1 & behind, any, behind] {
                fractions.push(digit << (4 * place) | low);
            }
        }
    }
    fractions
}

/// Whether a word is normal, by document 01's sentence in `is_normal`, is whether it is the normal word
/// of its value, found by search; and writing gives that word.
#[test]
fn normal_words_by_search() {
    let mut counts = [0; 2];
    for first in 0..=255 {
        for fraction in fractions() {
            let bits = first << 24 | fraction;
            let normal = normal_by_search(bits);
            let read = read_word(1, word(bits)).expect("any word is taken");
            assert_eq!(read.not_normal, bits != normal, "{bits:08X}");
            assert_eq!(write_pair(1, read.pair), Ok(word(normal)), "{bits:08X}");
            counts[usize::from(read.not_normal)] += 1;
        }
    }
    // Of the 361 fractions 60 begin with another digit than 0, and 300 others aren't 0.
    assert_eq!(counts, [1 + 256 * 60 + 2 * 300, 255 + 254 * 300]);
}

/// A reel of 32-bit words, trace by trace: under code 3 each is two samples, under code 8 four.
fn reel_of(code: u16, traces: &[&[u32]]) -> Vec<u8> {
    let in_a_word = match code {
        3 => 2,
        8 => 4,
        _ => 1,
    };
    let samples = traces[0].len() as u16 * in_a_word;
    let mut reel = example();
    reel.truncate(3600);
    reel[3220..3222].copy_from_slice(&samples.to_be_bytes());
    reel[3224..3226].copy_from_slice(&code.to_be_bytes());
    for words in traces {
        reel.resize(reel.len() + 240, 0);
        for &bits in *words {
            reel.extend(word(bits));
        }
    }
    reel
}

/// The length of the record that reading gives: a trace has a sample field for each 6,000 of its samples
/// that are begun.
fn length_read(traces: u64, samples: u64) -> u64 {
    3273 + traces * (183 + 3 * samples.div_ceil(6_000) + 6 * samples)
}

/// What reading a reel answers where it is taken, and where the output is one byte too short.
fn counted(reel: &[u8], traces: u64, samples: u64, not_normal: u64) {
    let length = length_read(traces, samples);
    let mut out = vec![0xA5; length as usize];
    let read = ReelRead {
        traces,
        samples,
        length,
        not_normal,
    };
    assert_eq!(read_reel(reel, &mut out[1..]), refused(10, length as usize));
    assert_eq!(read_reel(reel, &mut out), Ok(read));
}

#[test]
fn words_of_a_reel_are_counted() {
    let odd = 0x4201_0000;
    let one = 0x4110_0000;
    for (traces, not_normal) in [
        ([[one, one, one], [one, one, one], [one, one, one]], 0),
        ([[odd, one, one], [one, one, one], [one, one, one]], 1),
        ([[one, one, odd], [one, one, one], [one, one, one]], 1),
        ([[one, one, one], [one, odd, one], [one, one, one]], 1),
        ([[one, one, one], [one, one, one], [odd, one, one]], 1),
        ([[one, one, one], [one, one, one], [one, one, odd]], 1),
        ([[one, odd, one], [one, one, one], [odd, one, odd]], 3),
        ([[odd, one, odd], [odd, one, odd], [odd, one, odd]], 6),
        ([[odd, odd, odd], [odd, odd, odd], [odd, odd, odd]], 9),
    ] {
        let traces: Vec<&[u32]> = traces.iter().map(|words| &words[..]).collect();
        counted(&reel_of(1, &traces), 3, 3, not_normal);
        counted(&reel_of(2, &traces), 3, 3, 0);
        counted(&reel_of(3, &traces), 3, 6, 0);
        counted(&reel_of(5, &traces), 3, 3, 0);
        counted(&reel_of(8, &traces), 3, 12, 0);
    }
}

/// Every kind of word, all in one trace, and each alone in a trace.
#[test]
fn words_of_every_kind_are_counted() {
    let not_normal = NOT_NORMAL.map(|(bits, _, _)| bits);
    let normal = NORMAL.map(|(bits, _, _)| bits);
    counted(&reel_of(1, &[&not_normal]), 1, 31, 31);
    counted(&reel_of(1, &[&normal]), 1, 24, 0);
    counted(&reel_of(2, &[&not_normal]), 1, 31, 0);
    counted(&reel_of(3, &[&not_normal]), 1, 62, 0);
    let alone: Vec<&[u32]> = not_normal.chunks(1).chain(normal.chunks(1)).collect();
    counted(&reel_of(1, &alone), 55, 1, 31);
    counted(&reel_of(2, &alone), 55, 1, 0);
    counted(&reel_of(3, &alone), 55, 2, 0);
    counted(&reel_of(8, &alone), 55, 4, 0);
    counted(&reel_of(1, &[&[0x4201_0000; 32_767]]), 1, 32_767, 32_767);
}

/// The listing of the example, whose cards are all blanks.
fn blank_listing() -> Vec<u8> {
    let mut listing = Vec::new();
    for _ in 0..40 {
        listing.resize(listing.len() + 80, 0x20);
        listing.push(0x0A);
    }
    listing
}

/// Codes and characters, as Unicode's CP037.TXT pairs them: the ends of the rows of letters and
/// digits, the signs that other EBCDIC pages have elsewhere, and controls.
const PAIRED: [(u8, u8); 36] = [
    (0xC1, b'A'),
    (0xC9, b'I'),
    (0xD1, b'J'),
    (0xD9, b'R'),
    (0xE2, b'S'),
    (0xE9, b'Z'),
    (0x81, b'a'),
    (0x89, b'i'),
    (0x91, b'j'),
    (0x99, b'r'),
    (0xA2, b's'),
    (0xA9, b'z'),
    (0xF0, b'0'),
    (0xF9, b'9'),
    (0x40, b' '),
    (0x4B, b'.'),
    (0x60, b'-'),
    (0x61, b'/'),
    (0x7A, b':'),
    (0x4F, b'|'),
    (0x5A, b'!'),
    (0xB0, b'^'),
    (0xBA, b'['),
    (0xBB, b']'),
    (0xE0, b'\\'),
    (0x4A, 0xA2),
    (0x5F, 0xAC),
    (0x00, 0x00),
    (0x05, 0x09),
    (0x0D, 0x0D),
    (0x15, 0x85),
    (0x25, 0x0A),
    (0x37, 0x04),
    (0x3F, 0x1A),
    (0x41, 0xA0),
    (0xFF, 0x9F),
];

#[test]
fn characters_of_the_page() {
    for (code, character) in PAIRED {
        assert_eq!(page::CHARACTERS[code as usize], character, "{code:02X}");
        assert_eq!(page::CODES[character as usize], code, "{character:02X}");
    }
    for character in 0..=255 {
        let entries = page::CHARACTERS.iter().filter(|&&entry| entry == character);
        assert_eq!(entries.count(), 1, "{character:02X}");
    }
}

#[test]
fn example_is_listed() {
    let mut out = [0xA5; 3300];
    assert_eq!(list_cards(&example_record(), &mut out), Ok(3240));
    assert_eq!(out[..3240], blank_listing());
    assert!(out[3240..].iter().all(|&byte| byte == 0xA5));
}

/// The example with text at the front of card 1, the end of card 2 and the end of card 40. Card 2
/// has a line feed, 25, and a next line, 15.
fn written_record() -> Vec<u8> {
    let mut record = example_record();
    record[3..13].copy_from_slice(&[0xC3, 0x40, 0xF1, 0x40, 0xC3, 0xD3, 0xC9, 0xC5, 0xD5, 0xE3]);
    record[159..163].copy_from_slice(&[0x25, 0x0D, 0x15, 0x5A]);
    record[3200..3203].copy_from_slice(&[0xC5, 0xD5, 0xC4]);
    record
}

/// Its listing: a line is one byte longer than a card, so card 2 ends at 160 and card 40 at 3238.
fn written_listing() -> Vec<u8> {
    let mut listing = blank_listing();
    listing[..10].copy_from_slice(b"C 1 CLIENT");
    listing[157..161].copy_from_slice(&[0x0A, 0x0D, 0x85, 0x21]);
    listing[3236..3239].copy_from_slice(b"END");
    listing
}

#[test]
fn text_is_listed_and_taken_back() {
    let mut out = [0xA5; 3240];
    assert_eq!(list_cards(&written_record(), &mut out), Ok(3240));
    assert_eq!(out[..], written_listing());

    let mut out = [0xA5; 3500];
    let taken = Taken {
        traces: 1,
        samples: 2,
        length: 3471,
    };
    for record in [written_record(), example_record()] {
        out.fill(0xA5);
        assert_eq!(take_cards(&record, &written_listing(), &mut out), Ok(taken));
        assert_eq!(out[..3471], written_record());
        assert!(out[3471..].iter().all(|&byte| byte == 0xA5));
    }
    assert_eq!(
        take_cards(&written_record(), &blank_listing(), &mut out[..3471]),
        Ok(taken)
    );
    assert_eq!(out[..3471], example_record());
}

#[test]
fn character_00_becomes_a_blank() {
    let mut listing = written_listing();
    listing[0] = 0x00;
    listing[3238] = 0x00;
    let mut record = written_record();
    record[3] = 0x40;
    record[3202] = 0x40;
    let mut out = [0xA5; 3471];
    assert!(take_cards(&example_record(), &listing, &mut out).is_ok());
    assert_eq!(out[..], record);
}

#[test]
fn listings_of_another_form() {
    let (record, listing) = (written_record(), written_listing());
    let mut longer = listing.clone();
    longer.extend(&listing);
    let mut out = [0xA5; 3500];
    for length in [0, 1, 80, 81, 3159, 3239, 3241, 3321, 6480] {
        assert_eq!(
            take_cards(&record, &longer[..length], &mut out),
            refused(17, length)
        );
    }
    for (ends, first) in [
        (&[80][..], 80),
        (&[161], 161),
        (&[3239], 3239),
        (&[3239, 242, 1700], 242),
    ] {
        for other in [0x00, 0x0D, 0x15, 0x20, 0x25, 0x85, 0x8A] {
            let mut wrong = listing.clone();
            for &end in ends {
                wrong[end] = other;
            }
            assert_eq!(take_cards(&record, &wrong, &mut out), refused(17, first));
        }
    }
    assert!(out.iter().all(|&byte| byte == 0xA5));
}

#[test]
fn causes_of_listings_in_order() {
    let (record, listing) = (written_record(), written_listing());
    let mut wrong_form = record.clone();
    wrong_form[3203] = 0x03;
    let mut wrong_number = record.clone();
    wrong_number[3202] = 0x00;
    let mut wrong_end = listing.clone();
    wrong_end[80] = 0x0D;
    let mut short_and_wrong = wrong_end.clone();
    short_and_wrong.pop();

    let mut out = [0xA5; 3470];
    assert_eq!(list_cards(&wrong_form, &mut out[..0]), refused(12, 3203));
    assert_eq!(list_cards(&wrong_number, &mut out[..0]), refused(13, 3202));
    assert_eq!(list_cards(&record, &mut out[..0]), refused(10, 3240));
    assert_eq!(list_cards(&record, &mut out[..3239]), refused(10, 3240));
    for (record, listing, cause) in [
        (&wrong_form, &short_and_wrong, refused(12, 3203)),
        (&wrong_number, &wrong_end, refused(13, 3202)),
        (&record, &short_and_wrong, refused(17, 3239)),
        (&record, &wrong_end, refused(17, 80)),
        (&record, &listing, refused(10, 3471)),
    ] {
        assert_eq!(take_cards(record, listing, &mut out), cause);
        assert_eq!(take_cards(record, listing, &mut out[..0]), cause);
    }
    assert!(out.iter().all(|&byte| byte == 0xA5));
}

/// A valid record may hold a sample that fits no code: its pair is the last before tag 05.
#[test]
fn samples_need_not_fit_a_code() {
    let mut record = written_record();
    record[3458..3464].copy_from_slice(&pair(251, 3));
    let mut out = [0xA5; 3471];
    assert_eq!(list_cards(&record, &mut out), Ok(3240));
    assert!(take_cards(&record, &written_listing(), &mut out).is_ok());
    assert_eq!(out[..], record);
    record[3458..3464].copy_from_slice(&pair(0, 2));
    assert_eq!(list_cards(&record, &mut out), refused(13, 3458));
}

/// A scalar and its numbers: fields 41 to 65, and fields 73 to 85.
type Elevations = (i16, [i32; 7]);
type Coordinates = (i16, [i32; 4]);

const NO_ELEVATIONS: Elevations = (-10_000, [0; 7]);
const NO_COORDINATES: Coordinates = (-10_000, [0; 4]);

const SCALARS: [i16; 11] = [0, 1, -1, 10, -10, 100, -100, 1_000, -1_000, 10_000, -10_000];

/// Where a trace header begins on the reel of the example, and in its record.
const ON_REEL: usize = 3600;
const IN_RECORD: usize = 3269;

fn put_groups(header: &mut [u8], elevations: Elevations, coordinates: Coordinates) {
    for (i, number) in elevations.1.into_iter().enumerate() {
        header[40 + 4 * i..44 + 4 * i].copy_from_slice(&number.to_be_bytes());
    }
    for (i, number) in coordinates.1.into_iter().enumerate() {
        header[72 + 4 * i..76 + 4 * i].copy_from_slice(&number.to_be_bytes());
    }
    header[68..70].copy_from_slice(&elevations.0.to_be_bytes());
    header[70..72].copy_from_slice(&coordinates.0.to_be_bytes());
}

fn reel_with(elevations: Elevations, coordinates: Coordinates) -> Vec<u8> {
    let mut reel = example();
    put_groups(&mut reel[ON_REEL..], elevations, coordinates);
    reel
}

fn record_with(elevations: Elevations, coordinates: Coordinates) -> Vec<u8> {
    let mut record = example_record();
    put_groups(&mut record[IN_RECORD..], elevations, coordinates);
    record
}

/// The example with these elevations and coordinates is read as its record with those, and the reel
/// that is written from it has those as they stand, and gives the record again.
fn held_as(reel: (Elevations, Coordinates), held: (Elevations, Coordinates)) {
    let record = record_with(held.0, held.1);
    let mut out = [0xA5; 3471];
    assert!(read_reel(&reel_with(reel.0, reel.1), &mut out).is_ok());
    assert_eq!(out[..], record, "{reel:?}");

    let mut filled = reel_with(held.0, held.1);
    filled[ON_REEL + 114..ON_REEL + 118].copy_from_slice(&[0x00, 0x02, 0x07, 0xD0]);
    let mut written = [0xA5; 3848];
    assert!(write_reel(&record, 1, &mut written).is_ok());
    assert_eq!(written[..], filled, "{held:?}");
    assert!(read_reel(&written, &mut out).is_ok());
    assert_eq!(out[..], record, "{held:?}");
}

/// One number other than 0, in each field of either group.
fn number_held_as(scalar: i16, number: i32, held_scalar: i16, held_number: i32) {
    for field in 0..7 {
        let (mut reel, mut held) = ([0; 7], [0; 7]);
        (reel[field], held[field]) = (number, held_number);
        held_as(
            ((scalar, reel), NO_COORDINATES),
            ((held_scalar, held), NO_COORDINATES),
        );
    }
    for field in 0..4 {
        let (mut reel, mut held) = ([0; 4], [0; 4]);
        (reel[field], held[field]) = (number, held_number);
        held_as(
            (NO_ELEVATIONS, (scalar, reel)),
            (NO_ELEVATIONS, (held_scalar, held)),
        );
    }
}

#[test]
fn one_survey_under_several_scalars() {
    for (scalar, number) in [
        (-10, 1_000),
        (-100, 10_000),
        (-1_000, 100_000),
        (-10_000, 1_000_000),
        (0, 100),
        (1, 100),
        (-1, 100),
        (10, 10),
        (100, 1),
    ] {
        number_held_as(scalar, number, -10_000, 1_000_000);
    }
}

#[test]
fn zeros_take_the_smallest_power() {
    for scalar in SCALARS {
        number_held_as(scalar, 0, -10_000, 0);
    }
}

/// 7 has room for eight zeros, the most that any scalar asks for.
#[test]
fn every_allowed_scalar() {
    for (scalar, number) in [
        (-10_000, 7),
        (-1_000, 70),
        (-100, 700),
        (-10, 7_000),
        (-1, 70_000),
        (0, 70_000),
        (1, 70_000),
        (10, 700_000),
        (100, 7_000_000),
        (1_000, 70_000_000),
        (10_000, 700_000_000),
    ] {
        number_held_as(scalar, 7, -10_000, number);
        number_held_as(scalar, -7, -10_000, -number);
    }
}

/// A number that can't take a zero stays, with its own scalar; 0 and -1 are 1.
#[test]
fn ends_of_the_numbers() {
    for scalar in SCALARS {
        let held = if matches!(scalar, 0 | -1) { 1 } else { scalar };
        for number in [i32::MAX, i32::MIN, 214_748_365, -214_748_365] {
            number_held_as(scalar, number, held, number);
        }
    }
}

#[test]
fn zeros_as_many_as_fit() {
    for sign in [1, -1] {
        for (scalar, number, held_scalar, held_number) in [
            (1, 214_748_364, -10, 2_147_483_640),
            (1, 214_748_365, 1, 214_748_365),
            (1, 21_474_836, -100, 2_147_483_600),
            (1, 21_474_837, -10, 214_748_370),
            (1, 2_147_483, -1_000, 2_147_483_000),
            (1, 2_147_484, -100, 214_748_400),
            (1, 214_748, -10_000, 2_147_480_000),
            (1, 214_749, -1_000, 214_749_000),
            (10_000, 214_748_364, 1_000, 2_147_483_640),
            (10_000, 214_748, 1, 2_147_480_000),
            (10_000, 214_749, 10, 214_749_000),
            (10_000, 21, -10_000, 2_100_000_000),
            (10_000, 22, -1_000, 220_000_000),
            (-1_000, 214_748_364, -10_000, 2_147_483_640),
            (-1_000, 214_748_365, -1_000, 214_748_365),
            (-10_000, 214_748_364, -10_000, 214_748_364),
            (-10_000, 1, -10_000, 1),
        ] {
            number_held_as(scalar, sign * number, held_scalar, sign * held_number);
        }
    }
}

/// The longest number sets a group's power, and no other group's.
#[test]
fn numbers_of_several_sizes() {
    held_as(
        ((1, [1, -1, 0, 214_748_364, 20, 300, 4_000]), (1, [1; 4])),
        (
            (-10, [10, -10, 0, 2_147_483_640, 200, 3_000, 40_000]),
            (-10_000, [10_000; 4]),
        ),
    );
    held_as(
        ((-100, [5; 7]), (100, [100, 2_000_000, -2_147_483, 7])),
        (
            (-10_000, [500; 7]),
            (-10, [100_000, 2_000_000_000, -2_147_483_000, 7_000]),
        ),
    );
    held_as(
        (
            (0, [0, 0, 0, 0, 0, 0, i32::MIN]),
            (-1, [214_748_365, 1, 1, 1]),
        ),
        (
            (1, [0, 0, 0, 0, 0, 0, i32::MIN]),
            (1, [214_748_365, 1, 1, 1]),
        ),
    );
    held_as(
        (
            (10, [90, 80, 70, 60, 50, 40, 30]),
            (10_000, [0, -214_749, 0, 3]),
        ),
        (
            (
                -10_000,
                [
                    9_000_000, 8_000_000, 7_000_000, 6_000_000, 5_000_000, 4_000_000, 3_000_000,
                ],
            ),
            (10, [0, -214_749_000, 0, 3_000]),
        ),
    );
}

/// The fields beside the groups: 37, 89 and all others.
#[test]
fn other_fields_stay_bare() {
    let mut reel = reel_with((100, [1; 7]), (100, [1; 4]));
    for offset in (0..180).filter(|&offset| !(40..88).contains(&offset)) {
        reel[ON_REEL + offset] = 1 + offset as u8;
    }
    reel[ON_REEL + 114..ON_REEL + 118].copy_from_slice(&[0x00, 0x02, 0x07, 0xD0]);
    let mut record = record_with((-10_000, [1_000_000; 7]), (-10_000, [1_000_000; 4]));
    record[IN_RECORD..IN_RECORD + 40].copy_from_slice(&reel[ON_REEL..ON_REEL + 40]);
    record[IN_RECORD + 88..IN_RECORD + 180].copy_from_slice(&reel[ON_REEL + 88..ON_REEL + 180]);
    let mut out = [0xA5; 3471];
    assert!(read_reel(&reel, &mut out).is_ok());
    assert_eq!(out[..], record);
}

#[test]
fn each_trace_has_its_own_powers() {
    let mut reel = reel_with((1, [i32::MAX; 7]), (10, [3; 4]));
    let second = reel_with((10, [3; 7]), (1, [i32::MAX; 4]));
    reel.extend(&second[ON_REEL..]);
    let mut out = [0xA5; 3669];
    assert!(read_reel(&reel, &mut out).is_ok());
    let first = record_with((1, [i32::MAX; 7]), (-10_000, [300_000; 4]));
    let second = record_with((-10_000, [300_000; 7]), (1, [i32::MAX; 4]));
    assert_eq!(out[3266..3464], first[3266..3464]);
    assert_eq!(out[3464..3662], second[3266..3464]);
}

#[test]
fn scalars_that_no_reel_has() {
    let mut out = [0xA5; 3471];
    let (mut elevations, mut coordinates) = (0, 0);
    for scalar in i16::MIN..=i16::MAX {
        let allowed = SCALARS.contains(&scalar);
        let reel = reel_with((scalar, [1; 7]), (10, [1; 4]));
        let said = read_reel(&reel, &mut out[..0]);
        if allowed {
            elevations += 1;
            assert_eq!(said, refused(10, 3471));
            assert_eq!(look_up(&reel, 1, 69), Ok(i32::from(scalar)));
        } else {
            assert_eq!(said, refused(18, 3668));
            assert_eq!(look_up(&reel, 1, 69), refused(18, 3668));
        }
        let reel = reel_with((10, [1; 7]), (scalar, [1; 4]));
        let said = read_reel(&reel, &mut out[..0]);
        if allowed {
            coordinates += 1;
            assert_eq!(said, refused(10, 3471));
            assert_eq!(look_up(&reel, 1, 71), Ok(i32::from(scalar)));
        } else {
            assert_eq!(said, refused(18, 3670));
            assert_eq!(look_up(&reel, 0, 3217), refused(18, 3670));
        }
    }
    assert_eq!((elevations, coordinates), (11, 11));
}

/// Bare numbers, 0 and -1 as they stand on the reel.
#[test]
fn look_up_gives_bare_numbers() {
    for (first, second) in [(0, -1), (-1, 0), (-100, 10_000), (1, 1)] {
        let elevations = (first, [1, -2, 3, i32::MAX, i32::MIN, 0, 7]);
        let coordinates = (second, [-1, 20, 0, i32::MIN]);
        let reel = reel_with(elevations, coordinates);
        for (i, number) in elevations.1.into_iter().enumerate() {
            assert_eq!(look_up(&reel, 1, 41 + 4 * i as u32), Ok(number));
        }
        for (i, number) in coordinates.1.into_iter().enumerate() {
            assert_eq!(look_up(&reel, 1, 73 + 4 * i as u32), Ok(number));
        }
        assert_eq!(look_up(&reel, 1, 69), Ok(i32::from(first)));
        assert_eq!(look_up(&reel, 1, 71), Ok(i32::from(second)));
    }
}

/// 7, 8, 18 for field 69, 18 for field 71, then 9 for gain words and 19 for IEEE words; trace by trace.
/// The second trace has every cause at first.
#[test]
fn causes_of_a_trace_in_order() {
    causes_in_order(4, [0x01, 0x00, 0x00, 0x00], 9);
    causes_in_order(5, [0xFF, 0x80, 0x00, 0x00], 19);
}

/// The last cause of a trace is that of its first word, which is this one.
fn causes_in_order(code: u8, wrong: [u8; 4], last: u64) {
    let mut reel = example();
    reel[3224..3226].copy_from_slice(&[0x00, code]);
    reel[3840..3848].fill(0);
    let trace = reel[3600..].to_vec();
    reel.extend(&trace);
    reel.extend(&trace);
    let start = 3848;
    reel[start + 114..start + 118].copy_from_slice(&[0x00, 0x03, 0x00, 0x03]);
    reel[start + 68..start + 72].copy_from_slice(&[0x00, 0x07, 0x00, 0x02]);
    reel[start + 240..start + 244].copy_from_slice(&wrong);
    reel[start + 248 + 68] = 0x01;

    let mut out = [0xA5; 4000];
    for (cause, mended) in [
        (refused(7, start + 114), 114..116),
        (refused(8, start + 116), 116..118),
        (refused(18, start + 68), 68..70),
        (refused(18, start + 70), 70..72),
        (refused(last, start + 240), 240..244),
        (refused(18, start + 248 + 68), 248 + 68..248 + 70),
    ] {
        for room in [0, 4000] {
            assert_eq!(read_reel(&reel, &mut out[..room]), cause);
        }
        for (trace, byte) in [(0, 3217), (1, 1), (3, 69), (4, 1), (1, 2)] {
            assert_eq!(look_up(&reel, trace, byte), cause.map(|_| 0));
        }
        reel[start + mended.start..start + mended.end].fill(0);
    }
    assert_eq!(read_reel(&reel, &mut out[..0]), refused(10, 3273 + 3 * 198));
    assert_eq!(look_up(&reel, 4, 1), refused(15, 0));
    reel.push(0);
    reel[start + 68] = 0x01;
    assert_eq!(read_reel(&reel, &mut out), refused(5, 3600 + 3 * 248));
}

/// Of all 65,536 scalars a record takes those at which its numbers stand at the smallest power:
/// -10000 alone where a zero could be added, each of the nine where it couldn't.
#[test]
fn scalars_that_no_record_has() {
    let powers = [-10_000, -1_000, -100, -10, 1, 10, 100, 1_000, 10_000];
    for (number, taken) in [
        (0, &powers[..1]),
        (1, &powers[..1]),
        (-214_748_364, &powers[..1]),
        (214_748_365, &powers),
        (i32::MIN, &powers),
    ] {
        let elevations = [0, 0, number, 0, 0, 0, 0];
        let coordinates = [0, 0, 0, number];
        for scalar in i16::MIN..=i16::MAX {
            let cases = [
                (record_with((scalar, elevations), NO_COORDINATES), 3337),
                (record_with(NO_ELEVATIONS, (scalar, coordinates)), 3339),
            ];
            for (record, place) in cases {
                let cause = if taken.contains(&scalar) {
                    refused(10, 3848)
                } else {
                    refused(13, place)
                };
                assert_eq!(write_reel(&record, 1, &mut []), cause, "{number}, {scalar}");
            }
        }
    }
}

/// One power too large, though the values are whole and fit there; and the other group's numbers
/// don't help.
#[test]
fn groups_that_a_smaller_power_holds() {
    let right = record_with((-10, [2_147_483_640; 7]), (-10, [2_147_483_640; 4]));
    assert_eq!(write_reel(&right, 1, &mut []), refused(10, 3848));
    for (elevations, coordinates, place) in [
        ((1, [214_748_364; 7]), (-10, [2_147_483_640; 4]), 3337),
        ((-10, [2_147_483_640; 7]), (1, [214_748_364; 4]), 3339),
        ((1, [214_748_364; 7]), (1, [214_748_364; 4]), 3337),
        ((-1_000, [0; 7]), (-10, [i32::MAX; 4]), 3337),
        ((-10, [i32::MIN; 7]), (1, [0; 4]), 3339),
    ] {
        let record = record_with(elevations, coordinates);
        let mut out = [0xA5; 3848];
        assert_eq!(write_reel(&record, 1, &mut out), refused(13, place));
        assert_eq!(list_cards(&record, &mut out), refused(13, place));
        assert_eq!(
            take_cards(&record, &blank_listing(), &mut out),
            refused(13, place)
        );
        assert!(out.iter().all(|&byte| byte == 0xA5));
    }
}

/// A record made before CR 2 has the reel's own scalars.
#[test]
fn earlier_records() {
    let earlier = record_with((0, [0; 7]), (0, [0; 4]));
    assert_eq!(write_reel(&earlier, 1, &mut []), refused(13, 3337));
    let earlier = record_with((-10, [1_000; 7]), (1, [441_200; 4]));
    assert_eq!(list_cards(&earlier, &mut []), refused(13, 3337));
}

/// In tag 03 the order is 69, 71, 115, 117; 12 comes before, tag 04 after.
#[test]
fn causes_of_scalars_in_a_record_in_order() {
    let mut record = record_with((0, [1; 7]), (-1, [1; 4]));
    record[IN_RECORD + 114..IN_RECORD + 118].fill(0);
    record[3449] = 0x05;
    let mut wrong_form = record.clone();
    wrong_form[3268] = 0xB5;
    assert_eq!(write_reel(&wrong_form, 1, &mut []), refused(12, 3266));
    assert_eq!(write_reel(&record[..3448], 1, &mut []), refused(12, 3266));
    for (cause, place, right) in [
        (refused(13, 3337), 68, [0xD8, 0xF0]),
        (refused(13, 3339), 70, [0xD8, 0xF0]),
        (refused(13, 3383), 114, [0x00, 0x02]),
        (refused(13, 3385), 116, [0x07, 0xD0]),
    ] {
        assert_eq!(write_reel(&record, 1, &mut []), cause);
        record[IN_RECORD + place..IN_RECORD + place + 2].copy_from_slice(&right);
    }
    assert_eq!(write_reel(&record, 1, &mut []), refused(12, 3449));
    assert_eq!(write_reel(&record, 0, &mut []), refused(11, 0));
}

/// A record of these pairs, trace by trace, its headers the example's: 6,000 pairs to a field.
fn record_of(traces: &[&[[u8; 6]]]) -> Vec<u8> {
    let fields: Vec<Vec<&[[u8; 6]]>> = traces
        .iter()
        .map(|pairs| pairs.chunks(6_000).collect())
        .collect();
    record_of_fields(traces[0].len(), &fields)
}

/// A record whose traces have these sample fields, each of these pairs; its headers are the example's,
/// but for this N.
fn record_of_fields(samples: usize, traces: &[Vec<&[[u8; 6]]>]) -> Vec<u8> {
    let samples = (samples as u16).to_be_bytes();
    let mut record = example_record();
    let mut header = record.split_off(3266);
    header.truncate(183);
    header[3 + 114..3 + 116].copy_from_slice(&samples);
    record[3206 + 20..3206 + 22].copy_from_slice(&samples);
    for fields in traces {
        record.extend(&header);
        for pairs in fields {
            record.push(0x04);
            record.extend((6 * pairs.len() as u16).to_be_bytes());
            record.extend(pairs.concat());
        }
    }
    record.extend([0x05, 0x00, 0x04]);
    record.extend((traces.len() as u32).to_be_bytes());
    record
}

/// The bytes of a sample on a reel.
fn width(code: u32) -> usize {
    match code {
        3 => 2,
        8 => 1,
        _ => 4,
    }
}

/// Nearest writing of these samples, at most 32,767: their words, with 00 behind them under codes 3 and
/// 8, and how many values changed. The output is just long enough.
fn near_words(code: u32, pairs: &[[u8; 6]]) -> (Vec<u32>, u64) {
    let mut out = vec![0xA5; 3840 + pairs.len() * width(code)];
    let written = write_nearest(&record_of(&[pairs]), code, &mut out).expect("a valid record");
    assert_eq!(written.length, out.len() as u64);
    let words = out[3840..].chunks_exact(width(code)).map(|bytes| {
        let mut word = [0; 4];
        word[..bytes.len()].copy_from_slice(bytes);
        u32::from_be_bytes(word)
    });
    (words.collect(), written.changed)
}

/// A sample that doesn't fit the code becomes this word, and counts.
fn becomes(code: u32, exponent: i16, mantissa: i32, bits: u32) {
    let (words, changed) = near_words(code, &[pair(exponent, mantissa)]);
    assert_eq!(
        (words[0], changed),
        (bits, 1),
        "code {code}, e {exponent}, m {mantissa}: {:08X}",
        words[0]
    );
    misfits(code, exponent, mantissa);
}

/// A sample that fits the code gets the word that exact writing gives, and doesn't count.
fn stays(code: u32, exponent: i16, mantissa: i32, bits: u32) {
    let (words, changed) = near_words(code, &[pair(exponent, mantissa)]);
    assert_eq!(
        (words[0], changed),
        (bits, 0),
        "code {code}, e {exponent}, m {mantissa}: {:08X}",
        words[0]
    );
    writes(code, exponent, mantissa, bits);
}

/// The word of a whole number under codes 2, 3 and 8.
fn whole_word(code: u32, number: i64) -> u32 {
    match code {
        2 => number as u32,
        3 => (number as u32) << 16,
        _ => (number as u32) << 24,
    }
}

/// Halves go to the whole number nearer zero, which for -1/2 is written as any zero; all else goes to
/// the nearer one.
#[test]
fn nearest_whole_numbers() {
    for (exponent, mantissa, number) in [
        (-1, 1, 0),
        (-1, 3, 1),
        (-1, 5, 2),
        (-1, 7, 3),
        (-1, 201, 100),
        (-1, 253, 126),
        (-2, 1, 0),
        (-2, 3, 1),
        (-2, 5, 1),
        (-2, 7, 2),
        (-2, 507, 127),
        // A half and the least that pairs have above it and below it, then three halves so.
        (-31, (1 << 30) + 1, 1),
        (-31, (1 << 30) - 1, 0),
        (-29, (3 << 28) + 1, 2),
        (-29, (3 << 28) - 1, 1),
        (-31, i32::MAX, 1),
        (-32, i32::MAX, 0),
        (-280, 1, 0),
        (-280, i32::MAX, 0),
    ] {
        for code in [2, 3, 8] {
            becomes(code, exponent, mantissa, whole_word(code, number));
            becomes(code, exponent, -mantissa, whole_word(code, -number));
        }
    }
    for number in [0, 1, -1, 63, -63, 127, -127] {
        for code in [2, 3, 8] {
            stays(code, 0, number, whole_word(code, i64::from(number)));
        }
    }
}

/// Beyond the largest number and below the least, by however much, it is that number.
#[test]
fn ends_of_whole_numbers() {
    stays(2, 0, i32::MAX, 0x7FFF_FFFF);
    stays(2, 0, -i32::MAX, 0x8000_0001);
    stays(2, 31, -1, 0x8000_0000);
    becomes(2, 31, 1, 0x7FFF_FFFF);
    becomes(2, 1, (1 << 30) + 1, 0x7FFF_FFFF);
    becomes(2, 1, -(1 << 30) - 1, 0x8000_0000);
    becomes(2, 32, 1, 0x7FFF_FFFF);
    becomes(2, 32, -1, 0x8000_0000);
    becomes(2, -1, i32::MAX, 0x3FFF_FFFF);
    becomes(2, -1, -i32::MAX, 0xC000_0001);

    // 32,767 and 1/4, 1/2, 3/4, 1 and 2 more; below zero 5/4 and 3/2 as well; then 32,766.5.
    stays(3, 0, 32_767, 0x7FFF_0000);
    becomes(3, -2, 131_069, 0x7FFF_0000);
    becomes(3, -1, 65_535, 0x7FFF_0000);
    becomes(3, -2, 131_071, 0x7FFF_0000);
    becomes(3, 15, 1, 0x7FFF_0000);
    becomes(3, 0, 32_769, 0x7FFF_0000);
    becomes(3, -2, -131_069, 0x8001_0000);
    becomes(3, -1, -65_535, 0x8001_0000);
    becomes(3, -2, -131_071, 0x8000_0000);
    stays(3, 15, -1, 0x8000_0000);
    becomes(3, -2, -131_073, 0x8000_0000);
    becomes(3, -1, -65_537, 0x8000_0000);
    becomes(3, 0, -32_769, 0x8000_0000);
    becomes(3, -1, 65_533, 0x7FFE_0000);
    becomes(3, -1, -65_533, 0x8002_0000);

    // The same about 127.
    stays(8, 0, 127, 0x7F00_0000);
    becomes(8, -2, 509, 0x7F00_0000);
    becomes(8, -1, 255, 0x7F00_0000);
    becomes(8, -2, 511, 0x7F00_0000);
    becomes(8, 7, 1, 0x7F00_0000);
    becomes(8, 0, 129, 0x7F00_0000);
    becomes(8, -2, -509, 0x8100_0000);
    becomes(8, -1, -255, 0x8100_0000);
    becomes(8, -2, -511, 0x8000_0000);
    stays(8, 7, -1, 0x8000_0000);
    becomes(8, -2, -513, 0x8000_0000);
    becomes(8, -1, -257, 0x8000_0000);
    becomes(8, 0, -129, 0x8000_0000);
    becomes(8, -1, 253, 0x7E00_0000);
    becomes(8, -1, -253, 0x8200_0000);

    // 127.99999994, which is nearer 128 than 127.
    becomes(8, -24, i32::MAX, 0x7F00_0000);
    becomes(8, -24, -i32::MAX, 0x8000_0000);

    for code in [2, 3, 8] {
        let (least, most) = match code {
            2 => (i64::from(i32::MIN), i64::from(i32::MAX)),
            3 => (-32_768, 32_767),
            _ => (-128, 127),
        };
        for (exponent, mantissa) in [(33, 1), (64, 1), (251, 1), (251, i32::MAX), (32, 12_345)] {
            becomes(code, exponent, mantissa, whole_word(code, most));
            becomes(code, exponent, -mantissa, whole_word(code, least));
        }
    }
}

/// A word of sign and magnitude stays, of either sign.
fn stays_of_either_sign(code: u32, exponent: i16, mantissa: i32, bits: u32) {
    stays(code, exponent, mantissa, bits);
    stays(code, exponent, -mantissa, bits | 0x8000_0000);
}

/// A sample becomes a word of sign and magnitude, and its negative that word's negative; but a zero has
/// no sign.
fn becomes_of_either_sign(code: u32, exponent: i16, mantissa: i32, bits: u32) {
    becomes(code, exponent, mantissa, bits);
    let negative = if bits == 0 { 0 } else { bits | 0x8000_0000 };
    becomes(code, exponent, -mantissa, negative);
}

/// The step of an IBM word is that of its sixth hexadecimal digit, 16 times as long where C is one more.
#[test]
fn nearest_ibm_words() {
    stays(1, 0, 0, 0x0000_0000);
    stays_of_either_sign(1, -280, 1, 0x0000_0001);
    stays_of_either_sign(1, -280, 16_777_215, 0x00FF_FFFF);
    stays_of_either_sign(1, 0, 16_777_215, 0x46FF_FFFF);
    stays_of_either_sign(1, 4, 2_097_151, 0x471F_FFFF);
    stays_of_either_sign(1, 228, 16_777_215, 0x7FFF_FFFF);

    for (exponent, mantissa, bits) in [
        // In steps of 16^-70, of which C 1 has every sixteenth: 2^24 and 1, 7, 8, 9, 15 and 24 more.
        (-280, 16_777_217, 0x0110_0000),
        (-280, 16_777_223, 0x0110_0000),
        (-277, 2_097_153, 0x0110_0000),
        (-280, 16_777_225, 0x0110_0001),
        (-280, 16_777_231, 0x0110_0001),
        (-277, 2_097_155, 0x0110_0001),
        // 2^28 less 8, 4 and 1: a half of the step goes down, less of it carries into C.
        (-277, 33_554_431, 0x01FF_FFFF),
        (-278, 67_108_863, 0x0210_0000),
        (-280, 268_435_455, 0x0210_0000),
        // About 2^24: less 3/2, 3/4, 1/2 and 1/4, then more by 1, 8, 9 and 24.
        (-1, 33_554_429, 0x46FF_FFFE),
        (-2, 67_108_861, 0x46FF_FFFF),
        (-1, 33_554_431, 0x46FF_FFFF),
        (-2, 67_108_863, 0x4710_0000),
        (0, 16_777_217, 0x4710_0000),
        (3, 2_097_153, 0x4710_0000),
        (0, 16_777_225, 0x4710_0001),
        (3, 2_097_155, 0x4710_0001),
        // 33,554,424, 33,554,425 and 33,554,430, of which the last has 24 bits.
        (3, 4_194_303, 0x471F_FFFF),
        (0, 33_554_425, 0x4720_0000),
        (1, 16_777_215, 0x4720_0000),
        // 2^31 - 1, and 2^28 less 8, 4 and 1.
        (0, i32::MAX, 0x4880_0000),
        (3, 33_554_431, 0x47FF_FFFF),
        (2, 67_108_863, 0x4810_0000),
        (0, 268_435_455, 0x4810_0000),
        // About 1: the step is 2^-24 below it and 2^-20 above it.
        (-25, 33_554_431, 0x40FF_FFFF),
        (-26, 67_108_863, 0x4110_0000),
        (-21, 2_097_153, 0x4110_0000),
        (-22, 4_194_307, 0x4110_0001),
        (-21, 2_097_155, 0x4110_0001),
        // Up to the end, and beyond it.
        (227, 33_554_427, 0x7FFF_FFFD),
        (227, 33_554_429, 0x7FFF_FFFE),
        (226, 67_108_859, 0x7FFF_FFFF),
        (227, 33_554_431, 0x7FFF_FFFF),
        (226, 67_108_863, 0x7FFF_FFFF),
        (228, 16_777_217, 0x7FFF_FFFF),
        (251, 3, 0x7FFF_FFFF),
        (251, i32::MAX, 0x7FFF_FFFF),
    ] {
        becomes_of_either_sign(1, exponent, mantissa, bits);
    }
}

/// The step of a gain word is 2^-g for the largest g that has the value in range. Of the words of one
/// value that with the smallest g is written.
#[test]
fn nearest_gain_words() {
    for (exponent, mantissa, above, below) in [
        (0, 0, 0x0000_0000, 0x0000_0000),
        (0, 32_767, 0x0000_7FFF, 0x0000_8001),
        (-14, 16_385, 0x000E_4001, 0x000E_BFFF),
        (-1, 32_767, 0x0001_7FFF, 0x0001_8001),
        (-255, 1, 0x00FF_0001, 0x00FF_FFFF),
        (-240, 1, 0x00F0_0001, 0x00F0_FFFF),
    ] {
        stays(4, exponent, mantissa, above);
        stays(4, exponent, -mantissa, below);
    }
    stays(4, 15, -1, 0x0000_8000);

    for (exponent, mantissa, above, below) in [
        // 32,766.5, then 32,767.25; the range ends at 32,767 and at -32,768.
        (-1, 65_533, 0x0000_7FFE, 0x0000_8002),
        (-2, 131_069, 0x0000_7FFF, 0x0000_8001),
        (-1, 65_535, 0x0000_7FFF, 0x0000_8001),
        (-2, 131_071, 0x0000_7FFF, 0x0000_8000),
        (-1, 65_537, 0x0000_7FFF, 0x0000_8000),
        (0, 32_769, 0x0000_7FFF, 0x0000_8000),
        (16, 1, 0x0000_7FFF, 0x0000_8000),
        (5, 3_125, 0x0000_7FFF, 0x0000_8000),
        (251, i32::MAX, 0x0000_7FFF, 0x0000_8000),
        // 16,384.5; then 16,383.75 and 16,383.875, between 32,767 halves and 16,384.
        (-1, 32_769, 0x0000_4000, 0x0000_C000),
        (-2, 65_535, 0x0001_7FFF, 0x0001_8001),
        (-3, 131_071, 0x0000_4000, 0x0000_C000),
        // 1 + 2^-15, 1 + 3/4 of 2^-14, 1 + 3/2 of 2^-14, 1 - 2^-16 and 1 - 2^-17.
        (-15, 32_769, 0x0000_0001, 0x0000_FFFF),
        (-16, 65_539, 0x000E_4001, 0x000E_BFFF),
        (-15, 32_771, 0x000E_4001, 0x000E_BFFF),
        (-16, 65_535, 0x000F_7FFF, 0x000F_8001),
        (-17, 131_071, 0x0000_0001, 0x0000_FFFF),
        // In steps of 2^-255: 1/2, 3/4, 5/4, 3/2, 5/2, 7/2, and far less than one.
        (-256, 1, 0x0000_0000, 0x0000_0000),
        (-257, 3, 0x00FF_0001, 0x00FF_FFFF),
        (-257, 5, 0x00FF_0001, 0x00FF_FFFF),
        (-256, 3, 0x00FF_0001, 0x00FF_FFFF),
        (-256, 5, 0x00FE_0001, 0x00FE_FFFF),
        (-256, 7, 0x00FF_0003, 0x00FF_FFFD),
        (-280, (1 << 24) - 1, 0x0000_0000, 0x0000_0000),
        (-280, (1 << 24) + 1, 0x00FF_0001, 0x00FF_FFFF),
        (-257, 1, 0x0000_0000, 0x0000_0000),
        (-280, 1, 0x0000_0000, 0x0000_0000),
        // 32,767.5 and 32,767.75 of those steps; 32,768 of them is 2^-240.
        (-256, 65_535, 0x00FF_7FFF, 0x00FF_8001),
        (-257, 131_071, 0x00F0_0001, 0x00F0_FFFF),
    ] {
        becomes(4, exponent, mantissa, above);
        becomes(4, exponent, -mantissa, below);
    }
    becomes(4, 15, 1, 0x0000_7FFF);
}

/// The least step of an IEEE word is 2^-149; each power of two from 2^-125 on doubles it.
#[test]
fn nearest_ieee_words() {
    for (bits, exponent, mantissa) in IEEE {
        stays(5, exponent, mantissa, bits);
    }
    for (exponent, mantissa, bits) in [
        // In steps of 2^-149: 1/2, a little more and a little less, 1/4, 3/4, 3/2, 5/2, 7/2.
        (-150, 1, 0x0000_0000),
        (-180, (1 << 30) + 1, 0x0000_0001),
        (-180, (1 << 30) - 1, 0x0000_0000),
        (-151, 1, 0x0000_0000),
        (-151, 3, 0x0000_0001),
        (-150, 3, 0x0000_0001),
        (-150, 5, 0x0000_0002),
        (-150, 7, 0x0000_0003),
        (-280, 1, 0x0000_0000),
        (-280, i32::MAX, 0x0000_0000),
        // The same about the least normal number, 2^23: less 1/2 and 1/4, and more by 1/2 and 3/4.
        (-150, 16_777_215, 0x007F_FFFF),
        (-151, 33_554_431, 0x0080_0000),
        (-150, 16_777_217, 0x0080_0000),
        (-151, 33_554_435, 0x0080_0001),
        // About 2^24, above which the step is 2: less 1/2 and 1/4, and more by 1, 3/2 and 3.
        (-150, 33_554_431, 0x00FF_FFFF),
        (-151, 67_108_863, 0x0100_0000),
        (-149, 16_777_217, 0x0100_0000),
        (-150, 33_554_435, 0x0100_0001),
        (-149, 16_777_219, 0x0100_0001),
        // Whole numbers: 2^24 + 1, 2^24 + 3, 2^25 - 1, 2^26 - 1, 2^31 - 1.
        (0, 16_777_217, 0x4B80_0000),
        (0, 16_777_219, 0x4B80_0001),
        (0, 33_554_431, 0x4BFF_FFFF),
        (0, 67_108_863, 0x4C80_0000),
        (0, i32::MAX, 0x4F00_0000),
        // Up to the largest finite number, and beyond it.
        (103, 33_554_427, 0x7F7F_FFFD),
        (103, 33_554_429, 0x7F7F_FFFE),
        (102, 67_108_859, 0x7F7F_FFFF),
        (103, 33_554_431, 0x7F7F_FFFF),
        (102, 67_108_863, 0x7F7F_FFFF),
        (128, 1, 0x7F7F_FFFF),
        (104, 16_777_217, 0x7F7F_FFFF),
        (127, 3, 0x7F7F_FFFF),
        (200, 1, 0x7F7F_FFFF),
        (251, i32::MAX, 0x7F7F_FFFF),
    ] {
        becomes_of_either_sign(5, exponent, mantissa, bits);
    }
}

/// Numbers n, each with a power p, such that n × 2^p and (n + 1) × 2^p are values of the code and none
/// is between them: the ends of every step of the code, and others.
fn steps(code: u32) -> Vec<(i64, i16)> {
    let mut row = numbers(u64::from(code));
    let mut steps = Vec::new();
    let mut put = |least: i64, most: i64, power: i16| {
        let middle = (least + most) / 2;
        for number in [least, least + 1, middle, middle + 1, most - 1, most] {
            steps.push((number, power));
        }
        for number in row.by_ref().take(3) {
            steps.push((least + i64::from(number) % (most - least + 1), power));
        }
    };
    match code {
        1 => {
            for characteristic in 0..=126 {
                put(0x10_0000, 0xFF_FFFF, 4 * characteristic - 280);
            }
            put(0x10_0000, 0xFF_FFFE, 228);
        }
        4 => {
            put(0x4000, 0x7FFE, 0);
            for gain in 1..255 {
                put(0x4000, 0x7FFF, -gain);
            }
            put(0, 0x7FFF, -255);
        }
        5 => {
            put(0, 0xFF_FFFF, -149);
            for power in -148..104 {
                put(0x80_0000, 0xFF_FFFF, power);
            }
            put(0x80_0000, 0xFF_FFFE, 104);
        }
        _ => {
            let bits = 8 * width(code) - 1;
            for length in 1..bits {
                put(1 << length, (2 << length) - 2, 0);
            }
            put(0, 1, 0);
        }
    }
    steps
}

/// Between two neighbouring values, up to the half and with it a sample becomes the one nearer zero,
/// after it the other; of either sign, by parts as small as pairs have.
#[test]
fn between_neighbours() {
    for code in CODES {
        let (mut pairs, mut expected) = (Vec::new(), Vec::new());
        for (number, power) in steps(code) {
            let longest = number.leading_zeros() as i16 - 33;
            let lengths = [1, 2, 3, longest].into_iter();
            for parts in lengths.filter(|parts| (1..=longest).contains(parts)) {
                let half = 1 << (parts - 1);
                for part in [1, half - 1, half, half + 1, 2 * half - 1] {
                    let whole = (number << parts) + part;
                    let twos = whole.trailing_zeros() as i16;
                    if !(1..2 * half).contains(&part) || power - parts + twos < LEAST_EXPONENT {
                        continue;
                    }
                    let near = if part <= half { number } else { number + 1 };
                    for sign in [1, -1] {
                        pairs.push(Pair::of_value(sign * whole as i32, power - parts).bytes());
                        let near = Pair::of_value(sign * near as i32, power);
                        let word = write_pair(code, near.bytes()).expect("a value of the code");
                        expected.push(u32::from_be_bytes(word));
                    }
                }
            }
        }
        assert!(pairs.len() > 1_000, "code {code}: {}", pairs.len());
        for (pairs, expected) in pairs.chunks(8_000).zip(expected.chunks(8_000)) {
            let (words, changed) = near_words(code, pairs);
            for ((pair, word), expected) in pairs.iter().zip(words).zip(expected) {
                assert_eq!(word, *expected, "code {code}, {pair:02X?}: {word:08X}");
            }
            assert_eq!(changed, pairs.len() as u64, "code {code}");
        }
    }
}

/// Canonical pairs of either sign: a third of any exponent, the others about 1.
fn some_pairs(seed: u64, count: usize) -> Vec<[u8; 6]> {
    let mut row = numbers(seed);
    let mut next = || row.next().expect("a row without an end");
    let pairs = std::iter::repeat_with(|| {
        let exponent = match next() % 3 {
            0 => -280 + (next() % 532) as i16,
            1 => -31 + (next() % 40) as i16,
            _ => -(1 + (next() % 16) as i16),
        };
        let mantissa = (next() | 1) as i32 >> (next() % 31) | 1;
        pair(exponent, mantissa)
    });
    pairs.take(count).collect()
}

/// The value of a pair times 2^60, where its exponent is from -60 to 30: then it is exact.
fn value_times_2_60(bytes: [u8; 6]) -> Option<i128> {
    let Pair { exponent, mantissa } = Pair::of_bytes(&bytes);
    let power = u32::try_from(exponent + 60).ok()?;
    (power <= 90).then(|| i128::from(mantissa) << power)
}

/// The whole number that a pair becomes under codes 3 and 8, by trying all words of the code. Below
/// 2^-29 that is 0, and from 2^31 on the end.
fn nearest_by_trying_all(least: i128, most: i128, bytes: [u8; 6]) -> i128 {
    let Some(value) = value_times_2_60(bytes) else {
        let Pair { exponent, mantissa } = Pair::of_bytes(&bytes);
        return match (exponent < 0, mantissa < 0) {
            (true, _) => 0,
            (false, false) => most,
            (false, true) => least,
        };
    };
    let key = |number: i128| ((value - (number << 60)).abs(), number.abs());
    let found = (least..=most).min_by_key(|&number| key(number));
    let found = found.expect("the code has words");
    let others = (least..=most).filter(|&number| key(number) == key(found));
    assert_eq!(others.count(), 1);
    found
}

/// No word of codes 3 and 8 is nearer, and none as near is nearer zero.
#[test]
fn every_word_of_codes_3_and_8_is_as_far() {
    for (code, count) in [(3, 600), (8, 8_000)] {
        let pairs = some_pairs(u64::from(code), count);
        let (least, most) = if code == 3 {
            (-32_768, 32_767)
        } else {
            (-128, 127)
        };
        let (words, _) = near_words(code, &pairs);
        let mut seen = [0; 4];
        for (&pair, word) in pairs.iter().zip(words) {
            let number = nearest_by_trying_all(least, most, pair);
            assert_eq!(word, whole_word(code, number as i64), "{pair:02X?}");
            let kind = match number {
                0 => 0,
                _ if number == least => 1,
                _ if number == most => 2,
                _ => 3,
            };
            seen[kind] += 1;
        }
        assert!(seen.iter().all(|&count| count > 50), "{seen:?}");
    }
}

/// What document 02 says of codes 2, 3 and 8: inside the range a value moves by at most a half, and two
/// values come out no farther apart than they were, plus 1.
#[test]
fn whole_numbers_move_by_a_half_at_most() {
    for (code, bits) in [(2, 31), (3, 15), (8, 7)] {
        let mut pairs = some_pairs(31 + u64::from(code), 8_000);
        pairs.retain(|&pair| value_times_2_60(pair).is_some());
        assert!(pairs.len() > 4_000);
        let (words, _) = near_words(code, &pairs);
        let numbers = words.into_iter().map(|word| {
            let whole = word as i32 >> (31 - bits);
            i128::from(whole) << 60
        });
        let values = pairs
            .iter()
            .map(|&pair| value_times_2_60(pair).expect("kept above"));
        let moved: Vec<(i128, i128)> = values.zip(numbers).collect();
        for &(value, number) in &moved {
            if (-(1i128 << bits) << 60..=((1 << bits) - 1) << 60).contains(&value) {
                assert!(2 * (value - number).abs() <= 1 << 60, "code {code}");
            }
        }
        for apart in 1..50 {
            for (one, other) in moved.iter().zip(&moved[apart..]) {
                let before = (one.0 - other.0).abs();
                let after = (one.1 - other.1).abs();
                assert!(after <= before + (1 << 60), "code {code}");
            }
        }
    }
}

/// What it says of code 1: inside the range a value moves by at most half of the last fraction place of
/// the written word. The host's 64-bit floats have these values and differences exactly.
#[test]
fn ibm_words_move_by_half_of_their_last_place_at_most() {
    let power_of_two = |power: i32| f64::from_bits(((power + 1023) as u64) << 52);
    let end = 16_777_215.0 * power_of_two(228);
    let mut counts = [0; 3];
    for seed in 1..4 {
        let pairs = some_pairs(1_000 + seed, 8_000);
        let (words, changed) = near_words(1, &pairs);
        for (&pair, bits) in pairs.iter().zip(words) {
            let value = value_of_pair(pair);
            let read = read_word(1, word(bits)).expect("any word is taken");
            assert!(!read.not_normal, "{bits:08X}");
            let moved = (value_of_pair(read.pair) - value).abs();
            if value.abs() > end {
                assert_eq!(bits & 0x7FFF_FFFF, 0x7FFF_FFFF);
                assert_eq!(bits >> 31 == 1, value < 0.0);
                counts[2] += 1;
                continue;
            }
            let last_place = power_of_two(4 * (bits >> 24 & 0x7F) as i32 - 280);
            assert!(2.0 * moved <= last_place, "{pair:02X?}, {bits:08X}");
            counts[usize::from(moved != 0.0)] += 1;
        }
        assert!(changed > 1_000);
    }
    assert!(counts.iter().all(|&count| count > 100), "{counts:?}");
}

/// The word of code 5 by the host: its 32-bit float of the value, or the next toward zero where that is
/// as near; the largest finite one for an infinity; and plus zero for either zero. A 64-bit float has
/// the value and both distances exactly.
fn nearest_by_the_host(bytes: [u8; 6]) -> u32 {
    let value = value_of_pair(bytes).abs();
    let rounded = value as f32;
    let bits = rounded.to_bits();
    let size = if rounded.is_infinite() {
        0x7F7F_FFFF
    } else if f64::from(rounded) > value {
        let below = f64::from(f32::from_bits(bits - 1));
        bits - u32::from(value - below <= f64::from(rounded) - value)
    } else {
        bits
    };
    match size {
        0 => 0,
        _ if bytes[2] & 0x80 != 0 => size | 0x8000_0000,
        _ => size,
    }
}

/// Pairs of any kind, and those about the ends of code 5, with mantissas about its 24 bits.
#[test]
fn nearest_ieee_words_by_the_host() {
    let mut pairs: Vec<[u8; 6]> = (5..9).flat_map(|seed| some_pairs(seed, 8_000)).collect();
    let mut row = numbers(2_001);
    let mut next = || row.next().expect("a row without an end");
    for exponent in (-182..=-120).chain(70..=130) {
        for length in [1, 2, 23, 24, 25, 26, 27, 30, 31] {
            let least = 1 << (length - 1) | 1;
            let most = ((1u32 << length) - 1) as i32;
            for mantissa in [least, most, least | (next() as i32 & most), most - 2] {
                let mantissa = mantissa.max(1);
                pairs.push(pair(exponent, mantissa));
                pairs.push(pair(exponent, -mantissa));
            }
        }
    }
    let mut zeros = 0;
    for pairs in pairs.chunks(8_000) {
        let (words, changed) = near_words(5, pairs);
        let mut others = 0;
        for (&pair, bits) in pairs.iter().zip(words) {
            assert_eq!(bits, nearest_by_the_host(pair), "{pair:02X?}");
            others += u64::from(write_pair(5, pair).is_err());
            zeros += usize::from(bits == 0);
        }
        assert_eq!(changed, others);
    }
    assert!(zeros > 1_000);
}

/// The example's samples are 1 and -949/8: the nearest whole numbers are 1 and -119. Under the other
/// codes nothing changes, and the reel is that of exact writing.
#[test]
fn example_is_written_nearest() {
    for (code, words) in [
        (2, &[0x00, 0x00, 0x00, 0x01, 0xFF, 0xFF, 0xFF, 0x89][..]),
        (3, &[0x00, 0x01, 0xFF, 0x89]),
        (8, &[0x01, 0x89]),
        (1, &[0x41, 0x10, 0x00, 0x00, 0xC2, 0x76, 0xA0, 0x00]),
        (4, &[0x00, 0x00, 0x00, 0x01, 0x00, 0x03, 0xFC, 0x4B]),
        (5, &[0x3F, 0x80, 0x00, 0x00, 0xC2, 0xED, 0x40, 0x00]),
    ] {
        let mut reel = example();
        reel.truncate(3840);
        reel[3224..3226].copy_from_slice(&(code as u16).to_be_bytes());
        reel[3600 + 68..3600 + 72].copy_from_slice(&[0xD8, 0xF0, 0xD8, 0xF0]);
        reel[3600 + 114..3600 + 118].copy_from_slice(&[0x00, 0x02, 0x07, 0xD0]);
        reel.extend(words);
        let length = reel.len();
        let written = NearestWritten {
            traces: 1,
            samples: 2,
            length: length as u64,
            changed: u64::from(matches!(code, 2 | 3 | 8)),
        };
        for room in [length, length + 1, 4000] {
            let mut out = vec![0xA5; room];
            assert_eq!(
                write_nearest(&example_record(), code, &mut out),
                Ok(written)
            );
            assert_eq!(out[..length], reel);
            assert!(out[length..].iter().all(|&byte| byte == 0xA5));
        }
        for room in [0, 3600, length - 1] {
            let mut out = vec![0xA5; room];
            assert_eq!(
                write_nearest(&example_record(), code, &mut out),
                refused(10, length)
            );
            assert!(out.iter().all(|&byte| byte == 0xA5));
        }
    }
}

/// Three traces of three samples under code 3, of which the second of the first trace and the first and
/// third of the last change. Reading the reel gives the record with the new values, and writing that
/// again changes nothing.
#[test]
fn changed_samples_of_several_traces() {
    let before = [
        [pair(0, 1), pair(-1, 5), pair(15, -1)],
        [pair(0, 0), pair(1, 1), pair(0, -7)],
        [pair(-1, -1), pair(14, 1), pair(200, 3)],
    ];
    let after = [
        [pair(0, 1), pair(1, 1), pair(15, -1)],
        [pair(0, 0), pair(1, 1), pair(0, -7)],
        [pair(0, 0), pair(14, 1), pair(0, 32_767)],
    ];
    let record = record_of(&before.each_ref().map(|trace| &trace[..]));
    let rounded = record_of(&after.each_ref().map(|trace| &trace[..]));
    let mut reel = [0xA5; 4338];
    let mut written = NearestWritten {
        traces: 3,
        samples: 3,
        length: 4338,
        changed: 3,
    };
    assert_eq!(write_nearest(&record, 3, &mut reel), Ok(written));
    assert_eq!(reel[3840..3846], [0x00, 0x01, 0x00, 0x02, 0x80, 0x00]);
    assert_eq!(reel[4086..4092], [0x00, 0x00, 0x00, 0x02, 0xFF, 0xF9]);
    assert_eq!(reel[4332..4338], [0x00, 0x00, 0x40, 0x00, 0x7F, 0xFF]);
    let mut again = vec![0xA5; record.len()];
    assert!(read_reel(&reel, &mut again).is_ok());
    assert_eq!(again, rounded);

    let mut exact = [0xA5; 4338];
    assert_eq!(write_reel(&record, 3, &mut exact), refused(14, 3458));
    assert!(write_reel(&rounded, 3, &mut exact).is_ok());
    assert_eq!(exact, reel);
    let mut nearest = [0xA5; 4338];
    written.changed = 0;
    assert_eq!(write_nearest(&rounded, 3, &mut nearest), Ok(written));
    assert_eq!(nearest, reel);
}

/// Records of any pairs under each code: the count is that of the samples that exact writing doesn't
/// take, and where it is 0 both give one reel. What was written comes back with the count 0.
#[test]
fn nearest_and_exact_writing() {
    for code in CODES {
        let mut none = 0;
        for turn in 0..120 {
            let mut pairs = some_pairs(100 * u64::from(code) + turn, 6);
            if turn % 2 == 0 {
                pairs.retain(|&pair| write_pair(code, pair).is_ok());
                pairs.resize(6, pair(0, 0));
            }
            let record = record_of(&[&pairs[..3], &pairs[3..]]);
            let misfits = pairs
                .iter()
                .filter(|&&pair| write_pair(code, pair).is_err())
                .count();
            let mut reel = vec![0xA5; 3600 + 2 * (240 + 3 * width(code))];
            let mut exact = reel.clone();
            let written = write_nearest(&record, code, &mut reel).expect("a valid record");
            assert_eq!(written.changed, misfits as u64);
            match write_reel(&record, code, &mut exact) {
                Ok(_) => {
                    assert_eq!((written.changed, &exact), (0, &reel));
                    none += 1;
                }
                Err(cause) => assert!(cause.number == 14 && written.changed > 0),
            }
            let mut again = vec![0xA5; record.len()];
            let read = read_reel(&reel, &mut again).expect("a written reel");
            assert_eq!(read.not_normal, 0);
            let mut second = vec![0xA5; reel.len()];
            let written = write_nearest(&again, code, &mut second).expect("a record that was read");
            assert_eq!((written.changed, &second), (0, &reel));
            assert_eq!(again == record, misfits == 0);
        }
        assert!((60..120).contains(&none), "code {code}: {none}");
    }
}

/// A record without traces, whose reel is its headers.
#[test]
fn nearest_writing_without_traces() {
    let mut record = example_record();
    record.drain(3266..3464);
    record[3272] = 0;
    for code in CODES {
        let mut out = [0xA5; 3601];
        let written = NearestWritten {
            traces: 0,
            samples: 2,
            length: 3600,
            changed: 0,
        };
        assert_eq!(write_nearest(&record, code, &mut out), Ok(written));
        assert_eq!(out[3224..3226], [0x00, code as u8]);
        assert_eq!(out[3600], 0xA5);
        let short = write_nearest(&record, code, &mut out[..3599]);
        assert_eq!(short, refused(10, 3600));
    }
}

/// 11, then front to back 12 and 13, then 10; a sample that fits nothing is no cause. The record has
/// every cause at first, and each is mended in turn.
#[test]
fn causes_of_nearest_writing_in_order() {
    let even = pair(0, 2);
    let wide = pair(251, 3);
    let mut record = record_of(&[&[wide, wide], &[wide, even]]);
    let right = record.clone();
    record[0] = 0x02;
    record[3 + 100] = 0x00;
    record[3203 + 2] = 0x3D;
    record[3206 + 16..3206 + 18].fill(0);
    record[IN_RECORD + 114] = 0x01;
    record[3449] = 0x05;
    let last = record.len() - 1;
    record[last] = 0x03;
    record.push(0x00);

    let mut out = [0xA5; 4400];
    for code in [0, 6, 7, 9, 256, 257, 264, u32::MAX] {
        assert_eq!(write_nearest(&record, code, &mut out), refused(11, 0));
        assert_eq!(write_nearest(&right, code, &mut []), refused(11, 0));
    }
    for (number, place, mended) in [
        (12, 0, 0..3),
        (13, 103, 103..104),
        (12, 3203, 3203..3206),
        (13, 3222, 3222..3224),
        (13, 3383, 3383..3385),
        (12, 3449, 3449..3452),
        (13, 3656, 3656..3662),
        (12, 3662, 3662..3669),
    ] {
        for code in CODES {
            for room in [0, 4400] {
                let said = write_nearest(&record, code, &mut out[..room]);
                assert_eq!(said, refused(number, place));
            }
        }
        record[mended.clone()].copy_from_slice(&right[mended]);
        if place == 3656 {
            record[3656..3662].copy_from_slice(&pair(0, 1));
        }
    }
    assert_eq!(write_nearest(&record, 1, &mut out), refused(12, 3669));
    record.pop();
    for code in CODES {
        let length = 3600 + 2 * (240 + 2 * width(code));
        for room in [0, 3600, length - 1] {
            let said = write_nearest(&record, code, &mut out[..room]);
            assert_eq!(said, refused(10, length));
            assert_eq!(write_reel(&record, code, &mut []), refused(14, 3452));
        }
        assert!(out.iter().all(|&byte| byte == 0xA5));
    }
    for code in CODES {
        let written = write_nearest(&record, code, &mut out).expect("a valid record");
        assert_eq!(written.changed, 3);
    }
}

/// The whole numbers that distances are compared by, against the host's of 128 bits and by the laws of
/// sums, at every power.
#[test]
fn whole_numbers_of_many_digits() {
    use nearest::Whole;
    let mut row = numbers(576);
    let mut next = || row.next().expect("a row without an end");
    for _ in 0..2_000 {
        let (a, b) = (u64::from(next()), u64::from(next()) << (next() % 20));
        let (j, k) = (next() % 60, next() % 60);
        let (first, second) = (u128::from(a) << j, u128::from(b) << k);
        let (one, other) = (Whole::of(a, j), Whole::of(b, k));
        assert_eq!(one.cmp(&other), first.cmp(&second));
        let apart = |high: u32, number: u128| {
            let (low, rest) = (number as u64, (number >> 64) as u64);
            Whole::of(rest, high + 64).plus(Whole::of(low, high))
        };
        assert_eq!(one.plus(other), apart(0, first + second));
        let power = next() % 70;
        let most = 1 << 40;
        let part = (first >> power).min(u128::from(most));
        assert_eq!(one.over(power, most), part as u64);
        let (high, difference) = (next() % 380, first.abs_diff(second));
        let (one, other) = (Whole::of(a, j + high), Whole::of(b, k + high));
        let (larger, smaller) = if one < other {
            (other, one)
        } else {
            (one, other)
        };
        assert_eq!(larger.minus(smaller), apart(high, difference));
        assert_eq!(larger.minus(smaller).plus(smaller), larger);
        assert_eq!(one.over(power + high, most), part as u64);
    }
    for power in 0..512 {
        let number = Whole::of(u64::MAX, power);
        assert_eq!(number.over(power, u64::MAX), u64::MAX);
        assert_eq!(number.over(power + 63, u64::MAX), 1);
        let next = number.plus(Whole::of(1, power));
        assert_eq!(next.over(power + 64, u64::MAX), 1);
        assert_eq!(next.over(power, 1 << 40), 1 << 40);
        assert!(number < next && next > Whole::of(1, power));
        assert_eq!(next.minus(Whole::of(1, power)), number);
    }
}

/// Eight card bytes and what they become: a text without 00 and with 00 at each of its bytes; 00 beside
/// bytes that a subtraction, an addition or a test of the highest bit over the whole number may take for
/// 00, in both orders; and the same in every other byte.
const EIGHTS: [(u64, u64); 44] = [
    (0xC3_F1_40_D3_C9_D5_C5_7A, 0xC3_F1_40_D3_C9_D5_C5_7A),
    (0x00_F1_40_D3_C9_D5_C5_7A, 0x40_F1_40_D3_C9_D5_C5_7A),
    (0xC3_00_40_D3_C9_D5_C5_7A, 0xC3_40_40_D3_C9_D5_C5_7A),
    (0xC3_F1_00_D3_C9_D5_C5_7A, 0xC3_F1_40_D3_C9_D5_C5_7A),
    (0xC3_F1_40_00_C9_D5_C5_7A, 0xC3_F1_40_40_C9_D5_C5_7A),
    (0xC3_F1_40_D3_00_D5_C5_7A, 0xC3_F1_40_D3_40_D5_C5_7A),
    (0xC3_F1_40_D3_C9_00_C5_7A, 0xC3_F1_40_D3_C9_40_C5_7A),
    (0xC3_F1_40_D3_C9_D5_00_7A, 0xC3_F1_40_D3_C9_D5_40_7A),
    (0xC3_F1_40_D3_C9_D5_C5_00, 0xC3_F1_40_D3_C9_D5_C5_40),
    (0x00_00_00_00_00_00_00_00, 0x40_40_40_40_40_40_40_40),
    (0x40_40_40_40_40_40_40_40, 0x40_40_40_40_40_40_40_40),
    (0x01_01_01_01_01_01_01_01, 0x01_01_01_01_01_01_01_01),
    (0x7F_7F_7F_7F_7F_7F_7F_7F, 0x7F_7F_7F_7F_7F_7F_7F_7F),
    (0x80_80_80_80_80_80_80_80, 0x80_80_80_80_80_80_80_80),
    (0xFF_FF_FF_FF_FF_FF_FF_FF, 0xFF_FF_FF_FF_FF_FF_FF_FF),
    (0x01_02_03_04_05_06_07_08, 0x01_02_03_04_05_06_07_08),
    (0x01_23_45_67_89_AB_CD_EF, 0x01_23_45_67_89_AB_CD_EF),
    (0x01_02_04_08_10_20_40_80, 0x01_02_04_08_10_20_40_80),
    (0x00_00_00_00_00_00_00_01, 0x40_40_40_40_40_40_40_01),
    (0x00_00_00_00_00_00_01_00, 0x40_40_40_40_40_40_01_40),
    (0x01_00_00_00_00_00_00_00, 0x01_40_40_40_40_40_40_40),
    (0x00_01_00_00_00_00_00_00, 0x40_01_40_40_40_40_40_40),
    (0x00_00_00_00_00_00_00_80, 0x40_40_40_40_40_40_40_80),
    (0x80_00_00_00_00_00_00_00, 0x80_40_40_40_40_40_40_40),
    (0x00_00_00_00_00_00_00_FF, 0x40_40_40_40_40_40_40_FF),
    (0xFF_00_00_00_00_00_00_00, 0xFF_40_40_40_40_40_40_40),
    (0x00_00_00_00_FF_FF_FF_FF, 0x40_40_40_40_FF_FF_FF_FF),
    (0xFF_FF_FF_FF_00_00_00_00, 0xFF_FF_FF_FF_40_40_40_40),
    (0x01_01_01_01_01_01_01_00, 0x01_01_01_01_01_01_01_40),
    (0x00_01_01_01_01_01_01_01, 0x40_01_01_01_01_01_01_01),
    (0xC3_F1_01_00_C9_D5_C5_7A, 0xC3_F1_01_40_C9_D5_C5_7A),
    (0xC3_F1_00_01_C9_D5_C5_7A, 0xC3_F1_40_01_C9_D5_C5_7A),
    (0xC3_F1_80_00_C9_D5_C5_7A, 0xC3_F1_80_40_C9_D5_C5_7A),
    (0xC3_F1_00_80_C9_D5_C5_7A, 0xC3_F1_40_80_C9_D5_C5_7A),
    (0xC3_F1_FF_00_C9_D5_C5_7A, 0xC3_F1_FF_40_C9_D5_C5_7A),
    (0xC3_F1_00_FF_C9_D5_C5_7A, 0xC3_F1_40_FF_C9_D5_C5_7A),
    (0xC3_F1_40_00_C9_D5_00_40, 0xC3_F1_40_40_C9_D5_40_40),
    (0xC3_01_01_00_00_01_01_7A, 0xC3_01_01_40_40_01_01_7A),
    (0x00_01_00_01_00_01_00_01, 0x40_01_40_01_40_01_40_01),
    (0x01_00_01_00_01_00_01_00, 0x01_40_01_40_01_40_01_40),
    (0x00_80_00_80_00_80_00_80, 0x40_80_40_80_40_80_40_80),
    (0x80_00_80_00_80_00_80_00, 0x80_40_80_40_80_40_80_40),
    (0x00_FF_00_FF_00_FF_00_FF, 0x40_FF_40_FF_40_FF_40_FF),
    (0xFF_00_FF_00_FF_00_FF_00, 0xFF_40_FF_40_FF_40_FF_40),
];

#[test]
fn eight_card_bytes() {
    for (cards, blanked) in EIGHTS {
        assert_eq!(blank_eight(cards), blanked, "{cards:016X}");
    }
}

/// One byte 00 at every place of the eight, with every other byte beside it on either side.
#[test]
fn every_byte_beside_00() {
    for low in (0..56).step_by(8) {
        for byte in 1..=255 {
            for around in [0x4040_4040_4040_4040, 0x0101_0101_0101_0101, u64::MAX] {
                let others = around & !(0xFFFF << low);
                let before_00 = byte << (low + 8);
                let after_00 = byte << low;
                assert_eq!(
                    blank_eight(others | before_00),
                    others | before_00 | 0x40 << low,
                    "{byte:02X} before 00"
                );
                assert_eq!(
                    blank_eight(others | after_00),
                    others | after_00 | 0x40 << (low + 8),
                    "00 before {byte:02X}"
                );
            }
        }
    }
}

/// What was blanked has no 00, and stays as it is when it is blanked again. The numbers are those of
/// every choice of bytes 00, with any others.
#[test]
fn eights_are_blanked_once() {
    let mut row = numbers(400).map(u64::from);
    let mut next = || row.next().expect("a row without an end");
    for zeros in 0..256u64 {
        for _ in 0..200 {
            let (mut cards, mut expected) = (0, 0);
            for place in 0..8 {
                let byte = 1 + next() % 255;
                let is_zero = zeros >> place & 1 == 1;
                cards = cards << 8 | if is_zero { 0x00 } else { byte };
                expected = expected << 8 | if is_zero { 0x40 } else { byte };
            }
            let blanked = blank_eight(cards);
            assert_eq!(blanked, expected, "{cards:016X}");
            assert!(!blanked.to_be_bytes().contains(&0), "{cards:016X}");
            assert_eq!(blank_eight(blanked), blanked, "{cards:016X}");
        }
    }
}

/// 3,200 card bytes as 400 numbers, the first byte of each highest.
fn eights(cards: &[u8]) -> Vec<u64> {
    assert_eq!(cards.len(), 3200);
    cards
        .chunks_exact(8)
        .map(|eight| u64::from_be_bytes(array(eight)))
        .collect()
}

/// Reading has for each eight of the card bytes what the call on them gives, from the first to the last,
/// and nothing else changes: the bytes 00 behind the cards stay. So has taking a listing back.
#[test]
fn cards_are_blanked_as_eights_are() {
    let mut row = numbers(3200);
    let mut next = || row.next().expect("a row without an end");
    let mut texts = vec![[0x00; 3200], [0x01; 3200], [0x80; 3200], [0xFF; 3200]];
    for place in [0, 1, 7, 8, 79, 80, 1599, 1600, 3191, 3192, 3198, 3199] {
        for others in [0x01, 0x80, 0xFF] {
            let mut text = [others; 3200];
            text[place] = 0x00;
            texts.push(text);
        }
    }
    for _ in 0..50 {
        let choices = [0x00, 0x01, 0x40, 0x80, 0xFF];
        texts.push([0; 3200].map(|_: u8| choices[next() as usize % 5]));
    }
    for text in texts {
        let mut reel = example();
        reel[..3200].copy_from_slice(&text);
        let mut record = [0xA5; 3471];
        assert!(read_reel(&reel, &mut record).is_ok());
        let blanked: Vec<u64> = eights(&text).into_iter().map(blank_eight).collect();
        assert_eq!(eights(&record[3..3203]), blanked);
        assert_eq!(record[..3], example_record()[..3]);
        assert_eq!(record[3203..], example_record()[3203..]);

        let mut listing = blank_listing();
        for (line, card) in listing.chunks_exact_mut(81).zip(text.chunks_exact(80)) {
            for (character, &code) in line.iter_mut().zip(card) {
                *character = page::CHARACTERS[code as usize];
            }
        }
        let mut taken = [0xA5; 3471];
        assert!(take_cards(&example_record(), &listing, &mut taken).is_ok());
        assert_eq!(taken, record);
    }
}
