//! The order of records, by document 02's CR 9: each kind of item, what is compared before what, both
//! forms of a trace, and each cause with its record, by hand.
//!
//! Of a record the card bytes begin at 3, the binary header's fields at 3206. Tag 03 of the first trace is
//! at 3266, its header fields begin at 3269, and its first pair is at 3452. With two samples in a trace the
//! header fields of the second begin at 3467, its first pair is at 3650.

use super::*;
use std::cmp::Ordering;

const FIRST_TRACE: usize = 3_269;
const FIRST_PAIR: usize = 3_452;
const SECOND_TRACE: usize = 3_467;
const SECOND_PAIR: usize = 3_650;

/// The first record is the lesser, in either order of the two, and each is equal to itself.
fn less(first: &[u8], second: &[u8], what: &str) {
    assert_eq!(compare(first, second), Ok(Ordering::Less), "{what}");
    assert_eq!(compare(second, first), Ok(Ordering::Greater), "{what}");
    for record in [first, second] {
        assert_eq!(compare(record, record), Ok(Ordering::Equal), "{what}");
    }
}

/// The two count as equal, in either order.
fn equal(first: &[u8], second: &[u8]) {
    assert_eq!(compare(first, second), Ok(Ordering::Equal));
    assert_eq!(compare(second, first), Ok(Ordering::Equal));
}

/// The two are refused so.
fn is_refused(first: &[u8], second: &[u8], which: u64, number: u64, place: usize) {
    let cause = RefusedOf {
        which,
        number,
        beside: place as u64,
    };
    assert_eq!(compare(first, second), Err(cause));
}

/// A record with other bytes at a place.
fn with(record: &[u8], place: usize, bytes: &[u8]) -> Vec<u8> {
    let mut record = record.to_vec();
    record[place..place + bytes.len()].copy_from_slice(bytes);
    record
}

/// A record of two traces with two samples each.
fn two_traces() -> Vec<u8> {
    let pairs = [pair(0, 1), pair(-3, -949)];
    record_of(&[&pairs, &pairs])
}

/// A record of so many traces with two samples each.
fn traces(count: usize) -> Vec<u8> {
    let pairs = [pair(0, 1), pair(-3, -949)];
    record_of_fields(2, &vec![vec![&pairs[..]]; count])
}

/// The assigned fields of the binary header, byte number and bytes of each.
fn binary_fields() -> Vec<(usize, usize)> {
    let four = [3201, 3205, 3209].map(|byte| (byte, 4));
    let two = (3213..=3259).step_by(2).map(|byte| (byte, 2));
    let fields: Vec<(usize, usize)> = four.into_iter().chain(two).collect();
    assert_eq!(fields.len(), 27);
    fields
}

/// The assigned fields of a trace header, byte number and bytes of each.
fn trace_fields() -> Vec<(usize, usize)> {
    let mut fields = Vec::new();
    fields.extend([1, 5, 9, 13, 17, 21, 25].map(|byte| (byte, 4)));
    fields.extend([29, 31, 33, 35].map(|byte| (byte, 2)));
    fields.extend([37, 41, 45, 49, 53, 57, 61, 65].map(|byte| (byte, 4)));
    fields.extend([69, 71].map(|byte| (byte, 2)));
    fields.extend([73, 77, 81, 85].map(|byte| (byte, 4)));
    fields.extend((89..=179).step_by(2).map(|byte| (byte, 2)));
    assert_eq!(fields.len(), 71);
    fields
}

/// Header fields that a valid record may have any number in.
fn free_fields() -> Vec<(usize, usize)> {
    let in_binary = binary_fields()
        .into_iter()
        .filter(|(byte, _)| ![3217, 3221, 3225].contains(byte))
        .map(|(byte, width)| (3206 + byte - 3201, width));
    let in_trace = trace_fields()
        .into_iter()
        .filter(|(byte, _)| ![69, 71, 115, 117].contains(byte))
        .map(|(byte, width)| (FIRST_TRACE + byte - 1, width));
    let fields: Vec<(usize, usize)> = in_binary.chain(in_trace).collect();
    assert_eq!(fields.len(), 24 + 67);
    fields
}

/// The bytes of a number in a header field.
fn number_in(number: i32, width: usize) -> Vec<u8> {
    number.to_be_bytes()[4 - width..].to_vec()
}

#[test]
fn a_record_is_equal_to_itself() {
    for record in [example_record(), two_traces(), traces(0), traces(7)] {
        equal(&record, &record.clone());
    }
}

/// Bytes have no sign: 7F is less than 80, and FF is the greatest.
#[test]
fn card_bytes() {
    let record = example_record();
    let rising = [0x01, 0x3F, 0x40, 0x41, 0x7F, 0x80, 0xC1, 0xFE, 0xFF];
    for card in [0, 1, 79, 80, 1_599, 3_119, 3_120, 3_198, 3_199] {
        for (i, &one) in rising.iter().enumerate() {
            for &other in &rising[i + 1..] {
                let lesser = with(&record, 3 + card, &[one]);
                let greater = with(&record, 3 + card, &[other]);
                less(&lesser, &greater, &format!("card byte {card}"));
            }
        }
    }
    for card in 0..3_200 {
        less(&record, &with(&record, 3 + card, &[0xFF]), "FF");
        less(&with(&record, 3 + card, &[0x01]), &record, "01");
    }
}

/// The first card byte that differs decides, whatever the later ones, the numbers and the samples are.
#[test]
fn the_first_difference_decides() {
    let record = two_traces();
    for card in 0..3_199 {
        let lesser = with(&record, 3 + card, &[0x3F, 0xFF]);
        less(&lesser, &record, &format!("card byte {card}"));
        let lesser = with(&record, 3 + card, &[0x40, 0x3F]);
        let greater = with(&record, 3 + card, &[0x41, 0x01]);
        less(&lesser, &greater, &format!("card byte {card}"));
    }
    let fields = free_fields();
    for (i, &(place, width)) in fields.iter().enumerate() {
        let lesser = with(&record, place, &number_in(-1, width));
        let cards = with(&lesser, 3 + 3_199, &[0x41]);
        less(&record, &cards, &format!("card byte 3199, and {place}"));
        let pairs = with(&lesser, FIRST_PAIR, &pair(251, 1));
        less(&pairs, &record, &format!("{place}, and a sample"));
        for &(later, width) in &fields[i + 1..] {
            let greater = with(&lesser, later, &number_in(1, width));
            less(&greater, &record, &format!("{place}, and {later}"));
        }
    }
}

/// Every assigned field is compared, as signed: -1 is less than 0 and than 1, and the most negative number
/// is the least.
#[test]
fn header_numbers() {
    let record = example_record();
    let rising = [i32::MIN, -65_536, -2, -1, 0, 1, 2, 32_768, i32::MAX];
    let rising_in_two = [-32_768, -256, -2, -1, 0, 1, 2, 255, 256, 32_767];
    for (place, width) in free_fields() {
        let rising = if width == 4 {
            &rising[..]
        } else {
            &rising_in_two[..]
        };
        for (i, &one) in rising.iter().enumerate() {
            for &other in &rising[i + 1..] {
                let lesser = with(&record, place, &number_in(one, width));
                let greater = with(&record, place, &number_in(other, width));
                less(&lesser, &greater, &format!("{one}, {other} at {place}"));
            }
        }
    }
}

/// FFFFFFFF in a field of four bytes and FFFF in one of two are -1, and less than 1 in it.
#[test]
fn minus_one_and_one() {
    let record = example_record();
    let (four, two) = (FIRST_TRACE, FIRST_TRACE + 28);
    less(
        &with(&record, four, &[0xFF, 0xFF, 0xFF, 0xFF]),
        &with(&record, four, &[0x00, 0x00, 0x00, 0x01]),
        "field 1",
    );
    less(
        &with(&record, two, &[0xFF, 0xFF]),
        &with(&record, two, &[0x00, 0x01]),
        "field 29",
    );
    // 0000FFFF in four bytes is 65,535.
    less(
        &with(&record, four, &[0x00, 0x00, 0x00, 0x01]),
        &with(&record, four, &[0x00, 0x00, 0xFF, 0xFF]),
        "field 1",
    );
}

/// Interval and N are binary header numbers: they decide before T and before all that the traces hold. The
/// format code is 0 in every record.
#[test]
fn interval_and_count() {
    let none = traces(0);
    let interval = |number: u16| with(&none, 3222, &number.to_be_bytes());
    let samples = |number: u16| with(&none, 3226, &number.to_be_bytes());
    less(&interval(1), &interval(2), "interval");
    less(&interval(255), &interval(256), "interval");
    less(&interval(2_000), &interval(32_767), "interval");
    less(&samples(1), &samples(2), "N");
    less(&samples(255), &samples(256), "N");
    less(&samples(8_000), &samples(32_767), "N");
    let long = with(&interval(1), 3226, &32_767u16.to_be_bytes());
    less(&long, &none, "the interval before N");

    let one = record_of(&[&[pair(251, 1)], &[pair(251, 1)]]);
    less(&one, &two_traces(), "N 1 and N 2");
    less(&one, &traces(0), "N 1 with traces and N 2 without");
    let wide = record_of(&[&[pair(251, -1); 3]]);
    less(&two_traces(), &wide, "N 2 and N 3");
    is_refused(&with(&none, 3230, &[0x00, 0x01]), &none, 1, 13, 3230);
}

/// Elevations and coordinates are compared bare, and their scalars as numbers, where they stand: behind
/// the elevations, before the coordinates.
#[test]
fn scalars_are_numbers_too() {
    let rising = [-10_000, -1_000, -100, -10, 1, 10, 100, 1_000, 10_000];
    let long = i32::MAX;
    for (i, &one) in rising.iter().enumerate() {
        for &other in &rising[i + 1..] {
            let elevations = |scalar| record_with((scalar, [long; 7]), NO_COORDINATES);
            less(&elevations(one), &elevations(other), "field 69");
            let coordinates = |scalar| record_with(NO_ELEVATIONS, (scalar, [long; 4]));
            less(&coordinates(one), &coordinates(other), "field 71");
            less(
                &record_with((one, [long; 7]), (other, [long; 4])),
                &record_with((other, [long; 7]), (one, [long; 4])),
                "69 before 71",
            );
            for field in 0..7 {
                let mut lesser = [long; 7];
                lesser[field] -= 1;
                less(
                    &record_with((other, lesser), NO_COORDINATES),
                    &record_with((one, [long; 7]), NO_COORDINATES),
                    "elevations before 69, bare",
                );
            }
            for field in 0..4 {
                let mut lesser = [long; 4];
                lesser[field] -= 1;
                less(
                    &record_with(NO_ELEVATIONS, (one, [long; 4])),
                    &record_with(NO_ELEVATIONS, (other, lesser)),
                    "71 before coordinates",
                );
                less(
                    &record_with((one, [long; 7]), (one, [long; 4])),
                    &record_with((other, [long; 7]), (one, lesser)),
                    "69 before coordinates",
                );
            }
        }
    }
    // 214,748,365 times 10,000 is far more than 214,748,366 by 10,000, and its bare number is less.
    let mut lesser = [0; 7];
    lesser[0] = 214_748_365;
    let mut greater = [0; 7];
    greater[0] = 214_748_366;
    less(
        &record_with((10_000, lesser), NO_COORDINATES),
        &record_with((-10_000, greater), NO_COORDINATES),
        "bare",
    );
    // -1 and 1 as elevations, each at its smallest power.
    let (mut minus, mut plus) = ([0; 7], [0; 7]);
    (minus[3], plus[3]) = (-10_000, 10_000);
    less(
        &record_with((-10_000, minus), NO_COORDINATES),
        &record_with((-10_000, plus), NO_COORDINATES),
        "elevations",
    );
}

/// Cards, binary header, header of trace 1, its samples, header of trace 2, its samples: each decides
/// before all that come after it, and the last by itself.
#[test]
fn what_is_compared_before_what() {
    let record = two_traces();
    let places = [
        (3, vec![0x41], vec![0x3F]),
        (3 + 3_199, vec![0x41], vec![0x3F]),
        (3206, number_in(1, 4), number_in(-1, 4)),
        (3206 + 58, number_in(1, 2), number_in(-1, 2)),
        (FIRST_TRACE, number_in(1, 4), number_in(-1, 4)),
        (FIRST_TRACE + 178, number_in(1, 2), number_in(-1, 2)),
        (FIRST_PAIR, pair(0, 3).to_vec(), pair(-1, 1).to_vec()),
        (FIRST_PAIR + 6, pair(0, 1).to_vec(), pair(0, -999).to_vec()),
        (SECOND_TRACE, number_in(1, 4), number_in(-1, 4)),
        (SECOND_TRACE + 178, number_in(1, 2), number_in(-1, 2)),
        (SECOND_PAIR, pair(0, 3).to_vec(), pair(-1, 1).to_vec()),
        (SECOND_PAIR + 6, pair(0, 1).to_vec(), pair(0, -999).to_vec()),
    ];
    for (i, (place, greater, lesser)) in places.iter().enumerate() {
        let (mut above, mut below) = (record.clone(), record.clone());
        above = with(&above, *place, greater);
        below = with(&below, *place, lesser);
        less(&record, &above, &format!("more at {place}"));
        less(&below, &record, &format!("less at {place}"));
        less(&below, &above, &format!("less and more at {place}"));
        for (later, greater, lesser) in &places[i + 1..] {
            above = with(&above, *later, lesser);
            below = with(&below, *later, greater);
            less(&record, &above, &format!("more at {place}, less behind"));
            less(&below, &record, &format!("less at {place}, more behind"));
            less(&below, &above, &format!("{place}, then {later}"));
        }
    }
}

/// Values from the least to the greatest, exponent and mantissa: no two are equal.
const RISING: [(i16, i32); 48] = [
    (251, -2_147_483_647),
    (251, -2_147_483_645),
    (251, -3),
    (228, -16_777_217),
    (228, -16_777_215),
    (250, -3),
    (251, -1),
    (228, -8_388_607),
    (250, -1),
    (31, -1),
    (0, -2_147_483_647),
    (1, -1_073_741_823),
    (30, -1),
    (-3, -949),
    (0, -3),
    (1, -1),
    (-1, -3),
    (-30, -1_073_741_825),
    (0, -1),
    (-31, -2_147_483_647),
    (-1, -1),
    (-249, -2_147_483_647),
    (-280, -2_147_483_647),
    (-279, -3),
    (-280, -5),
    (-280, -3),
    (-279, -1),
    (-280, -1),
    (0, 0),
    (-280, 1),
    (-279, 1),
    (-280, 3),
    (-280, 2_147_483_647),
    (-249, 1),
    (-1, 1),
    (0, 1),
    (-30, 1_073_741_825),
    (-1, 3),
    (1, 1),
    (0, 3),
    (30, 1),
    (0, 2_147_483_647),
    (31, 1),
    (251, 1),
    (228, 16_777_215),
    (251, 3),
    (251, 2_147_483_645),
    (251, 2_147_483_647),
];

/// Samples go by value, whatever their exponents and mantissas are by themselves.
#[test]
fn samples_by_value() {
    let record = example_record();
    for (i, &(exponent, mantissa)) in RISING.iter().enumerate() {
        let lesser = with(&record, FIRST_PAIR, &pair(exponent, mantissa));
        for &(e, m) in &RISING[i + 1..] {
            let greater = with(&record, FIRST_PAIR, &pair(e, m));
            less(
                &lesser,
                &greater,
                &format!("{mantissa} x 2^{exponent}, {m} x 2^{e}"),
            );
            // The second sample pulls the other way.
            let lesser = with(&lesser, FIRST_PAIR + 6, &pair(251, 1));
            let greater = with(&greater, FIRST_PAIR + 6, &pair(251, -1));
            less(&lesser, &greater, "two samples");
        }
    }
}

/// The host's 64-bit floats have the values of pairs exactly, and their order.
#[test]
fn samples_by_the_host() {
    let record = record_of(&[&[pair(0, 0)]]);
    let mut pairs = some_pairs(9, 400);
    pairs.extend(RISING.map(|(exponent, mantissa)| pair(exponent, mantissa)));
    // Neighbours, and values whose first bits are the same ones.
    for exponent in [-280, -100, -1, 0, 1, 100, 220] {
        for shift in 0..31 {
            for number in [1 << shift, (1 << shift) + 1, i32::MAX >> shift] {
                pairs.push(Pair::of_value(number, exponent).bytes());
                pairs.push(Pair::of_value(-number, exponent).bytes());
            }
        }
    }
    let mut counts = [0; 3];
    for (i, &one) in pairs.iter().enumerate() {
        let first = with(&record, FIRST_PAIR, &one);
        for &other in pairs[i..].iter().step_by(3 + i % 7) {
            let second = with(&record, FIRST_PAIR, &other);
            let order = value_of_pair(one).partial_cmp(&value_of_pair(other));
            let order = order.expect("numbers");
            assert_eq!(compare(&first, &second), Ok(order), "{one:?}, {other:?}");
            assert_eq!(compare(&second, &first), Ok(order.reverse()));
            counts[(order as i32 + 1) as usize] += 1;
        }
    }
    assert!(counts.iter().all(|&count| count > 500), "{counts:?}");
}

/// A word read as sign and magnitude.
fn sign_and_magnitude(bits: u32) -> i64 {
    let magnitude = i64::from(bits & 0x7FFF_FFFF);
    if bits >> 31 == 1 {
        -magnitude
    } else {
        magnitude
    }
}

/// Where two samples fit code 1 their order is that of their normal words.
#[test]
fn samples_by_their_normal_words() {
    let record = record_of(&[&[pair(0, 0)]]);
    let mut words: Vec<u32> = NORMAL.iter().map(|&(bits, _, _)| bits).collect();
    words.extend([0x0000_0000, 0x0000_0001, 0x8000_0001, 0x0010_0000]);
    words.extend([0x4110_0000, 0xC276_A000, 0x7FFF_FFFF, 0xFFFF_FFFF]);
    words.extend([0x41FF_FFFF, 0x4210_0000, 0xC1FF_FFFF, 0xC210_0000]);
    words.extend(numbers(9).take(300).filter(|&bits| is_normal(word(bits))));
    assert!(words.len() > 250);
    for &one in &words {
        let held = |bits| read_word(1, word(bits)).expect("any IBM word").pair;
        assert!(is_normal(word(one)));
        assert_eq!(write_pair(1, held(one)), Ok(word(one)));
        let first = with(&record, FIRST_PAIR, &held(one));
        for &other in &words {
            let second = with(&record, FIRST_PAIR, &held(other));
            let order = sign_and_magnitude(one).cmp(&sign_and_magnitude(other));
            assert_eq!(
                compare(&first, &second),
                Ok(order),
                "{one:08X}, {other:08X}"
            );
        }
    }
}

/// A record whose traces end first is the lesser, where the traces that both have agree. Otherwise the
/// first difference in them decides.
#[test]
fn counts_of_traces() {
    for (few, many) in [(0, 1), (0, 2), (1, 2), (2, 3), (3, 300), (255, 256)] {
        less(&traces(few), &traces(many), &format!("T {few} and {many}"));
    }
    let (one, two) = (traces(1), traces(2));
    for (place, greater, lesser) in [
        (3, vec![0x41], vec![0x3F]),
        (3206 + 58, number_in(1, 2), number_in(-1, 2)),
        (FIRST_TRACE, number_in(1, 4), number_in(-1, 4)),
        (FIRST_TRACE + 178, number_in(1, 2), number_in(-1, 2)),
        (FIRST_PAIR, pair(0, 3).to_vec(), pair(0, -1).to_vec()),
        (FIRST_PAIR + 6, pair(0, 1).to_vec(), pair(9, -1).to_vec()),
    ] {
        less(&two, &with(&one, place, &greater), &format!("at {place}"));
        less(&with(&two, place, &lesser), &one, &format!("at {place}"));
        less(&with(&one, place, &lesser), &two, &format!("at {place}"));
        less(&one, &with(&two, place, &greater), &format!("at {place}"));
    }
    // What the longer one has more doesn't count.
    less(
        &one,
        &with(&two, SECOND_TRACE, &number_in(i32::MIN, 4)),
        "T",
    );
    less(&one, &with(&two, SECOND_PAIR, &pair(251, -1)), "T");
}

/// The earlier form and the new one of a trace are equal, whichever traces have which, though their bytes
/// and lengths differ; and they give one reel.
#[test]
fn both_forms_are_equal() {
    for samples in [6_001, 7_000, 8_000] {
        let pairs: Vec<[u8; 6]> = (0..samples)
            .map(|index| pair(0, 2 * (index % 60) + 1))
            .collect();
        let new: Vec<&[[u8; 6]]> = pairs.chunks(6_000).collect();
        let earlier = vec![&pairs[..]];
        let records: Vec<Vec<u8>> = [
            [&new, &new],
            [&earlier, &new],
            [&new, &earlier],
            [&earlier, &earlier],
        ]
        .iter()
        .map(|forms| record_of_fields(samples as usize, &forms.map(Clone::clone)))
        .collect();
        let mut reels = Vec::new();
        for (i, first) in records.iter().enumerate() {
            for (j, second) in records.iter().enumerate() {
                equal(first, second);
                assert_eq!(first == second, i == j);
            }
            let mut reel = vec![0; 3600 + 2 * (240 + samples as usize)];
            assert!(write_reel(first, 8, &mut reel).is_ok());
            reels.push(reel);
        }
        assert!(reels.iter().all(|reel| *reel == reels[0]));
    }
}

/// Each sample of a long trace counts, at the ends of fields too, whichever form either record has; and
/// what stands behind a trace of either form is found.
#[test]
fn samples_of_long_traces() {
    let samples = 6_003;
    let made = |change: Option<(usize, usize, [u8; 6])>, bits: usize| {
        let mut all = vec![vec![pair(0, 1); samples]; 2];
        if let Some((trace, sample, pair)) = change {
            all[trace][sample] = pair;
        }
        let forms: Vec<Vec<&[[u8; 6]]>> = (all.iter().enumerate())
            .map(|(trace, pairs)| match bits >> trace & 1 {
                0 => pairs.chunks(6_000).collect(),
                _ => vec![&pairs[..]],
            })
            .collect();
        record_of_fields(samples, &forms)
    };
    for (trace, sample) in [
        (0, 0),
        (0, 5_999),
        (0, 6_000),
        (0, 6_002),
        (1, 0),
        (1, 5_999),
        (1, 6_000),
        (1, 6_002),
    ] {
        for bits in 0..4 {
            for other in 0..4 {
                let what = format!("sample {sample} of trace {trace}, forms {bits} and {other}");
                let base = made(None, other);
                less(
                    &base,
                    &made(Some((trace, sample, pair(-1, 3))), bits),
                    &what,
                );
                less(
                    &made(Some((trace, sample, pair(-1, 1))), bits),
                    &base,
                    &what,
                );
            }
        }
    }
    for sample in [0, 5_999, 6_000, 11_999, 12_000, 29_999, 30_000, 32_766] {
        let mut pairs = vec![pair(0, 1); 32_767];
        let base = record_of(&[&pairs]);
        pairs[sample] = pair(0, 3);
        less(&base, &record_of(&[&pairs]), &format!("sample {sample}"));
        let two = record_of(&[&vec![pair(0, 1); 32_767], &pairs]);
        less(&base, &two, "T");
        less(&two, &record_of(&[&pairs]), "the first trace");
    }
    // The earlier form's length has no say: it is shorter by three bytes a trace, and greater here.
    let earlier = made(Some((1, 6_002, pair(0, 3))), 3);
    let new = made(None, 0);
    assert!(earlier.len() + 6 == new.len());
    less(&new, &earlier, "forms");
}

/// 12 and 13 of either record, with the place in it. The first record's comes before the second's, however
/// late it stands.
#[test]
fn causes_of_either_record() {
    let good = two_traces();
    let other = with(&good, 3, &[0x3F]);
    let length = good.len();
    let count = length - 7;
    let bad: Vec<(Vec<u8>, u64, usize)> = vec![
        (Vec::new(), 12, 0),
        (vec![0x01], 12, 0),
        (with(&good, 0, &[0x02]), 12, 0),
        (with(&good, 1, &[0x0C, 0x81]), 12, 0),
        (with(&good, 3, &[0x00]), 13, 3),
        (with(&good, 3 + 3_199, &[0x00]), 13, 3_202),
        (with(&good, 3_203, &[0x03]), 12, 3_203),
        (good[..3_265].to_vec(), 12, 3_203),
        (with(&good, 3_222, &[0x00, 0x00]), 13, 3_222),
        (with(&good, 3_226, &[0x80, 0x00]), 13, 3_226),
        (with(&good, 3_230, &[0x00, 0x01]), 13, 3_230),
        (good[..3_266].to_vec(), 12, 3_266),
        (with(&good, FIRST_TRACE + 68, &[0x00, 0x01]), 13, 3_337),
        (with(&good, FIRST_TRACE + 70, &[0x00, 0x00]), 13, 3_339),
        (with(&good, FIRST_TRACE + 114, &[0x00, 0x00]), 13, 3_383),
        (with(&good, FIRST_TRACE + 116, &[0x00, 0x00]), 13, 3_385),
        (with(&good, 3_449, &[0x05]), 12, 3_449),
        (with(&good, FIRST_PAIR, &pair(0, 2)), 13, 3_452),
        (with(&good, FIRST_PAIR + 6, &pair(1, 0)), 13, 3_458),
        (with(&good, FIRST_PAIR + 6, &pair(252, 1)), 13, 3_458),
        (with(&good, SECOND_TRACE - 3, &[0x06]), 12, 3_464),
        (with(&good, SECOND_PAIR + 6, &pair(-281, 1)), 13, 3_656),
        (with(&good, count, &[0x04]), 12, count),
        (with(&good, count + 6, &[0x03]), 12, count),
        (good[..length - 1].to_vec(), 12, count),
        (good[..count].to_vec(), 12, count),
        ([&good[..], &[0x00]].concat(), 12, length),
        ([&good[..], &good[count..]].concat(), 12, length),
    ];
    for (record, number, place) in &bad {
        for beside in [&good, &other, &traces(0), &traces(1)] {
            is_refused(record, beside, 1, *number, *place);
            is_refused(beside, record, 2, *number, *place);
        }
        // With both bad it is the first's, the same one twice as well.
        for (second, _, _) in &bad {
            is_refused(record, second, 1, *number, *place);
        }
    }
}

/// A pair that fits no code is no cause: it has a value, and an order.
#[test]
fn samples_need_not_fit() {
    let record = example_record();
    less(
        &with(&record, FIRST_PAIR, &pair(251, 3)),
        &with(&record, FIRST_PAIR, &pair(251, 5)),
        "beyond every code",
    );
    less(
        &with(&record, FIRST_PAIR, &pair(-280, 2_147_483_645)),
        &with(&record, FIRST_PAIR, &pair(-280, 2_147_483_647)),
        "more bits than code 1 has",
    );
}

/// Records of every kind, from the least to the greatest: each is less than every later one.
#[test]
fn one_order_of_many() {
    let record = two_traces();
    let mut rising = vec![
        with(&record, 3, &[0x01, 0xFF]),
        with(&record, 3 + 1, &[0x3F]),
        with(&record, 3206, &number_in(i32::MIN, 4)),
        with(&record, 3206, &number_in(-1, 4)),
        with(&record, 3206 + 58, &number_in(-1, 2)),
        traces(0),
        with(&record, FIRST_TRACE, &number_in(-1, 4)),
        with(&record, FIRST_TRACE + 178, &number_in(-32_768, 2)),
        with(&record, FIRST_PAIR, &pair(251, -1)),
        with(&record, FIRST_PAIR, &pair(0, 0)),
        with(&record, FIRST_PAIR + 6, &pair(-3, -951)),
        traces(1),
        with(&record, SECOND_TRACE + 178, &number_in(-1, 2)),
        with(&record, SECOND_PAIR + 6, &pair(-3, -951)),
        record.clone(),
        traces(3),
    ];
    rising.extend([
        with(&record, SECOND_PAIR, &pair(1, 1)),
        with(&record, SECOND_TRACE, &number_in(1, 4)),
        with(&record, FIRST_PAIR + 6, &pair(-3, -947)),
        with(&record, FIRST_PAIR, &pair(1, 1)),
        with(&record, FIRST_TRACE + 178, &number_in(1, 2)),
        with(&record, FIRST_TRACE, &number_in(1, 4)),
        with(&traces(0), 3206 + 58, &number_in(1, 2)),
        with(&record, 3206 + 58, &number_in(1, 2)),
        with(&record, 3206, &number_in(1, 4)),
        with(&record, 3 + 3_199, &[0x41]),
        with(&traces(0), 3, &[0x80]),
        with(&record, 3, &[0xFF]),
    ]);
    for (i, first) in rising.iter().enumerate() {
        for (j, second) in rising.iter().enumerate() {
            assert_eq!(compare(first, second), Ok(i.cmp(&j)), "{i}, {j}");
        }
    }
}
