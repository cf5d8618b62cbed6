//! Long traces, by document 02's CR 8: where the sample fields of a record stand, both forms of a trace,
//! each cause and its place, by hand.
//!
//! The first trace of a record has its tag 03 at 3266 and the tag of its first sample field at 3449, whose
//! pairs begin at 3452. A field of 6,000 has 36,003 bytes, so the second has its tag at 39,452, the third
//! at 75,455, the fourth at 111,458, the fifth at 147,461 and the sixth at 183,464.

use super::*;

/// N, the lengths of its sample fields in a record, the place of tag 05 behind one trace, and the length
/// of the record of one trace and of two.
type Lengths = (usize, &'static [u16], usize, usize, usize);

const LENGTHS: [Lengths; 17] = [
    (1, &[6], 3_458, 3_465, 3_657),
    (2, &[12], 3_464, 3_471, 3_669),
    (5_999, &[35_994], 39_446, 39_453, 75_633),
    (6_000, &[36_000], 39_452, 39_459, 75_645),
    (6_001, &[36_000, 6], 39_461, 39_468, 75_663),
    (6_002, &[36_000, 12], 39_467, 39_474, 75_675),
    (7_999, &[36_000, 11_994], 51_449, 51_456, 99_639),
    (8_000, &[36_000, 12_000], 51_455, 51_462, 99_651),
    (8_001, &[36_000, 12_006], 51_461, 51_468, 99_663),
    (11_999, &[36_000, 35_994], 75_449, 75_456, 147_639),
    (12_000, &[36_000, 36_000], 75_455, 75_462, 147_651),
    (12_001, &[36_000, 36_000, 6], 75_464, 75_471, 147_669),
    (18_000, &[36_000; 3], 111_458, 111_465, 219_657),
    (24_000, &[36_000; 4], 147_461, 147_468, 291_663),
    (30_000, &[36_000; 5], 183_464, 183_471, 363_669),
    (
        30_001,
        &[36_000, 36_000, 36_000, 36_000, 36_000, 6],
        183_473,
        183_480,
        363_687,
    ),
    (
        32_767,
        &[36_000, 36_000, 36_000, 36_000, 36_000, 16_602],
        200_069,
        200_076,
        396_879,
    ),
];

/// The tags of the sample fields of the first trace.
const TAGS: [usize; 6] = [3_449, 39_452, 75_455, 111_458, 147_461, 183_464];

/// A pair that is canonical, with a value that every code has.
fn one() -> [u8; 6] {
    [0x00, 0x00, 0x00, 0x00, 0x00, 0x01]
}

/// A pair that isn't canonical.
fn even() -> [u8; 6] {
    [0x00, 0x00, 0x00, 0x00, 0x00, 0x02]
}

/// A pair that is canonical, with a value that no code has.
fn wide() -> [u8; 6] {
    [0x00, 0xFB, 0x00, 0x00, 0x00, 0x03]
}

/// A reel of this code whose words are all 00.
fn zeros(code: u32, samples: usize, traces: usize) -> Vec<u8> {
    let mut reel = example();
    reel.truncate(3600);
    put_number(&mut reel, 3220, samples as u16);
    put_number(&mut reel, 3224, code as u16);
    reel.resize(3600 + traces * (240 + width(code) * samples), 0x00);
    reel
}

/// Reading a reel into an output of that length. A refused call leaves it as it was.
fn read_into(reel: &[u8], room: usize) -> Result<Vec<u8>, Refused> {
    let mut out = vec![0xA5; room];
    let said = read_reel(reel, &mut out);
    if said.is_err() {
        assert!(out.iter().all(|&byte| byte == 0xA5));
    }
    said.map(|read| {
        assert!(out[read.length as usize..].iter().all(|&byte| byte == 0xA5));
        out.truncate(read.length as usize);
        out
    })
}

/// The record is refused so by every call that takes one, whatever the output.
fn is_refused(record: &[u8], number: u64, place: usize) {
    let mut out = vec![0xA5; record.len()];
    for room in [0, record.len()] {
        let out = &mut out[..room];
        for code in CODES {
            let said = write_reel(record, code, out);
            assert_eq!(said, refused(number, place), "code {code}");
        }
        let said = write_nearest(record, 1, out);
        assert_eq!(said, refused(number, place), "nearest");
        assert_eq!(list_cards(record, out), refused(number, place), "listed");
        let said = take_cards(record, &blank_listing(), out);
        assert_eq!(said, refused(number, place), "taken");
    }
    assert!(out.iter().all(|&byte| byte == 0xA5));
}

/// The record is taken by every call, with this T and N. It is what taking its own listing gives, byte
/// for byte, and the length is its own; the reels are those of its new form, and come back as that, into
/// an output as long as that. Its samples fit every code.
fn is_taken(record: &[u8], traces: u64, samples: u64, new_form: &[u8]) {
    let length = record.len();
    let mut out = vec![0xA5; length + 1];
    let taken = Taken {
        traces,
        samples,
        length: length as u64,
    };
    assert_eq!(list_cards(record, &mut out), Ok(3240));
    let listing = out[..3240].to_vec();
    out.fill(0xA5);
    let short = take_cards(record, &listing, &mut out[..length - 1]);
    assert_eq!(short, refused(10, length));
    assert!(out.iter().all(|&byte| byte == 0xA5));
    assert_eq!(take_cards(record, &listing, &mut out), Ok(taken));
    assert_eq!(out[..length], *record);
    assert_eq!(out[length], 0xA5);

    assert_eq!(new_form.len() as u64, length_read(traces, samples));
    for code in CODES {
        let length = 3600 + traces as usize * (240 + width(code) * samples as usize);
        let taken = Taken {
            traces,
            samples,
            length: length as u64,
        };
        let mut reel = vec![0xA5; length];
        let short = write_reel(record, code, &mut reel[1..]);
        assert_eq!(short, refused(10, length));
        assert!(reel.iter().all(|&byte| byte == 0xA5));
        assert_eq!(write_reel(record, code, &mut reel), Ok(taken));
        let mut of_new_form = vec![0xA5; length];
        assert_eq!(write_reel(new_form, code, &mut of_new_form), Ok(taken));
        assert!(of_new_form == reel, "code {code}");

        assert_eq!(
            read_into(&reel, new_form.len() - 1),
            refused(10, new_form.len())
        );
        let again = read_into(&reel, new_form.len() + 1);
        assert!(again.as_deref() == Ok(new_form), "code {code}");
    }
}

/// Pairs whose values every code has, no two neighbours alike: 1 to 127, over and over.
fn small_pairs(samples: usize, first: usize) -> Vec<[u8; 6]> {
    (first..first + samples)
        .map(|index| Pair::of_value(1 + (index % 127) as i32, 0).bytes())
        .collect()
}

/// A trace in the earlier form: one field, whatever N.
fn earlier(pairs: &[[u8; 6]]) -> Vec<&[[u8; 6]]> {
    vec![pairs]
}

/// A trace in the new form.
fn new(pairs: &[[u8; 6]]) -> Vec<&[[u8; 6]]> {
    pairs.chunks(6_000).collect()
}

/// Tags, lengths and what is returned, for reels of every code. With one byte less it is 10, and the
/// earlier record's length is no longer enough.
#[test]
fn lengths_of_records() {
    for (samples, fields, end, one, two) in LENGTHS {
        for code in CODES {
            let reel = zeros(code, samples, 1);
            counted(&reel, 1, samples as u64, 0);
            assert_eq!(read_into(&reel, one - 1), refused(10, one));
            let record = read_into(&reel, one + 100).expect("a reel that is taken");
            assert_eq!(record.len(), one);
            for (&tag, &length) in TAGS.iter().zip(fields) {
                assert_eq!(record[tag], 0x04, "N {samples}, {tag}");
                assert_eq!(record[tag + 1..tag + 3], length.to_be_bytes());
                let pairs = &record[tag + 3..tag + 3 + usize::from(length)];
                assert!(pairs.iter().all(|&byte| byte == 0x00));
            }
            let last = TAGS[fields.len() - 1] + 3 + usize::from(fields[fields.len() - 1]);
            assert_eq!(last, end);
            assert_eq!(record[end..], [0x05, 0x00, 0x04, 0x00, 0x00, 0x00, 0x01]);

            let reel = zeros(code, samples, 2);
            assert_eq!(read_into(&reel, two - 1), refused(10, two));
            let record = read_into(&reel, two).expect("a reel that is taken");
            assert_eq!(record[end..end + 3], [0x03, 0x00, 0xB4]);
            assert_eq!(record[end + 183], 0x04);
            assert_eq!(record[two - 4..], [0x00, 0x00, 0x00, 0x02]);
            assert_eq!(read_into(&zeros(code, samples, 0), 3272), refused(10, 3273));
        }
    }
}

/// The last sample of a field, the first of the next, and the ends: 1 to 5 stand where they are due, by
/// reading and by writing under each code.
#[test]
fn samples_at_the_ends_of_fields() {
    let places = [3_452, 39_446, 39_455, 75_449, 75_458];
    let held: [[u8; 6]; 5] = [
        [0x00, 0x00, 0x00, 0x00, 0x00, 0x01],
        [0x00, 0x01, 0x00, 0x00, 0x00, 0x01],
        [0x00, 0x00, 0x00, 0x00, 0x00, 0x03],
        [0x00, 0x02, 0x00, 0x00, 0x00, 0x01],
        [0x00, 0x00, 0x00, 0x00, 0x00, 0x05],
    ];
    let mut record = record_of(&[&vec![[0; 6]; 12_001]]);
    assert_eq!(record.len(), 75_471);
    for (place, pair) in places.into_iter().zip(held) {
        record[place..place + 6].copy_from_slice(&pair);
    }
    for (code, words) in [
        (
            1,
            [
                0x4110_0000,
                0x4120_0000,
                0x4130_0000,
                0x4140_0000,
                0x4150_0000u32,
            ],
        ),
        (2, [1, 2, 3, 4, 5]),
        (3, [1 << 16, 2 << 16, 3 << 16, 4 << 16, 5 << 16]),
        (4, [1, 2, 3, 4, 5]),
        (
            5,
            [
                0x3F80_0000,
                0x4000_0000,
                0x4040_0000,
                0x4080_0000,
                0x40A0_0000,
            ],
        ),
        (8, [1 << 24, 2 << 24, 3 << 24, 4 << 24, 5 << 24]),
    ] {
        let mut reel = zeros(code, 12_001, 1);
        reel[3668..3672].copy_from_slice(&[0xD8, 0xF0, 0xD8, 0xF0]);
        reel[3714..3718].copy_from_slice(&[0x2E, 0xE1, 0x07, 0xD0]);
        let width = width(code);
        for (sample, bits) in [0, 5_999, 6_000, 11_999, 12_000].into_iter().zip(words) {
            let place = 3840 + width * sample;
            reel[place..place + width].copy_from_slice(&word(bits)[..width]);
        }
        assert_eq!(
            read_into(&reel, 75_471).as_ref(),
            Ok(&record),
            "code {code}"
        );
        let mut written = vec![0xA5; reel.len()];
        assert!(write_reel(&record, code, &mut written).is_ok());
        assert!(written == reel, "code {code}");
        let mut nearest = vec![0xA5; reel.len()];
        let said = write_nearest(&record, code, &mut nearest).expect("a valid record");
        assert_eq!(said.changed, 0);
        assert!(nearest == reel, "code {code}");
    }
}

/// Each sample stands at 3 bytes for each field up to its own, and at 6 for each sample before it.
#[test]
fn every_sample_has_its_place() {
    for samples in [6_000, 6_001, 8_001, 12_000, 12_001, 32_767] {
        let mut reel = zeros(2, samples, 2);
        for trace in 0..2 {
            for sample in 0..samples {
                let place = 3600 + trace * (240 + 4 * samples) + 240 + 4 * sample;
                let number = 2 * (trace * 40_000 + sample) as u32 + 1;
                reel[place..place + 4].copy_from_slice(&number.to_be_bytes());
            }
        }
        let record = read_into(&reel, 400_000).expect("a reel that is taken");
        let stride = (record.len() - 3273) / 2;
        for trace in 0..2 {
            for sample in 0..samples {
                let place = 3266 + trace * stride + 186 + 3 * (sample / 6_000) + 6 * sample;
                let number = 2 * (trace * 40_000 + sample) as i32 + 1;
                assert_eq!(record[place..place + 6], pair(0, number));
            }
        }
        let mut written = vec![0xA5; reel.len()];
        assert!(write_reel(&record, 2, &mut written).is_ok());
        assert!(read_into(&written, record.len()).as_ref() == Ok(&record));
    }
}

/// Words that are not normal count in every field.
#[test]
fn words_of_every_field_are_counted() {
    let mut words = vec![0x4110_0000; 32_767];
    for (count, sample) in [
        0, 5_999, 6_000, 11_999, 12_000, 18_000, 24_000, 30_000, 32_766,
    ]
    .into_iter()
    .enumerate()
    {
        words[sample] = 0x4201_0000;
        counted(&reel_of(1, &[&words]), 1, 32_767, count as u64 + 1);
    }
    counted(&reel_of(1, &[&words, &words]), 2, 32_767, 18);
}

/// N is from 1 to 32,767: 32,768 is the most negative number. Fields 115 take the reel's N or 0.
#[test]
fn counts_of_samples_on_a_reel() {
    for samples in [0, 32_768, 32_769, 40_000, 65_535u16] {
        let mut reel = zeros(8, 1, 0);
        put_number(&mut reel, 3220, samples);
        assert_eq!(read_into(&reel, 3273), refused(3, 3220), "{samples}");
        assert_eq!(look_up(&reel, 0, 3221), refused(3, 3220), "{samples}");
        assert_eq!(read_eagle(&reel, &mut []), refused(2, 3224), "{samples}");
        put_number(&mut reel, 3224, 1);
        assert_eq!(read_eagle(&reel, &mut []), refused(3, 3220), "{samples}");
        put_number(&mut reel, 3216, 0);
        assert_eq!(read_into(&reel, 3273), refused(3, 3220), "{samples}");
    }
    for samples in [1, 6_001, 8_000, 8_001, 10_923, 32_766, 32_767u16] {
        let reel = zeros(8, samples.into(), 3);
        counted(&reel, 3, samples.into(), 0);
        assert_eq!(look_up(&reel, 0, 3221), Ok(samples.into()));
        assert_eq!(look_up(&reel, 3, 115), Ok(samples.into()));
        let mut other = reel.clone();
        let second = 3600 + 240 + usize::from(samples);
        put_number(&mut other, second + 114, samples);
        counted(&other, 3, samples.into(), 0);
        for count in [samples - 1, samples + 1, samples | 0x8000] {
            if count != 0 {
                put_number(&mut other, second + 114, count);
                assert_eq!(read_into(&other, 0), refused(7, second + 114));
                assert_eq!(look_up(&other, 1, 1), refused(7, second + 114));
            }
        }
        // A byte more, and a byte less.
        let length = 3600 + 3 * (240 + usize::from(samples));
        let longer = [&reel[..], &[0]].concat();
        assert_eq!(read_into(&longer, 0), refused(5, length));
        let last = length - 240 - usize::from(samples);
        assert_eq!(read_into(&reel[..length - 1], 0), refused(5, last));
    }
}

/// A word without a value is found in every field, and its place is that on the reel. So is the header of
/// the trace behind a long one, by look-up too.
#[test]
fn causes_behind_many_samples() {
    for sample in [0, 5_999, 6_000, 8_000, 12_000, 32_766] {
        for (code, number, bits) in [(4, 9, 0x0100_0000), (5, 19, 0x7F80_0000)] {
            let mut reel = zeros(code, 32_767, 2);
            let place = 3600 + 131_308 + 240 + 4 * sample;
            reel[place..place + 4].copy_from_slice(&word(bits));
            assert_eq!(read_into(&reel, 396_879), refused(number, place));
            assert_eq!(look_up(&reel, 2, 1), refused(number, place));
        }
    }
    let mut reel = zeros(1, 32_767, 3);
    let third = 3600 + 2 * 131_308;
    reel[third..third + 4].copy_from_slice(&[0x00, 0x00, 0x12, 0x34]);
    assert_eq!(look_up(&reel, 3, 1), Ok(0x1234));
    assert_eq!(look_up(&reel, 2, 1), Ok(0));
    assert_eq!(look_up(&reel, 4, 1), refused(15, 0));
    put_number(&mut reel, third + 70, 7);
    assert_eq!(look_up(&reel, 1, 1), refused(18, third + 70));
}

/// In tag 02 of a record N is at 3226, between the interval and the code.
#[test]
fn counts_of_samples_in_a_record() {
    let pairs = vec![one(); 6_001];
    let record = record_of(&[&pairs]);
    for samples in [0, 32_768, 36_000, 65_535] {
        let mut record = record.clone();
        put_number(&mut record, 3226, samples);
        is_refused(&record, 13, 3226);
        put_number(&mut record, 3230, 1);
        is_refused(&record, 13, 3226);
        put_number(&mut record, 3222, 0);
        is_refused(&record, 13, 3222);
    }
    // Another N within its limits is first missed in field 115.
    for samples in [1, 6_000, 6_002, 8_001, 32_767] {
        let mut record = record.clone();
        put_number(&mut record, 3226, samples);
        is_refused(&record, 13, 3383);
    }
    // Then by the length of a field: 6 in place of 12 in the second, 36,000 in place of 35,994 in the
    // first, and a third that is missing.
    for (samples, place) in [(6_002, 39_452), (5_999, 3_449), (12_001, 39_452)] {
        let mut record = record.clone();
        put_number(&mut record, 3226, samples);
        put_number(&mut record, 3383, samples);
        is_refused(&record, 12, place);
    }
    // A record without traces has any N.
    for samples in [1, 6_001, 8_001, 32_767] {
        let mut record = record_of_fields(samples, &[]);
        assert_eq!(record.len(), 3273);
        is_taken(&record, 0, samples as u64, &record);
        put_number(&mut record, 3226, 32_768);
        is_refused(&record, 13, 3226);
    }
}

/// Records of every N at which a field begins or ends come back as they were.
#[test]
fn records_in_the_new_form() {
    for (samples, _, _, one, two) in LENGTHS {
        let first = small_pairs(samples, 0);
        let second = small_pairs(samples, 50);
        let record = record_of(&[&first]);
        assert_eq!(record.len(), one);
        is_taken(&record, 1, samples as u64, &record);
        let record = record_of(&[&first, &second]);
        assert_eq!(record.len(), two);
        is_taken(&record, 2, samples as u64, &record);
    }
}

/// An earlier trace has one field of 6,001 to 8,000 samples. Its record is 3 bytes shorter, and comes back
/// in the new form.
#[test]
fn records_in_the_earlier_form() {
    for (samples, length, long) in [
        (6_001, 39_465, 39_468),
        (6_002, 39_471, 39_474),
        (7_000, 45_459, 45_462),
        (7_999, 51_453, 51_456),
        (8_000, 51_459, 51_462),
    ] {
        let pairs = small_pairs(samples, 0);
        let record = record_of_fields(samples, &[earlier(&pairs)]);
        let new_form = record_of(&[&pairs]);
        assert_eq!((record.len(), new_form.len()), (length, long));
        is_taken(&record, 1, samples as u64, &new_form);
        let mut reel = vec![0xA5; 3840 + samples];
        assert!(write_reel(&record, 8, &mut reel).is_ok());
        assert_eq!(read_into(&reel, length), refused(10, long));
    }
}

/// Every pattern of forms over up to four traces, each trace with other samples than the one before.
#[test]
fn traces_of_either_form() {
    for samples in [6_001, 8_000] {
        let pairs: Vec<Vec<[u8; 6]>> = (0..4)
            .map(|trace| small_pairs(samples, 30 * trace))
            .collect();
        for traces in 1..=4 {
            let pairs = &pairs[..traces];
            let all: Vec<&[[u8; 6]]> = pairs.iter().map(|pairs| &pairs[..]).collect();
            let new_form = record_of(&all);
            for pattern in 0..1 << traces {
                let is_earlier = |trace: usize| pattern >> trace & 1 == 1;
                let fields: Vec<Vec<&[[u8; 6]]>> = pairs
                    .iter()
                    .enumerate()
                    .map(|(trace, pairs)| {
                        if is_earlier(trace) {
                            earlier(pairs)
                        } else {
                            new(pairs)
                        }
                    })
                    .collect();
                let record = record_of_fields(samples, &fields);
                let shorter = (0..traces).filter(|&trace| is_earlier(trace)).count();
                assert_eq!(record.len(), new_form.len() - 3 * shorter);
                is_taken(&record, traces as u64, samples as u64, &new_form);
            }
        }
    }
}

/// A corrected listing leaves the forms of the traces as they are.
#[test]
fn corrected_listings_keep_the_form() {
    let pairs = small_pairs(6_001, 0);
    for fields in [
        vec![earlier(&pairs), new(&pairs)],
        vec![new(&pairs), earlier(&pairs)],
        vec![earlier(&pairs), earlier(&pairs)],
        vec![new(&pairs), new(&pairs)],
    ] {
        let record = record_of_fields(6_001, &fields);
        let mut corrected = record.clone();
        corrected[3..13]
            .copy_from_slice(&[0xC3, 0x40, 0xF1, 0x40, 0xC3, 0xD3, 0xC9, 0xC5, 0xD5, 0xE3]);
        let mut listing = blank_listing();
        listing[..10].copy_from_slice(b"C 1 CLIENT");
        let mut out = vec![0xA5; record.len()];
        let taken = Taken {
            traces: 2,
            samples: 6_001,
            length: record.len() as u64,
        };
        let short = take_cards(&record, &listing, &mut out[1..]);
        assert_eq!(short, refused(10, record.len()));
        assert_eq!(take_cards(&record, &listing, &mut out), Ok(taken));
        assert!(out == corrected);
    }
}

/// Of all lengths of the first field of 6,001 samples, 36,000 and 36,006 alone are one of its; the others
/// are 12 at its tag. Under 36,006 the head of the second field is taken for a pair, e 1024, and under
/// 36,000 the last pair of a single field for the head of the second, which it isn't.
#[test]
fn every_length_of_the_first_field() {
    let pairs = small_pairs(6_001, 0);
    for (fields, other, cause) in [
        (new(&pairs), 36_006, refused(13, 39_452)),
        (earlier(&pairs), 36_000, refused(12, 39_452)),
    ] {
        let mut record = record_of_fields(6_001, &[fields]);
        for length in 0..=u16::MAX {
            put_number(&mut record, 3450, length);
            let said = list_cards(&record, &mut []);
            let expected = match length {
                _ if length == other => cause,
                36_000 | 36_006 => refused(10, 3240),
                _ => refused(12, 3449),
            };
            assert_eq!(said, expected, "{length}");
        }
    }
}

/// A single field of each N from 5,990 on: up to 6,000 it is the new form's, up to 8,000 the earlier
/// one's, and none from 8,001 on, though two bytes tell lengths up to 10,922 samples.
#[test]
fn single_fields() {
    for samples in (5_990..6_010)
        .chain(7_990..8_010)
        .chain([10_000, 10_921, 10_922])
    {
        let pairs = vec![one(); samples];
        let record = record_of_fields(samples, &[earlier(&pairs)]);
        assert_eq!(record.len(), 3459 + 6 * samples);
        if samples <= 8_000 {
            assert_eq!(list_cards(&record, &mut []), refused(10, 3240), "{samples}");
            let mut out = vec![0xA5; 3840 + samples];
            assert!(write_reel(&record, 8, &mut out).is_ok(), "{samples}");
            let long = length_read(1, samples as u64) as usize;
            assert_eq!(read_into(&out, long - 1), refused(10, long));
        } else {
            is_refused(&record, 12, 3449);
        }
    }
    // From 10,923 on the lowest 16 bits of 6N are another length.
    for samples in [10_923, 12_000, 12_001, 18_000, 32_767] {
        let pairs = vec![one(); samples];
        let mut record = record_of_fields(samples, &[new(&pairs)]);
        put_number(&mut record, 3450, (6 * samples % 65_536) as u16);
        is_refused(&record, 12, 3449);
    }
}

/// The pairs of a trace in fields of other lengths: the place is the tag of the first that differs, of one
/// that is missing, or of one too many.
#[test]
fn other_fields() {
    let cases: [(usize, &[usize], usize); 24] = [
        (5_999, &[5_998, 1], 3_449),
        (5_999, &[5_998], 3_449),
        (6_000, &[3_000, 3_000], 3_449),
        (6_000, &[5_999, 1], 3_449),
        (6_000, &[6_000, 0], 39_452),
        (6_000, &[6_000, 6_000], 39_452),
        (6_001, &[6_000], 39_452),
        (6_001, &[6_000, 0], 39_452),
        (6_001, &[6_000, 2], 39_452),
        (6_001, &[6_000, 6_000], 39_452),
        (6_001, &[6_000, 6_001], 39_452),
        (6_001, &[6_000, 1, 1], 39_461),
        (6_001, &[6_001, 1], 39_458),
        (6_001, &[5_999, 2], 3_449),
        (6_001, &[1, 6_000], 3_449),
        (6_001, &[8_000], 3_449),
        (7_000, &[7_000, 1_000], 45_452),
        (8_000, &[6_000, 6_000], 39_452),
        (8_000, &[4_000, 4_000], 3_449),
        (12_000, &[6_000, 6_000, 0], 75_455),
        (12_001, &[6_000, 6_001], 39_452),
        (12_001, &[6_000, 6_000, 6_000], 75_455),
        (12_001, &[6_000, 5_999, 2], 39_452),
        (12_001, &[6_001, 6_000], 3_449),
    ];
    for (samples, fields, place) in cases {
        let pairs = vec![one(); 6_001];
        let long = vec![one(); 8_000];
        let fields = fields.iter().map(|&share| {
            let pairs = if share > 6_001 { &long } else { &pairs };
            &pairs[..share]
        });
        let record = record_of_fields(samples, &[fields.collect()]);
        is_refused(&record, 12, place);
    }
}

/// Every other tag and each other byte of its length, at each field of 12,001 samples and of a single
/// field.
#[test]
fn tags_and_lengths_of_every_field() {
    let pairs = small_pairs(12_001, 0);
    let single = small_pairs(6_500, 0);
    for (record, tags) in [
        (record_of(&[&pairs]), &TAGS[..3]),
        (record_of_fields(6_500, &[earlier(&single)]), &TAGS[..1]),
    ] {
        assert_eq!(list_cards(&record, &mut []), refused(10, 3240));
        for &tag in tags {
            let mut other = record.clone();
            for place in tag..tag + 3 {
                for byte in (0..=255).filter(|&byte| byte != record[place]) {
                    other[place] = byte;
                    let said = list_cards(&other, &mut []);
                    assert_eq!(said, refused(12, tag), "{byte:02X} at {place}");
                }
                is_refused(&other, 12, tag);
                other[place] = record[place];
            }
            other[tag] = 0x05;
            is_refused(&other, 12, tag);
            other[tag] = 0x03;
            is_refused(&other, 12, tag);
        }
    }
}

/// A record that is cut anywhere about the ends of its fields: the place is the tag of the field that is
/// cut, or its own length where the tag is gone. Of 12,001 samples the tags are at 3266, 3449, 39,452,
/// 75,455 and 75,464.
#[test]
fn records_cut_anywhere() {
    let pairs = small_pairs(12_001, 0);
    let record = record_of(&[&pairs]);
    let tags = [3_266, 3_449, 39_452, 75_455, 75_464, 75_471];
    for ends in tags.windows(2) {
        let (tag, end) = (ends[0], ends[1]);
        for cut in (tag..tag + 20).chain(end - 20..end) {
            if (tag..end).contains(&cut) {
                is_refused(&record[..cut], 12, tag);
            }
        }
    }
    // Of a single field of 6,500, behind which tag 05 is at 42,452, and in the new form at 42,455.
    let pairs = small_pairs(6_500, 0);
    let record = record_of_fields(6_500, &[earlier(&pairs)]);
    for cut in (3_449..3_470).chain([20_000, 39_451, 39_452, 39_453, 39_455, 42_451]) {
        is_refused(&record[..cut], 12, 3_449);
    }
    for cut in 42_452..42_459 {
        is_refused(&record[..cut], 12, 42_452);
    }
    let record = record_of(&[&pairs]);
    for cut in [39_452, 39_453, 39_454, 39_455, 42_454] {
        is_refused(&record[..cut], 12, 39_452);
    }
    for cut in 42_455..42_462 {
        is_refused(&record[..cut], 12, 42_455);
    }
}

/// A pair that isn't canonical has its own place: 3 bytes for each field up to its own are counted. In the
/// earlier form there is one field.
#[test]
fn pairs_of_every_field() {
    for (samples, sample, place) in [
        (12_001, 0, 3_452),
        (12_001, 1, 3_458),
        (12_001, 5_999, 39_446),
        (12_001, 6_000, 39_455),
        (12_001, 6_001, 39_461),
        (12_001, 11_999, 75_449),
        (12_001, 12_000, 75_458),
        (8_001, 8_000, 51_455),
        (32_767, 17_999, 111_452),
        (32_767, 18_000, 111_461),
        (32_767, 30_000, 183_467),
        (32_767, 32_766, 200_063),
    ] {
        let mut pairs = vec![one(); samples];
        for bad in [
            even(),
            pair(1, 0),
            pair(252, 1),
            pair(-281, 1),
            pair(0, i32::MIN),
        ] {
            pairs[sample] = bad;
            is_refused(&record_of(&[&pairs]), 13, place);
        }
        // The first of several.
        pairs[sample..].fill(even());
        is_refused(&record_of(&[&pairs]), 13, place);
    }
    for (samples, sample, place, in_new_form) in [
        (6_001, 0, 3_452, 3_452),
        (6_001, 5_999, 39_446, 39_446),
        (6_001, 6_000, 39_452, 39_455),
        (8_000, 6_000, 39_452, 39_455),
        (8_000, 7_999, 51_446, 51_449),
    ] {
        let mut pairs = vec![one(); samples];
        pairs[sample] = even();
        let record = record_of_fields(samples, &[earlier(&pairs)]);
        is_refused(&record, 13, place);
        is_refused(&record_of(&[&pairs]), 13, in_new_form);
    }
}

/// Each field first by 12, then by 13, then the next field: 12,001 samples have every cause at first, and
/// each is mended in turn.
#[test]
fn field_by_field() {
    let right = record_of(&[&vec![one(); 12_001]]);
    let mut record = right.clone();
    for (tag, last) in [(3_449, 39_446), (39_452, 75_449), (75_455, 75_458)] {
        record[tag] = 0x05;
        record[last..last + 6].copy_from_slice(&even());
    }
    record[75_464] = 0x04;
    for (number, place, length) in [
        (12, 3_449, 3),
        (13, 39_446, 6),
        (12, 39_452, 3),
        (13, 75_449, 6),
        (12, 75_455, 3),
        (13, 75_458, 6),
        (12, 75_464, 3),
    ] {
        is_refused(&record, number, place);
        record[place..place + length].copy_from_slice(&right[place..place + length]);
    }
    is_taken(&record, 1, 12_001, &right);

    // A bad pair of the first field comes before a second field that is wrong in any way, or missing.
    let mut pairs = vec![one(); 6_001];
    pairs[0] = even();
    let record = record_of(&[&pairs]);
    for change in [
        |record: &mut Vec<u8>| record[39_452] = 0x03,
        |record: &mut Vec<u8>| record[39_453] = 0x01,
        |record: &mut Vec<u8>| record[39_454] = 0x00,
        |record: &mut Vec<u8>| record.truncate(39_452),
        |record: &mut Vec<u8>| record.truncate(39_460),
        |record: &mut Vec<u8>| record.push(0x00),
        |record: &mut Vec<u8>| record[39_467] = 0x02,
    ] {
        let mut record = record.clone();
        change(&mut record);
        is_refused(&record, 13, 3_452);
    }
    // A first field that is cut has no pairs to judge.
    is_refused(&record[..39_451], 12, 3_449);
}

/// The causes of a trace come before those of the next, whose place follows from the form of the first.
/// With 6,001 samples the second trace's tag 03 is at 39,461 behind a trace in the new form, and at
/// 39,458 behind an earlier one.
#[test]
fn places_behind_either_form() {
    let pairs = vec![one(); 6_001];
    let mut bad = pairs.clone();
    bad[6_000] = even();
    for (fields, second, tags, end) in [
        (
            vec![new(&pairs), new(&pairs)],
            39_461,
            &[39_644, 75_647][..],
            75_656,
        ),
        (
            vec![new(&pairs), earlier(&pairs)],
            39_461,
            &[39_644],
            75_653,
        ),
        (
            vec![earlier(&pairs), new(&pairs)],
            39_458,
            &[39_641, 75_644],
            75_653,
        ),
        (
            vec![earlier(&pairs), earlier(&pairs)],
            39_458,
            &[39_641],
            75_650,
        ),
    ] {
        let record = record_of_fields(6_001, &fields);
        assert_eq!(record.len(), end + 7);
        for place in [second].iter().chain(tags).chain([&end]) {
            let mut record = record.clone();
            record[*place] = 0x02;
            is_refused(&record, 12, *place);
            record.truncate(place + 2);
            is_refused(&record, 12, *place);
            record.truncate(*place);
            is_refused(&record, 12, *place);
        }
        for (offset, number) in [(68, 1), (70, 1), (114, 6_000), (116, 1_999)] {
            let mut record = record.clone();
            put_number(&mut record, second + 3 + offset, number);
            is_refused(&record, 13, second + 3 + offset);
        }
        for count in [0, 1, 3, 0x0100_0002u32] {
            let mut record = record.clone();
            record[end + 3..].copy_from_slice(&count.to_be_bytes());
            is_refused(&record, 12, end);
        }
        is_refused(&[&record[..], &[0x05]].concat(), 12, end + 7);

        // The last pair of either trace: that of the first comes first.
        let mut record = record;
        let last = end - 6;
        record[last..end].copy_from_slice(&even());
        is_refused(&record, 13, last);
        record[second - 6..second].copy_from_slice(&even());
        is_refused(&record, 13, second - 6);
    }
}

/// The form of one trace tells nothing of another: each first field may have either length.
#[test]
fn each_trace_is_judged_by_itself() {
    let pairs = small_pairs(7_000, 0);
    let fields = [new(&pairs), earlier(&pairs), new(&pairs), earlier(&pairs)];
    let record = record_of_fields(7_000, &fields);
    // Strides: 42,189 in the new form and 42,186 in the earlier one.
    let tags = [3_266, 45_455, 87_641, 129_830];
    assert_eq!(record.len(), 172_016 + 7);
    for tag in tags {
        assert_eq!(record[tag..tag + 3], [0x03, 0x00, 0xB4]);
        for length in [0, 6, 35_994, 36_006, 41_994, 42_006, 48_000, 65_535] {
            let mut record = record.clone();
            put_number(&mut record, tag + 184, length);
            is_refused(&record, 12, tag + 183);
        }
    }
    is_taken(&record, 4, 7_000, &record_of(&[&pairs[..]; 4]));
}

/// The first sample that doesn't fit, by its own place; after every 12 and 13, and before 10.
#[test]
fn misfits_of_every_field() {
    let mut pairs = vec![one(); 12_001];
    for (sample, place) in [
        (12_000, 75_458),
        (11_999, 75_449),
        (6_000, 39_455),
        (5_999, 39_446),
    ] {
        pairs[sample] = wide();
        let record = record_of(&[&pairs]);
        let mut out = vec![0xA5; 60_000];
        for code in CODES {
            for room in [0, 60_000] {
                let said = write_reel(&record, code, &mut out[..room]);
                assert_eq!(said, refused(14, place));
            }
        }
        assert!(out.iter().all(|&byte| byte == 0xA5));
        assert_eq!(list_cards(&record, &mut out), Ok(3240));
        let mut record = record;
        record[75_458..75_464].copy_from_slice(&even());
        is_refused(&record, 13, 75_458);
        record[75_455] = 0x00;
        is_refused(&record, 12, 75_455);
    }
    let mut pairs = vec![one(); 6_001];
    pairs[6_000] = wide();
    let record = record_of_fields(6_001, &[earlier(&pairs), new(&pairs)]);
    assert_eq!(write_reel(&record, 1, &mut []), refused(14, 39_452));
    let record = record_of_fields(6_001, &[new(&pairs), earlier(&pairs)]);
    assert_eq!(write_reel(&record, 1, &mut []), refused(14, 39_455));
    let right = vec![one(); 6_001];
    let record = record_of_fields(6_001, &[earlier(&right), earlier(&pairs)]);
    assert_eq!(write_reel(&record, 1, &mut []), refused(14, 75_644));
    let record = record_of_fields(6_001, &[earlier(&right), new(&pairs)]);
    assert_eq!(write_reel(&record, 1, &mut []), refused(14, 75_647));

    // In the first trace, before 13 and 12 in the second.
    let mut record = record_of_fields(6_001, &[new(&pairs), new(&right)]);
    assert_eq!(write_reel(&record, 1, &mut []), refused(14, 39_455));
    record[75_650..75_656].copy_from_slice(&even());
    is_refused(&record, 13, 75_650);
    record[75_647] = 0x05;
    is_refused(&record, 12, 75_647);
    put_number(&mut record, 39_461 + 3 + 116, 0);
    is_refused(&record, 13, 39_580);
}

/// Nearest writing rounds the samples of every field, in either form: halves become 0, and count.
#[test]
fn nearest_writing_of_every_field() {
    for samples in [6_001, 8_000] {
        let mut pairs = vec![one(); samples];
        let mut rounded = pairs.clone();
        for half in [0, 5_999, 6_000, samples - 1] {
            pairs[half] = pair(-1, 1);
            rounded[half] = pair(0, 0);
        }
        let changed = if samples == 6_001 { 2 * 3 } else { 2 * 4 };
        for fields in [
            vec![new(&pairs), new(&pairs)],
            vec![new(&pairs), earlier(&pairs)],
            vec![earlier(&pairs), new(&pairs)],
            vec![earlier(&pairs), earlier(&pairs)],
        ] {
            let record = record_of_fields(samples, &fields);
            for code in [2, 3, 8] {
                let length = 3600 + 2 * (240 + width(code) * samples);
                let mut reel = vec![0xA5; length];
                let written = NearestWritten {
                    traces: 2,
                    samples: samples as u64,
                    length: length as u64,
                    changed,
                };
                let short = write_nearest(&record, code, &mut reel[1..]);
                assert_eq!(short, refused(10, length));
                assert_eq!(write_nearest(&record, code, &mut reel), Ok(written));
                let again = read_into(&reel, 200_000);
                assert!(again == Ok(record_of(&[&rounded, &rounded])), "code {code}");
            }
        }
    }
}

/// Eagle reels of long traces have the records of the plain ones, and their causes stand behind as many
/// samples.
#[test]
fn long_eagle_reels() {
    for (samples, _, _, _, two) in LENGTHS {
        let mut plain = zeros(1, samples, 2);
        for (index, word) in plain[3840..].chunks_exact_mut(4).take(samples).enumerate() {
            word.copy_from_slice(&[0x44, 0x10, (index >> 8) as u8, index as u8]);
        }
        let length = 240 + 4 * samples;
        let mut reel = plain[..3600].to_vec();
        for trace in plain[3600..].chunks_exact(length) {
            reel.extend(trace);
            reel.extend([0xFF; 960]);
        }
        let mut out = vec![0xA5; two + 1];
        let read = ReelRead {
            traces: 2,
            samples: samples as u64,
            length: two as u64,
            not_normal: 0,
        };
        assert_eq!(read_eagle(&reel, &mut out[..two - 1]), refused(10, two));
        assert!(out.iter().all(|&byte| byte == 0xA5));
        assert_eq!(read_eagle(&reel, &mut out), Ok(read));
        assert_eq!(read_into(&plain, two).as_deref(), Ok(&out[..two]));
        assert_eq!(out[two], 0xA5);
        let end = 3600 + length + 960 - 2;
        reel[end] = 0x00;
        assert_eq!(read_eagle(&reel, &mut out), refused(20, end));
    }
}

/// Reels of any words under each code, as long as CR 8 allows: the record's fields, one after another,
/// hold the pairs of the words; and the reel written from it comes back, in the earlier form too where
/// there is one.
#[test]
fn any_long_reel() {
    let mut row = numbers(32_767);
    let mut next = || row.next().expect("a row without an end");
    for samples in [5_999, 6_000, 6_001, 7_000, 8_000, 8_001, 12_001, 32_767] {
        for code in CODES {
            let mut reel = zeros(code, samples, 2);
            let width = width(code);
            let mut pairs = Vec::new();
            for trace in reel[3600..].chunks_exact_mut(240 + width * samples) {
                for room in trace[240..].chunks_exact_mut(width) {
                    let bits = match code {
                        4 => next() & 0x00FF_FFFF,
                        5 => next() & 0xBFFF_FFFF,
                        _ => next(),
                    };
                    room.copy_from_slice(&word(bits)[..width]);
                    let mut single = [0; 4];
                    single[..width].copy_from_slice(room);
                    let read = read_word(code, single).expect("a word that has a value");
                    pairs.push(read.pair);
                }
            }
            let record = read_into(&reel, 400_000).expect("a reel that is taken");
            let (first, second) = pairs.split_at(samples);
            assert!(
                record == record_of(&[first, second]),
                "N {samples}, code {code}"
            );
            let mut written = vec![0xA5; reel.len()];
            assert!(write_reel(&record, code, &mut written).is_ok());
            assert!(read_into(&written, record.len()).as_ref() == Ok(&record));
            if (6_001..=8_000).contains(&samples) {
                let mixed = record_of_fields(samples, &[earlier(first), new(second)]);
                let mut of_mixed = vec![0xA5; reel.len()];
                assert!(write_reel(&mixed, code, &mut of_mixed).is_ok());
                assert!(of_mixed == written, "N {samples}, code {code}");
            }
        }
    }
}
