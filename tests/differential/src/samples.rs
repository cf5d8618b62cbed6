//! Single words and pairs.

use crate::compare::Comparison;
use crate::random::Random;
use independent::WordRead;

pub const CODES: [u32; 6] = [1, 2, 3, 4, 5, 8];

/// A code that is none of the six. Some are one of them in their last bytes.
pub fn bad_code(random: &mut Random) -> u32 {
    let any = (random.next() as u32).max(9);
    random.pick(&[
        0,
        6,
        7,
        9,
        10,
        12,
        13,
        255,
        257,
        260,
        261,
        264,
        65_537,
        0x0100_0003,
        0x0500_0000,
        1 << 31,
        u32::MAX,
        any,
    ])
}

pub fn pair(exponent: i16, mantissa: i32) -> [u8; 6] {
    let [e0, e1] = exponent.to_be_bytes();
    let [m0, m1, m2, m3] = mantissa.to_be_bytes();
    [e0, e1, m0, m1, m2, m3]
}

/// A number of at most `width` bits of the kinds at which mistakes show: few bits set, few clear, a
/// run of bits, the neighbours of a power of two, and now and then any number.
pub fn structured(random: &mut Random, width: u32) -> u32 {
    let all = u32::MAX >> (32 - width);
    let mut bit = || 1 << random.below(width as usize);
    let few = bit() | bit() | bit();
    let (one, other) = (bit(), bit());
    all & match random.below(8) {
        0 => one,
        1 => one | other,
        2 => few,
        3 => !few,
        4 => u32::max(one, other).wrapping_sub(u32::min(one, other)),
        5 => one.wrapping_sub(1),
        6 => one + 1,
        _ => random.next() as u32,
    }
}

/// A word that is valid under the code, of any of the kinds that follow from its parts.
pub fn structured_word(random: &mut Random, code: u32) -> [u8; 4] {
    let bits = match code {
        1 => {
            let sign = random.below(2) as u32;
            let characteristic = match random.below(4) {
                0 => random.pick(&[0, 1, 2, 5, 6, 63, 64, 65, 69, 70, 71, 126, 127]),
                1 => structured(random, 7),
                2 => random.between(60, 80) as u32,
                _ => random.below(128) as u32,
            };
            sign << 31 | characteristic << 24 | structured(random, 24)
        }
        2 => structured(random, 32),
        3 => structured(random, 16) << 16 | random.next() as u32 & 0xFFFF,
        5 => {
            let sign = random.below(2) as u32;
            let exponent = match random.below(4) {
                0 => random.pick(&[0, 0, 1, 2, 23, 24, 126, 127, 128, 149, 150, 151, 253, 254]),
                1 => structured(random, 8).min(254),
                2 => random.between(120, 160) as u32,
                _ => random.below(255) as u32,
            };
            sign << 31 | exponent << 23 | structured(random, 23)
        }
        8 => structured(random, 8) << 24 | random.next() as u32 & 0x00FF_FFFF,
        _ => {
            let gain = match random.below(3) {
                0 => random.pick(&[0, 1, 14, 15, 16, 17, 127, 128, 254, 255]),
                1 => structured(random, 8),
                _ => random.below(256) as u32,
            };
            gain << 16 | structured(random, 16)
        }
    };
    bits.to_be_bytes()
}

/// Any word that is valid under the code.
pub fn random_word(random: &mut Random, code: u32) -> [u8; 4] {
    let mut word = (random.next() as u32).to_be_bytes();
    if code == 4 {
        word[0] = 0;
    }
    if code == 5 && word[0] & 0x7F == 0x7F {
        word[1] &= 0x7F;
    }
    word
}

/// The least and the most of the infinities and not-a-numbers of either sign, quiet and signalling.
pub const NO_VALUES: [u32; 12] = [
    0x7F80_0000,
    0xFF80_0000,
    0x7F80_0001,
    0xFF80_0001,
    0x7FBF_FFFF,
    0xFFBF_FFFF,
    0x7FC0_0000,
    0xFFC0_0000,
    0x7FC0_0001,
    0x7FA5_A5A5,
    0x7FFF_FFFF,
    0xFFFF_FFFF,
];

/// A word of code 5 that has no value: one of those, or any other.
pub fn no_value(random: &mut Random) -> [u8; 4] {
    let any = random.next() as u32 | 0x7F80_0000;
    let bits = if random.once_in(2) {
        random.pick(&NO_VALUES)
    } else {
        any
    };
    bits.to_be_bytes()
}

/// A canonical pair. Few have a word under codes 2 to 4 and 8, more under code 5, most under code 1.
pub fn canonical_pair(random: &mut Random) -> [u8; 6] {
    if random.once_in(50) {
        return pair(0, 0);
    }
    let exponent = match random.below(4) {
        0 => random.between(-280, 251),
        1 => random.between(-17, 33),
        2 => random.pick(&[
            -280, -279, -277, -276, -257, -256, -255, -254, -151, -150, -149, -148, -127, -126,
            -125, 6, 7, 8, 103, 104, 105, 126, 127, 128, 227, 228, 229, 250, 251,
        ]),
        _ => random.between(-260, 235),
    };
    let width = random.between(1, 31) as u32;
    let magnitude = if random.once_in(2) {
        structured(random, width)
    } else {
        random.next() as u32 >> (32 - width)
    };
    let mantissa = (magnitude | 1) as i32;
    pair(
        exponent as i16,
        if random.once_in(2) {
            mantissa
        } else {
            -mantissa
        },
    )
}

/// A pair that isn't canonical, in one of the ways of not being so.
pub fn uncanonical_pair(random: &mut Random) -> [u8; 6] {
    let exponent = random.between(-280, 251) as i16;
    let mantissa = random.next() as i32 | 1;
    let outside = match random.below(4) {
        0 => random.pick(&[-281, 252]),
        1 => random.pick(&[i16::MIN, i16::MAX, -282, 253, -512, 256, 512]),
        2 => random.between(252, 32_767) as i16,
        _ => random.between(-32_768, -281) as i16,
    };
    let even = match random.below(3) {
        0 => (mantissa - 1).max(2),
        1 => 1 << random.between(1, 31),
        _ => -2 << random.between(0, 30),
    };
    match random.below(6) {
        0 => pair(exponent, even),
        1 => pair(if exponent == 0 { 1 } else { exponent }, 0),
        2 => pair(outside, mantissa),
        3 => pair(outside, 0),
        4 => pair(outside, even),
        _ => pair(exponent, i32::MIN),
    }
}

/// Reads a word and, if it is taken, writes its pair under every code. An IBM word is normal exactly
/// when code 1 gives it back.
fn word_there_and_back(compare: &mut Comparison, code: u32, word: [u8; 4]) {
    if let Some(WordRead { pair, not_normal }) = compare.read_word(code, word) {
        for target in CODES {
            let written = pair_there_and_back(compare, target, pair);
            if (code, target) == (1, 1) && not_normal != (written != Some(word)) {
                compare.differs(
                    "a word is normal and does not come back, or isn't and does",
                    || {
                        println!(
                            "word {word:02X?}, written {written:02X?}, not normal {not_normal}"
                        );
                    },
                );
            }
        }
    }
}

/// Writes a pair and, if it is taken, reads its word, which must give the pair again and be normal.
fn pair_there_and_back(compare: &mut Comparison, code: u32, pair: [u8; 6]) -> Option<[u8; 4]> {
    let word = compare.write_pair(code, pair)?;
    let again = compare.read_word(code, word);
    let normal = WordRead {
        pair,
        not_normal: false,
    };
    if again != Some(normal) {
        compare.differs("a pair that was written is not read again", || {
            println!("code {code}, pair {pair:02X?}, word {word:02X?}, read {again:02X?}");
        });
    }
    Some(word)
}

/// Reads a word of code 5 and, if it is taken, writes its pair under code 5. The word is taken exactly
/// when the host's own 32-bit float of its bits is a number, its pair has that number's value, and the
/// word comes back, but for a minus zero, which becomes a plus zero.
fn word_by_the_host(compare: &mut Comparison, bits: u32) {
    let host = f64::from(f32::from_bits(bits));
    let read = compare.read_word(5, bits.to_be_bytes());
    let held = read.map(|WordRead { pair, .. }| {
        let exponent = i64::from(i16::from_be_bytes([pair[0], pair[1]]));
        let mantissa = i32::from_be_bytes([pair[2], pair[3], pair[4], pair[5]]);
        // 31 bits and a power of two within its range: a 64-bit float has the value exactly.
        f64::from(mantissa) * f64::from_bits(((exponent + 1023) as u64) << 52)
    });
    let written = read.and_then(|WordRead { pair, .. }| pair_there_and_back(compare, 5, pair));
    let (held_by_the_host, again) = if host.is_finite() {
        let again = if host == 0.0 { 0 } else { bits };
        (Some(host), Some(again.to_be_bytes()))
    } else {
        (None, None)
    };
    if held != held_by_the_host || written != again {
        compare.differs("a word has another value than the host's float", || {
            println!("word {bits:08X}, host {host:e}, read {read:02X?}, written {written:02X?}");
        });
    }
}

/// Every word of code 5.
pub fn every_ieee_word(compare: &mut Comparison) {
    compare.stage("every word of code 5, by the host's floats");
    for bits in 0..=u32::MAX {
        word_by_the_host(compare, bits);
    }
}

/// Words of code 5 at the edges: the zeros, one, the ends of the subnormal words and of the normal ones.
const IEEE_EDGES: [u32; 12] = [
    0x0000_0000,
    0x0000_0001,
    0x0000_0002,
    0x0040_0000,
    0x007F_FFFE,
    0x007F_FFFF,
    0x0080_0000,
    0x0080_0001,
    0x3F80_0000,
    0x4B7F_FFFF,
    0x7F00_0000,
    0x7F7F_FFFF,
];

pub fn words(compare: &mut Comparison) {
    let mut random = Random::seeded(2);

    compare.stage("words of code 5 at the edges");
    for bits in IEEE_EDGES {
        for bits in [bits, bits | 0x8000_0000] {
            word_by_the_host(compare, bits);
            word_there_and_back(compare, 5, bits.to_be_bytes());
        }
    }
    for bits in NO_VALUES {
        for code in CODES {
            compare.read_word(code, bits.to_be_bytes());
        }
    }

    compare.stage("all samples of code 8");
    for byte in 0..=u8::MAX {
        for rest in [[0; 3], [0xFF; 3], [byte; 3], [0, 0, 1]] {
            word_there_and_back(compare, 8, [byte, rest[0], rest[1], rest[2]]);
        }
        for _ in 0..60 {
            let [rest @ .., _] = (random.next() as u32).to_be_bytes();
            word_there_and_back(compare, 8, [byte, rest[0], rest[1], rest[2]]);
        }
    }

    compare.stage("all words of code 3");
    for number in 0..=u16::MAX {
        let [high, low] = number.to_be_bytes();
        let rest = (random.next() as u16).to_be_bytes();
        word_there_and_back(compare, 3, [high, low, rest[0], rest[1]]);
    }

    compare.stage("a grid of words of code 1, and the same bytes under the others");
    let mut fractions: Vec<u32> = vec![0];
    for high in 0..24 {
        for low in 0..=high {
            fractions.push(1 << high | 1 << low);
            fractions.push((2 << high) - (1 << low));
        }
    }
    for first in 0..=255 {
        for &fraction in &fractions {
            for code in CODES {
                compare.read_word(code, (first << 24 | fraction).to_be_bytes());
            }
        }
    }

    compare.stage("a grid of words of code 4");
    for first in [0, 0, 0, 1, 128] {
        for gain in 0..=255 {
            for number in 0..512u32 {
                let number = number.wrapping_sub(256).rotate_left(number % 16) as u16;
                compare.read_word(
                    4,
                    (first << 24 | gain << 16 | u32::from(number)).to_be_bytes(),
                );
            }
        }
    }

    compare.stage("a grid of words of code 5, by the host's floats");
    fractions.retain(|&fraction| fraction < 1 << 23);
    for first in 0..512 {
        for &fraction in &fractions {
            word_by_the_host(compare, first << 23 | fraction);
            word_by_the_host(compare, first << 23 | (0x7F_FFFF - fraction));
        }
    }

    compare.stage("words of code 5, by the host's floats");
    for _ in 0..2_000_000 {
        word_by_the_host(compare, random.next() as u32);
        let word = structured_word(&mut random, 5);
        word_by_the_host(compare, u32::from_be_bytes(word));
    }

    for (code, stage) in [
        (1, "words of code 1"),
        (2, "words of code 2"),
        (4, "words of code 4"),
        (5, "words of code 5"),
    ] {
        compare.stage(stage);
        for _ in 0..2_000_000 {
            compare.read_word(code, (random.next() as u32).to_be_bytes());
            let word = structured_word(&mut random, code);
            compare.read_word(code, word);
        }
        for _ in 0..500_000 {
            let word = random_word(&mut random, code);
            word_there_and_back(compare, code, word);
            let word = structured_word(&mut random, code);
            word_there_and_back(compare, code, word);
        }
    }

    compare.stage("words of no code");
    for _ in 0..50_000 {
        let code = bad_code(&mut random);
        compare.read_word(code, (random.next() as u32).to_be_bytes());
    }
}

pub fn pairs(compare: &mut Comparison) {
    let mut random = Random::seeded(3);

    compare.stage("a grid of pairs");
    let mut mantissas = vec![0, i32::MIN, i32::MAX, -i32::MAX];
    for bit in 0..31 {
        let power = 1i32 << bit;
        for mantissa in [
            power,
            power - 1,
            power.wrapping_add(1),
            power.wrapping_mul(3),
            power.wrapping_mul(5),
        ] {
            mantissas.push(mantissa);
            mantissas.push(mantissa.wrapping_neg());
        }
    }
    for exponent in -300..=270 {
        for &mantissa in &mantissas {
            for code in CODES {
                pair_there_and_back(compare, code, pair(exponent, mantissa));
            }
        }
    }

    compare.stage("canonical pairs");
    for _ in 0..1_500_000 {
        let pair = canonical_pair(&mut random);
        for code in CODES {
            pair_there_and_back(compare, code, pair);
        }
    }

    compare.stage("pairs that aren't canonical");
    for _ in 0..200_000 {
        let pair = uncanonical_pair(&mut random);
        for code in CODES {
            compare.write_pair(code, pair);
        }
    }

    compare.stage("any pairs");
    for _ in 0..200_000 {
        let (first, second) = (random.next() as i16, random.next() as i32);
        for code in CODES {
            compare.write_pair(code, pair(first, second));
        }
    }

    compare.stage("pairs to no code");
    for _ in 0..50_000 {
        let code = bad_code(&mut random);
        let pair = canonical_pair(&mut random);
        compare.write_pair(code, pair);
        let pair = uncanonical_pair(&mut random);
        compare.write_pair(code, pair);
    }
}
