//! Elevations and coordinates with their scalars, by document 02's CR 2.

use super::{array, number_at, put_number};

/// The numbers that one scalar acts on in each trace, by their offsets in the trace header.
pub struct Group {
    pub scalar: usize,
    numbers: &'static [usize],
}

/// Field 69 acts on fields 41 to 65, field 71 on fields 73 to 85.
pub const GROUPS: [Group; 2] = [
    Group {
        scalar: 68,
        numbers: &[40, 44, 48, 52, 56, 60, 64],
    },
    Group {
        scalar: 70,
        numbers: &[72, 76, 80, 84],
    },
];

/// The powers of ten of a record, the smallest first: each one's scalar, and how many
/// ten-thousandths it is.
const POWERS: [(i16, i64); 9] = [
    (-10_000, 1),
    (-1_000, 10),
    (-100, 100),
    (-10, 1_000),
    (1, 10_000),
    (10, 100_000),
    (100, 1_000_000),
    (1_000, 10_000_000),
    (10_000, 100_000_000),
];

impl Group {
    /// Whether the scalar in a trace header is one that a reel may have.
    pub fn is_allowed(&self, header: &[u8]) -> bool {
        let size = self.scalar_in(header).unsigned_abs();
        matches!(size, 0 | 1 | 10 | 100 | 1_000 | 10_000)
    }

    /// Whether a record's scalar is that of the smallest power at which its numbers can stand.
    pub fn is_smallest(&self, fields: &[u8]) -> bool {
        let scalar = self.scalar_in(fields);
        POWERS.iter().any(|&(of_power, _)| of_power == scalar)
            && smallest_power(&self.values(fields)).0 == scalar
    }

    /// Puts scalar and numbers as a record holds them in the place of those of a reel, whose scalar
    /// is allowed.
    pub fn respell(&self, fields: &mut [u8]) {
        let values = self.values(fields);
        let (scalar, power) = smallest_power(&values);
        put_number(fields, self.scalar, scalar as u16);
        for (&offset, value) in self.numbers.iter().zip(values) {
            let number = (value / power) as i32;
            fields[offset..offset + 4].copy_from_slice(&number.to_be_bytes());
        }
    }

    fn scalar_in(&self, fields: &[u8]) -> i16 {
        number_at(fields, self.scalar) as i16
    }

    /// The exact scaled values under an allowed scalar, in ten-thousandths: each is less than 2^58. A
    /// group of four has zeros behind, which stand at every power.
    fn values(&self, fields: &[u8]) -> [i64; 7] {
        let unit = match i64::from(self.scalar_in(fields)) {
            0 => 10_000,
            scalar if scalar > 0 => 10_000 * scalar,
            scalar => 10_000 / -scalar,
        };
        let mut values = [0; 7];
        for (value, &offset) in values.iter_mut().zip(self.numbers) {
            let number = i32::from_be_bytes(array(&fields[offset..offset + 4]));
            *value = i64::from(number) * unit;
        }
        values
    }
}

/// The smallest power at which all the values are whole and fit 32 signed bits. The power that they
/// were scaled by is one, so there is a smallest.
fn smallest_power(values: &[i64; 7]) -> (i16, i64) {
    for (scalar, power) in POWERS {
        let numbers = i64::from(i32::MIN) * power..=i64::from(i32::MAX) * power;
        let fit = |value: &i64| numbers.contains(value) && value % power == 0;
        if values.iter().all(fit) {
            return (scalar, power);
        }
    }
    unreachable!("the values are those of 32-bit numbers under an allowed scalar")
}
