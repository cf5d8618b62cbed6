//! The scalars of a trace, fields 69 and 71, and the groups of fields that they act on. Which scalar a record has is for the library to say.

use crate::layout::{number, CODE_PLACE, COUNT_PLACE, FIRST_TRACE, HEADERS, INTERVAL_PLACE, TAG};
use aukpocket::read_reel;

/// The byte numbers of the two scalars: of elevations and depths, and of coordinates.
pub const ELEVATIONS: usize = 69;
pub const COORDINATES: usize = 71;

/// The byte number of the scalar that acts on the trace field at a byte number.
pub fn acting_on(byte_number: usize) -> Option<usize> {
    match byte_number {
        41..=65 => Some(ELEVATIONS),
        73..=85 => Some(COORDINATES),
        _ => None,
    }
}

/// The bytes of both groups and their scalars in a trace header, from field 41 to field 85.
pub const GROUPS: std::ops::Range<usize> = 40..88;

/// Both groups as a record has them, or none where no reel may have these scalars. The library is lent a reel of one trace that has them.
fn held(groups: &[u8]) -> Option<Vec<u8>> {
    let mut reel = [0; HEADERS + 240 + 4];
    for place in [INTERVAL_PLACE, COUNT_PLACE, CODE_PLACE] {
        reel[place + 1] = 1;
    }
    reel[HEADERS..][GROUPS].copy_from_slice(groups);
    let mut record = [0; FIRST_TRACE + TAG + 180 + TAG + 6 + TAG + 4];
    read_reel(&reel, &mut record).ok()?;
    Some(record[FIRST_TRACE + TAG..][GROUPS].to_vec())
}

/// The scalar that a record has for a group with these header bytes, or none where no reel may have theirs. The other scalar counts as 0,
/// which is allowed.
pub fn of_record(header: &[u8], scalar: usize) -> Option<i16> {
    let place = |scalar: usize| scalar - 1 - GROUPS.start;
    let mut groups = header.get(GROUPS)?.to_vec();
    let other = place(ELEVATIONS + COORDINATES - scalar);
    groups[other..other + 2].fill(0);
    Some(number(&held(&groups)?, place(scalar)) as i16)
}

/// Whether two numbers of four bytes, each under the two bytes of its scalar, have one value: whether a record has them alike, each alone in
/// its group. None where a scalar isn't allowed.
pub fn same_value(one: (&[u8], &[u8]), other: (&[u8], &[u8])) -> Option<bool> {
    let alone = |(number, scalar): (&[u8], &[u8])| {
        let mut groups = vec![0; GROUPS.len()];
        groups[..4].copy_from_slice(number);
        groups[28..30].copy_from_slice(scalar);
        held(&groups)
    };
    Some(alone(one)? == alone(other)?)
}

#[cfg(test)]
mod tests {
    use super::*;

    /// A trace header with one number in each group, and its scalars.
    fn header(elevation: i32, coordinate: i32, scalars: [i16; 2]) -> [u8; 180] {
        let mut header = [0; 180];
        header[48..52].copy_from_slice(&elevation.to_be_bytes());
        header[84..88].copy_from_slice(&coordinate.to_be_bytes());
        header[68..70].copy_from_slice(&scalars[0].to_be_bytes());
        header[70..72].copy_from_slice(&scalars[1].to_be_bytes());
        header
    }

    #[test]
    fn scalars_of_a_record() {
        let both = |header: [u8; 180]| [of_record(&header, 69), of_record(&header, 71)];
        assert_eq!(both(header(0, 0, [0, 1])), [Some(-10000), Some(-10000)]);
        // 10 times 214748364 fits 32 signed bits, and 10 times 214748365 doesn't.
        assert_eq!(
            both(header(214_748_365, -214_748_364, [-1, 1])),
            [Some(1), Some(-10)]
        );
        assert_eq!(
            both(header(1000, i32::MIN, [-10, 10000])),
            [Some(-10000), Some(10000)]
        );
        // Each is judged whatever the other is.
        assert_eq!(both(header(5, 441_200, [7, 1])), [None, Some(-1000)]);
        assert_eq!(
            both(header(5, 441_200, [10, -10_001])),
            [Some(-10000), None]
        );
        assert_eq!(of_record(&[0; 87], 69), None);
    }

    #[test]
    fn values() {
        let same = |a: i32, s: i16, b: i32, t: i16| {
            same_value(
                (&a.to_be_bytes(), &s.to_be_bytes()),
                (&b.to_be_bytes(), &t.to_be_bytes()),
            )
        };
        assert_eq!(same(1000, -10, 10_000, -100), Some(true));
        assert_eq!(same(1000, -10, 10_000, -10), Some(false));
        assert_eq!(same(5, 0, 5, -1), Some(true));
        assert_eq!(same(0, 10_000, 0, -10_000), Some(true));
        assert_eq!(same(i32::MIN, 1, i32::MIN, 10), Some(false));
        assert_eq!(same(1, 7, 1, 7), None);
    }

    #[test]
    fn groups() {
        let fields = crate::fields::TRACE.map(|field| field.0 as usize);
        let group = |scalar| {
            fields
                .iter()
                .filter(move |&&b| acting_on(b) == Some(scalar))
        };
        assert!(group(69).eq(&[41, 45, 49, 53, 57, 61, 65]));
        assert!(group(71).eq(&[73, 77, 81, 85]));
    }
}
