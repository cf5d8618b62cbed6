//! The order of two records, and why it is that: where they first differ, in words. Which is the lesser, and what is refused, is for the
//! library to say. The difference is found in the bytes of two records that it has taken, and has to tell the same.

use crate::compare::{part_at, Part};
use crate::extent;
use crate::files::{step, View};
use crate::forms::{traces, Form, Trace};
use crate::layout::{RecordShape, FIRST_TRACE, PAIR, SAMPLES};
use crate::refusals;
use crate::rounding::{told_apart, value};
use crate::system;
use crate::trouble::Trouble;
use aukpocket::{compare, RecordRefusal, Refusal, Which};
use std::cmp::Ordering;
use std::path::Path;

/// What became of a mapped file whose bytes can't be had.
pub const LOST: &str = "was cut while it was read, or can't be read from its disk";

/// The order of two records on disk, and why it is that, in words.
pub fn of_files(paths: [&Path; 2]) -> Result<(Ordering, String), Trouble> {
    let views = [View::of(paths[0])?, View::of(paths[1])?];
    let records = [&views[0][..], &views[1][..]];
    show(paths, records);
    let told = of_records(paths, records).and_then(|order| {
        let reason = reason(order, records).map_err(|found| {
            let names = paths.map(|path| path.display().to_string()).join(", ");
            Trouble::differs(format!("{names}: {found}; report this"))
        })?;
        Ok((order, reason))
    });
    // A change that another program made explains whatever was found.
    for (view, path) in views.iter().zip(paths) {
        view.unchanged(path)?;
    }
    told
}

/// Shows that two records are compared, where that takes long, and names them where one is lost meanwhile.
pub fn show(paths: [&Path; 2], records: [&[u8]; 2]) {
    let [first, second] = paths.map(|path| path.display());
    let length = (records[0].len() + records[1].len()) as u64;
    step(format_args!("comparing {first} with {second}"), length);
    system::say_where_lost(&format!("{first} or {second}: {LOST}"));
}

/// The order of two records.
pub fn of_records(paths: [&Path; 2], records: [&[u8]; 2]) -> Result<Ordering, Trouble> {
    let [first, second] = records;
    compare(first, second).map_err(|refused| {
        let RecordRefusal {
            which,
            number,
            beside,
        } = refused;
        let (path, record) = match which {
            Which::First => (paths[0], first),
            Which::Second => (paths[1], second),
        };
        let refusal = Refusal { number, beside };
        Trouble::refused(path.display(), refusals::of_record(record, 1, refusal))
    })
}

/// Why two records that were taken have that order; or, as the error, what their bytes tell against it.
fn reason(order: Ordering, records: [&[u8]; 2]) -> Result<String, String> {
    let found = first_difference(records);
    let by_bytes = found.as_ref().map_or(Ordering::Equal, |found| found.order);
    let said = match found {
        Some(found) => found.said,
        None => same(records)?,
    };
    if by_bytes != order {
        let [by_library, by_bytes] = [order, by_bytes].map(in_words);
        return Err(format!(
            "the library says that the first record is {by_library} the second, and by their bytes it is {by_bytes} it: {said}"
        ));
    }
    Ok(said)
}

/// How a record stands to another, in words.
pub fn in_words(order: Ordering) -> &'static str {
    match order {
        Ordering::Less => "lesser than",
        Ordering::Equal => "equal to",
        Ordering::Greater => "greater than",
    }
}

/// What is said of two records that hold the same: their traces, and whether they have them in the same form.
fn same(records: [&[u8]; 2]) -> Result<String, String> {
    let [first, second] = records;
    let shape = RecordShape::of(first);
    let held = format!(
        "they hold the same, {}",
        extent(shape.traces as u64, shape.samples.into())
    );
    if first == second {
        return Ok(format!("{held}, byte for byte"));
    }
    let (one, other) = traces(first)
        .zip(traces(second))
        .find(|(one, other)| one.form != other.form)
        .ok_or("they hold the same, and have other bytes in the same form")?;
    let [form, other_form] = [one, other].map(|trace| match trace.form {
        Form::New => "the new",
        Form::Earlier => "the earlier",
    });
    Ok(format!(
        "{held}, in different forms: trace {} is in {form} form in the first record and in {other_form} in the second ({} and {} bytes)",
        one.number,
        first.len(),
        second.len()
    ))
}

/// The first difference of two records: which is the lesser by it, and what it is, in words.
struct Difference {
    order: Ordering,
    said: String,
}

/// The first difference of two records that were taken, in the order of what they hold. None where they hold the same.
fn first_difference(records: [&[u8]; 2]) -> Option<Difference> {
    let fronts = records.map(|record| &record[..FIRST_TRACE]);
    if let Some(place) = unlike(fronts) {
        return Some(at(records, [place; 2]));
    }
    let [mut ours, mut theirs] = records.map(traces);
    loop {
        match (ours.next(), theirs.next()) {
            (Some(one), Some(other)) => {
                if let Some(places) = in_trace(records, [one, other]) {
                    return Some(at(records, places));
                }
            }
            (None, None) => return None,
            _ => return Some(ended(records)),
        }
    }
}

/// The places at which a trace of one record first differs from that of another, which has as many samples.
fn in_trace(records: [&[u8]; 2], both: [Trace; 2]) -> Option<[usize; 2]> {
    let from = |starts: [usize; 2], length: usize| {
        let [first, second] = records;
        let pieces = [
            &first[starts[0]..][..length],
            &second[starts[1]..][..length],
        ];
        unlike(pieces).map(|behind| starts.map(|start| start + behind))
    };
    let header = from(both.map(|trace| trace.start), SAMPLES);
    if header.is_some() {
        return header;
    }
    let mut sample = 1;
    while sample <= both[0].samples {
        // As many as stand side by side in both.
        let starts = both.map(|trace| trace.pair(sample));
        let counts = [0, 1].map(|i| {
            let field = both[i].field_at(starts[i]);
            field.first + field.count - sample
        });
        let count = counts[0].min(counts[1]);
        let places = from(starts, PAIR * count);
        if places.is_some() {
            return places;
        }
        sample += count;
    }
    None
}

/// The first place at which two pieces of one length differ.
fn unlike(pieces: [&[u8]; 2]) -> Option<usize> {
    let [one, other] = pieces;
    match one == other {
        true => None,
        false => one.iter().zip(other).position(|(a, b)| a != b),
    }
}

/// The difference that stands at a place of each record.
fn at(records: [&[u8]; 2], places: [usize; 2]) -> Difference {
    let parts = [0, 1].map(|i| part_at(records[i], places[i]));
    let bytes = [0, 1].map(|i| &records[i][parts[i].bytes.clone()]);
    let shown = |part: &Part, record: &[u8]| {
        let text = part.shown(|place| record.get(place).copied());
        text.unwrap_or_default()
    };
    let [mut first, mut second] = [0, 1].map(|i| shown(&parts[i], records[i]));
    // A card byte has no sign, every number of a header has one, and a sample is its value.
    let order = match bytes {
        [[one], [other]] => one.cmp(other),
        [[a, b], [c, d]] => i16::from_be_bytes([*a, *b]).cmp(&i16::from_be_bytes([*c, *d])),
        [[a, b, c, d], [e, f, g, h]] => {
            i32::from_be_bytes([*a, *b, *c, *d]).cmp(&i32::from_be_bytes([*e, *f, *g, *h]))
        }
        pairs if pairs.iter().all(|pair| pair.len() == PAIR) => {
            let values = pairs.map(value);
            let [one, other] = told_apart(values);
            first = format!("{first} ({one})");
            second = format!("{second} ({other})");
            values[0].total_cmp(&values[1])
        }
        // A tag or a length, which valid records have alike.
        _ => Ordering::Equal,
    };
    let place = match parts.each_ref().map(|part| part.bytes.start) {
        [one, other] if one == other => format!("place {one}"),
        [one, other] => format!("places {one} and {other}"),
    };
    let name = &parts[0].name;
    Difference {
        order,
        said: format!("{name} is {first} in the first record and {second} in the second ({place})"),
    }
}

/// The difference of two records of which one has traces behind the last that the other has.
fn ended(records: [&[u8]; 2]) -> Difference {
    let counts = records.map(|record| traces(record).count());
    let order = counts[0].cmp(&counts[1]);
    let (which, other, [less, more]) = match order {
        Ordering::Greater => ("second", "first", [counts[1], counts[0]]),
        _ => ("first", "second", counts),
    };
    let s = if less == 1 { "" } else { "s" };
    Difference {
        order,
        said: format!(
            "the traces of the {which} record end first: it has {less} trace{s} and the {other} has {more}, and all before agrees"
        ),
    }
}

#[cfg(test)]
mod tests {
    use super::*;
    use crate::forms::{tests::long, with_earlier};
    use crate::layout::{binary_place, END, TAG};

    /// Why two records have the order that the library finds.
    fn told(first: &[u8], second: &[u8]) -> (Ordering, String) {
        let order = compare(first, second).unwrap();
        (order, reason(order, [first, second]).unwrap())
    }

    /// A record with other bytes at a place.
    fn with(record: &[u8], place: usize, bytes: &[u8]) -> Vec<u8> {
        let mut record = record.to_vec();
        record[place..place + bytes.len()].copy_from_slice(bytes);
        record
    }

    /// A difference in each kind of part, told of either record first.
    #[test]
    fn each_part() {
        use Ordering::{Greater, Less};
        let record = long(2, 3);
        let second_trace = record.len() - END - 204;
        for (place, bytes, order, said, turned) in [
            (TAG, &[0xC1][..], Greater, "card 1, column 1 is C1, `A`, in the first record and 40 in the second (place 3)", "card 1, column 1 is 40 in the first record and C1, `A`, in the second (place 3)"),
            (TAG + 3199, &[0x3F], Less, "card 40, column 80 is 3F, `.`, in the first record and 40 in the second (place 3202)", ""),
            (binary_place(3205), &[0xFF; 4], Less, "binary header, field 3205, line is -1 in the first record and 0 in the second (place 3210)", ""),
            (binary_place(3259), &[0x80, 0], Less, "binary header, field 3259, vibrator is -32768 in the first record and 0 in the second (place 3264)", ""),
            (FIRST_TRACE + TAG, &[0, 0, 1, 0], Greater, "trace 1, field 1, line-trace is 256 in the first record and 0 in the second (place 3269)", ""),
            (second_trace + TAG + 40, &[0xFF, 0xFF, 0xFF, 0x9C], Less, "trace 2, field 41, group-elevation is -100 under scalar -10000 in the first record and 0 under scalar -10000 in the second (place 3513)", ""),
            (second_trace + TAG + 178, &[0, 2], Greater, "trace 2, field 179, overtravel is 2 in the first record and 0 in the second (place 3651)", ""),
            (FIRST_TRACE + SAMPLES + TAG + 6, &[0xFF, 0xFF], Less, "trace 1, sample 2 is 1 * 2^-1 (0.5) in the first record and 1 * 2^0 (1) in the second (place 3458)", "trace 1, sample 2 is 1 * 2^0 (1) in the first record and 1 * 2^-1 (0.5) in the second (place 3458)"),
            (second_trace + SAMPLES + TAG + 12, &[0, 0, 0xFF, 0xFF, 0xFF, 0xFD], Less, "trace 2, sample 3 is -3 * 2^0 (-3) in the first record and 7921 * 2^0 (7921) in the second (place 3668)", ""),
        ] {
            let other = with(&record, place, bytes);
            assert_eq!(told(&other, &record), (order, said.to_string()));
            let (reversed, why) = told(&record, &other);
            assert_eq!(reversed, order.reverse());
            assert!(turned.is_empty() || why == turned, "{why}");
            // The bytes are never taken for what the library doesn't say.
            for wrong in [Ordering::Equal, order.reverse()] {
                assert!(reason(wrong, [&other, &record]).unwrap_err().ends_with(said));
            }
        }
    }

    /// Of several differences the first is told.
    #[test]
    fn the_first() {
        let record = long(2, 3);
        let mut other = record.clone();
        for place in [
            record.len() - END - 1,
            FIRST_TRACE + SAMPLES + TAG + 11,
            3267 + 30,
            3232,
            700,
        ] {
            other[place] ^= 0x02;
            let [first, second] = [&record[..], &other[..]];
            let found = first_difference([first, second]).unwrap();
            let part = part_at(&record, place);
            assert!(found.said.starts_with(&part.name), "{}", found.said);
            assert_eq!(Ok(found.order), compare(first, second));
        }
    }

    /// Records whose traces end first, down to one without.
    #[test]
    fn ends() {
        let records = [0, 1, 2, 3].map(|traces| long(traces, 2));
        for (i, one) in records.iter().enumerate() {
            for (k, other) in records.iter().enumerate() {
                let (order, why) = told(one, other);
                assert_eq!(order, i.cmp(&k));
                let s = |count: usize| if count == 1 { "" } else { "s" };
                let expected = match order {
                    Ordering::Less => format!("the traces of the first record end first: it has {i} trace{} and the second has {k}, and all before agrees", s(i)),
                    Ordering::Equal => format!("they hold the same, {i} trace{} of 2 samples, byte for byte", s(i)),
                    Ordering::Greater => format!("the traces of the second record end first: it has {k} trace{} and the first has {i}, and all before agrees", s(k)),
                };
                assert_eq!(why, expected);
            }
        }
    }

    /// Traces of every mixture of forms against each other: what they hold is told, each sample by its place in either.
    #[test]
    fn forms() {
        let new = long(2, 6100);
        let mixtures = [&[][..], &[1], &[2], &[1, 2]];
        for (earlier, others) in mixtures
            .iter()
            .flat_map(|one| mixtures.map(|other| (one, other)))
        {
            let [first, second] =
                [earlier, &others].map(|traces| with_earlier(new.clone(), traces));
            let (order, why) = told(&first, &second);
            assert_eq!(order, Ordering::Equal);
            let unlike = [1, 2]
                .into_iter()
                .find(|i| earlier.contains(i) != others.contains(i));
            let expected = match unlike {
                None => "they hold the same, 2 traces of 6100 samples, byte for byte".to_string(),
                Some(i) => {
                    let [one, other] = [earlier, &others].map(|traces| match traces.contains(&i) {
                        true => "the earlier",
                        false => "the new",
                    });
                    format!(
                        "they hold the same, 2 traces of 6100 samples, in different forms: trace {i} is in {one} form in the first record and in {other} in the second ({} and {} bytes)",
                        first.len(),
                        second.len()
                    )
                }
            };
            assert_eq!(why, expected);
            for (i, sample) in [
                (1, 1),
                (1, 6000),
                (1, 6001),
                (2, 1),
                (2, 6000),
                (2, 6001),
                (2, 6100),
            ] {
                let [place, other_place] =
                    [&first, &second].map(|record| traces(record).nth(i - 1).unwrap().pair(sample));
                let less = with(&first, place, &[0, 20, 0xFF, 0xFF, 0xFF, 0xFF]);
                let (order, why) = told(&less, &second);
                assert_eq!(order, Ordering::Less);
                let start = format!(
                    "trace {i}, sample {sample} is -1 * 2^20 (-1048576) in the first record and "
                );
                let end = match place == other_place {
                    true => format!(" in the second (place {place})"),
                    false => format!(" in the second (places {place} and {other_place})"),
                };
                assert!(why.starts_with(&start) && why.ends_with(&end), "{why}");
            }
        }
    }
}
