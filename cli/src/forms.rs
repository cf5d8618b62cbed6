//! How the samples of a trace stand in a record: in fields of 6,000, the last with the rest. 6,001 to 8,000 may also stand in a single field,
//! as every record had them before; that is the earlier form. Each trace has a form of its own, which the length of its first field of
//! samples tells, and so a length of its own: places are found by going from trace to trace.

use crate::layout::{binary_place, number, FIRST_PAIR, FIRST_TRACE, PAIR, SAMPLES, TAG};
use std::iter;
use std::ops::{Range, RangeInclusive};

/// The samples of each field but the last; and those of a trace that may have the earlier form.
const SHARE: usize = 6000;
pub const SINGLE: RangeInclusive<usize> = 6001..=8000;

/// How the samples of a trace stand in a record.
#[derive(Clone, Copy, PartialEq, Eq, Debug)]
pub enum Form {
    /// In fields of 6,000.
    New,
    /// In a single field, of more.
    Earlier,
}

/// A trace of a record, or one that would begin at a place: its number, from 1, the place of its tag 03, its samples and their form.
#[derive(Clone, Copy, PartialEq, Eq, Debug)]
pub struct Trace {
    pub number: usize,
    pub start: usize,
    pub samples: usize,
    pub form: Form,
}

/// A field of samples: the place of its tag 04, its first sample, counted from 1 in its trace, and how many it has.
#[derive(Clone, Copy, PartialEq, Eq, Debug)]
pub struct Field {
    pub place: usize,
    pub first: usize,
    pub count: usize,
}

impl Field {
    /// The bytes of its samples.
    pub fn content(&self) -> usize {
        PAIR * self.count
    }

    /// The places of its samples.
    pub fn pairs(&self) -> Range<usize> {
        self.place + TAG..self.end()
    }

    /// Its tag and length.
    pub fn head(&self) -> [u8; TAG] {
        let [high, low] = (self.content() as u16).to_be_bytes();
        [0x04, high, low]
    }

    fn end(&self) -> usize {
        self.place + TAG + self.content()
    }
}

impl Trace {
    /// Trace i, whose tag 03 stands, or would stand, at a place. Its form is the new one wherever it isn't the earlier one.
    fn at(record: &[u8], i: usize, start: usize) -> Trace {
        let samples = samples_of(record);
        let length = usize::from(number(record, start + SAMPLES + 1));
        let form = match SINGLE.contains(&samples) && length == PAIR * samples {
            true => Form::Earlier,
            false => Form::New,
        };
        Trace {
            number: i,
            start,
            samples,
            form,
        }
    }

    /// The same in that form.
    pub fn in_form(self, form: Form) -> Trace {
        Trace { form, ..self }
    }

    /// The one behind it.
    fn next(&self, record: &[u8]) -> Trace {
        Trace::at(record, self.number + 1, self.end())
    }

    /// The samples of each of its fields but the last.
    fn share(&self) -> usize {
        match self.form {
            Form::New => SHARE,
            Form::Earlier => self.samples,
        }
    }

    /// One of the fields of its samples, from 0.
    fn field(self, i: usize) -> Field {
        let share = self.share();
        Field {
            place: self.start + SAMPLES + i * (TAG + PAIR * share),
            first: i * share + 1,
            count: share.min(self.samples.saturating_sub(i * share)),
        }
    }

    /// The fields of its samples.
    pub fn fields(self) -> impl Iterator<Item = Field> {
        (0..self.samples.div_ceil(self.share())).map(move |i| self.field(i))
    }

    /// The field of samples in which a place of this trace falls, behind its header.
    pub fn field_at(self, place: usize) -> Field {
        let behind = place.saturating_sub(self.start + SAMPLES);
        self.field(behind / (TAG + PAIR * self.share()))
    }

    /// The sample, from 1, in whose pair a place of this trace falls.
    pub fn sample_at(self, place: usize) -> usize {
        let field = self.field_at(place);
        field.first + place.saturating_sub(field.pairs().start) / PAIR
    }

    /// The place of a sample's pair. Those of a field stand side by side.
    pub fn pair(&self, sample: usize) -> usize {
        let before = sample - 1;
        self.start + FIRST_PAIR + PAIR * before + TAG * (before / self.share())
    }

    /// The samples of one of its fields, in words: which they are, where they aren't all that it has.
    pub fn named(&self, field: Field) -> String {
        match field.count == self.samples {
            true => "samples".to_string(),
            false => format!(
                "samples {} to {}",
                field.first,
                field.first + field.count - 1
            ),
        }
    }

    /// The place behind it.
    pub fn end(&self) -> usize {
        self.start + SAMPLES + TAG * self.samples.div_ceil(self.share()) + PAIR * self.samples
    }
}

/// The samples a trace, as they stand in a record.
fn samples_of(record: &[u8]) -> usize {
    number(record, binary_place(3221)).into()
}

/// The traces of a record, as far as they are whole.
pub fn traces(record: &[u8]) -> impl Iterator<Item = Trace> + '_ {
    let first = Trace::at(record, 1, FIRST_TRACE);
    iter::successors(Some(first), |trace| Some(trace.next(record)))
        .take_while(|trace| trace.end() <= record.len())
}

/// The trace in which a place falls behind the headers of a record. At its end, and behind that, there is none: it is the one that would
/// begin there.
pub fn trace_at(record: &[u8], place: usize) -> Trace {
    let place = place.min(record.len());
    let mut trace = Trace::at(record, 1, FIRST_TRACE);
    while trace.end() <= place {
        trace = trace.next(record);
    }
    trace
}

/// The form of a record's traces, for people. None where there is nothing to tell: a trace has one field and could have no other, or there
/// are none.
pub fn told(record: &[u8]) -> Option<String> {
    let samples = samples_of(record);
    let (mut all, mut earlier) = (0, 0);
    for trace in traces(record) {
        all += 1;
        earlier += usize::from(trace.form == Form::Earlier);
    }
    if samples <= SHARE || all == 0 {
        return None;
    }
    let fields = format!("{} fields of samples a trace", samples.div_ceil(SHARE));
    Some(match all - earlier {
        _ if !SINGLE.contains(&samples) => fields,
        0 => "earlier: a single field of samples a trace".to_string(),
        new if earlier > 0 => format!("mixed: {new} of {all} traces new, {earlier} earlier"),
        _ => format!("new: {fields}"),
    })
}

/// How many of so many traces have the earlier form, in words; nothing where none has.
pub fn in_earlier(earlier: usize, all: usize) -> Option<String> {
    match earlier {
        0 => None,
        _ if earlier == all => Some("in the earlier form".to_string()),
        _ => Some(format!("{earlier} of {all} traces in the earlier form")),
    }
}

/// A record in the new form with these traces, by their numbers from the least on, in the earlier one.
pub fn with_earlier(mut record: Vec<u8>, earlier: &[usize]) -> Vec<u8> {
    if earlier.is_empty() {
        return record;
    }
    let all: Vec<Trace> = traces(&record).collect();
    let mut to = FIRST_TRACE;
    let mut put = |record: &mut Vec<u8>, from: Range<usize>| {
        record.copy_within(from.clone(), to);
        to += from.len();
        to
    };
    for trace in &all {
        let single = earlier.binary_search(&trace.number).is_ok();
        let tag = put(&mut record, trace.start..trace.start + SAMPLES);
        for field in trace.fields() {
            // A single field has one tag and length.
            let from = match single && field.first > 1 {
                true => field.pairs().start,
                false => field.place,
            };
            put(&mut record, from..field.end());
        }
        if single {
            let head = trace.in_form(Form::Earlier).field(0).head();
            record[tag..tag + TAG].copy_from_slice(&head);
        }
    }
    let end = all.last().map_or(FIRST_TRACE, Trace::end)..record.len();
    let length = put(&mut record, end);
    record.truncate(length);
    record
}

#[cfg(test)]
pub mod tests {
    use super::*;
    use crate::layout::{RecordShape, CODE_PLACE, COUNT_PLACE, END, HEADERS, INTERVAL_PLACE};
    use aukpocket::{read_reel, record_length, write_reel};

    /// A record of so many traces and samples, whose neighbours all differ.
    pub fn long(traces: usize, samples: usize) -> Vec<u8> {
        let mut reel = vec![0; HEADERS + traces * (240 + 2 * samples)];
        for (place, number) in [(INTERVAL_PLACE, 1), (COUNT_PLACE, samples), (CODE_PLACE, 3)] {
            reel[place..place + 2].copy_from_slice(&(number as u16).to_be_bytes());
        }
        for (i, trace) in reel[HEADERS..].chunks_mut(240 + 2 * samples).enumerate() {
            for (k, word) in trace[240..].chunks_mut(2).enumerate() {
                word.copy_from_slice(&((7919 * i + k) as u16).to_be_bytes());
            }
        }
        let length = record_length(traces as u64, samples as u64).unwrap();
        let mut record = vec![0; length as usize];
        assert_eq!(read_reel(&reel, &mut record).unwrap().length, record.len());
        record
    }

    /// Each byte of a trace falls in its part, in either form, and the fields are those of the papers.
    #[test]
    fn parts_of_a_trace() {
        for (samples, form, counts) in [
            (1, Form::New, &[1][..]),
            (6000, Form::New, &[6000]),
            (6001, Form::New, &[6000, 1]),
            (6001, Form::Earlier, &[6001]),
            (8000, Form::New, &[6000, 2000]),
            (8000, Form::Earlier, &[8000]),
            (8001, Form::New, &[6000, 2001]),
            (12_000, Form::New, &[6000, 6000]),
            (32_767, Form::New, &[6000, 6000, 6000, 6000, 6000, 2767]),
        ] {
            let trace = Trace {
                number: 4,
                start: 5000,
                samples,
                form,
            };
            let (mut place, mut sample) = (5000 + SAMPLES, 0);
            for (field, &count) in trace.fields().zip(counts) {
                assert_eq!(
                    (field.place, field.first, field.count),
                    (place, sample + 1, count)
                );
                assert_eq!(trace.field_at(place), field);
                assert_eq!(usize::from(number(&field.head(), 1)), 6 * count);
                place += TAG;
                for _ in 0..count {
                    sample += 1;
                    assert_eq!(trace.pair(sample), place);
                    for byte in place..place + PAIR {
                        assert_eq!(
                            (trace.sample_at(byte), trace.field_at(byte)),
                            (sample, field)
                        );
                    }
                    place += PAIR;
                }
            }
            assert_eq!((place, sample), (trace.end(), samples));
            assert_eq!(trace.fields().count(), counts.len());
        }
    }

    /// Traces of every mixture of forms stand where they are found, and the library takes them and makes the same reel of them.
    #[test]
    fn mixtures() {
        for samples in [6001, 7000, 8000] {
            let new = long(3, samples);
            let mut reel = vec![0; HEADERS + 3 * (240 + 2 * samples)];
            write_reel(&new, 3, &mut reel).unwrap();
            for earlier in [
                &[][..],
                &[1],
                &[2],
                &[3],
                &[1, 2],
                &[1, 3],
                &[2, 3],
                &[1, 2, 3],
            ] {
                let record = with_earlier(new.clone(), earlier);
                assert_eq!(record.len() + TAG * earlier.len(), new.len());
                let mut written = vec![1; reel.len()];
                write_reel(&record, 3, &mut written).unwrap();
                assert_eq!(written, reel);
                assert_eq!(RecordShape::of(&record).reel_length(3), reel.len() as u64);
                let mut end = FIRST_TRACE;
                for (i, trace) in traces(&record).enumerate() {
                    assert_eq!((trace.number, trace.start), (i + 1, end));
                    assert_eq!(trace.form == Form::Earlier, earlier.contains(&(i + 1)));
                    end = trace.end();
                    assert_eq!(trace_at(&record, trace.start), trace);
                    assert_eq!(trace_at(&record, end - 1), trace);
                }
                assert_eq!(end + END, record.len());
                for place in [end, end + END, end + 10 * END] {
                    let behind = trace_at(&record, place);
                    assert_eq!((behind.number, behind.start), (4, end));
                }
            }
        }
    }

    #[test]
    fn in_words() {
        let told_of = |traces, samples, earlier: &[usize]| {
            told(&with_earlier(long(traces, samples), earlier)).unwrap_or_default()
        };
        let single = "earlier: a single field of samples a trace";
        assert_eq!(told_of(0, 7000, &[]), "");
        assert_eq!(told_of(2, 6000, &[]), "");
        assert_eq!(told_of(2, 6001, &[]), "new: 2 fields of samples a trace");
        assert_eq!(told_of(2, 6001, &[1, 2]), single);
        assert_eq!(told_of(1, 8000, &[1]), single);
        assert_eq!(
            told_of(3, 8000, &[1, 3]),
            "mixed: 1 of 3 traces new, 2 earlier"
        );
        assert_eq!(told_of(2, 8001, &[]), "2 fields of samples a trace");
        assert_eq!(told_of(1, 32_767, &[]), "6 fields of samples a trace");
        assert_eq!(in_earlier(0, 3), None);
        assert_eq!(in_earlier(3, 3).unwrap(), "in the earlier form");
        assert_eq!(
            in_earlier(1, 3).unwrap(),
            "1 of 3 traces in the earlier form"
        );
    }
}
