//! Many records in their order. Each is judged whole once. Two are then compared by their fronts: where these differ, the records have the
//! order of their fronts (`front_decides` in the proofs). Only where they are equal the records are compared whole. A record is mapped while
//! the library looks at it and at no other time, so that neither mapped bytes nor open files grow with the number of records.

use crate::files::{self, step, State, View};
use crate::layout::{END, FIRST_TRACE};
use crate::order::{in_words, of_records, show, LOST};
use crate::system;
use crate::trouble::Trouble;
use std::cmp::Ordering;
use std::path::Path;

/// A record without traces, which has the cards and the binary header of another.
type Front = Box<[u8; FIRST_TRACE + END]>;

/// The last field of a record without traces.
const NO_TRACES: [u8; END] = [0x05, 0x00, 0x04, 0x00, 0x00, 0x00, 0x00];

/// A record that was judged: its name, its front, and the state of its file, which is mapped again where it has to be; or what was loaded,
/// where the file can't be mapped.
pub struct Record<'a> {
    pub path: &'a Path,
    front: Front,
    state: Option<State>,
    loaded: Vec<u8>,
}

/// Records that hold the same, in the order of their names.
pub type Group<'a> = Vec<Record<'a>>;

impl Record<'_> {
    /// Judges a record: it is compared with its own front, which takes no longer than judging it, and is greater where it has traces.
    pub fn of(path: &Path) -> Result<Record<'_>, Trouble> {
        let name = path.display();
        let view = View::of(path)?;
        step(format_args!("judging {name}"), view.len() as u64);
        system::say_where_lost(&format!("{name}: {LOST}"));
        let front = front_of(&view);
        let order = of_records([path, path], [&view[..], &front[..]]);
        view.unchanged(path)?;
        if order? != view.len().cmp(&front.len()) {
            return Err(Trouble::differs(format!(
                "{name}: the library doesn't say that it is {} the same record without traces; report this",
                in_words(view.len().cmp(&front.len()))
            )));
        }
        Ok(Record {
            path,
            front,
            state: view.state(),
            loaded: match view {
                View::Mapped(..) => Vec::new(),
                View::Loaded(bytes) => bytes,
            },
        })
    }

    /// How it stands to another.
    fn order(&self, other: &Record) -> Result<Ordering, Trouble> {
        let paths = [self.path, other.path];
        let again = |records| {
            of_records(paths, records).map_err(|refused| {
                let sentence = refused.sentence;
                Trouble::differs(format!("{sentence}; it was taken before; report this"))
            })
        };
        match again([&self.front[..], &other.front[..]])? {
            Ordering::Equal => {}
            order => return Ok(order),
        }
        let views = [self.view()?, other.view()?];
        let records = [
            views[0].as_deref().unwrap_or(&self.loaded),
            views[1].as_deref().unwrap_or(&other.loaded),
        ];
        show(paths, records);
        let order = again(records);
        for (view, path) in views.iter().zip(paths) {
            view.as_ref().map_or(Ok(()), |view| view.unchanged(path))?;
        }
        order
    }

    /// Its file once more, which has to be as it was judged. None of what was loaded.
    fn view(&self) -> Result<Option<View>, Trouble> {
        if self.state.is_none() {
            return Ok(None);
        }
        let view = View::of(self.path)?;
        match view.state() == self.state {
            true => Ok(Some(view)),
            false => Err(files::changed(self.path)),
        }
    }
}

/// The front of a record, as far as it is there.
fn front_of(record: &[u8]) -> Front {
    let mut front = Box::new([0; FIRST_TRACE + END]);
    let there = record.len().min(FIRST_TRACE);
    front[..there].copy_from_slice(&record[..there]);
    front[FIRST_TRACE..].copy_from_slice(&NO_TRACES);
    front
}

/// Records, which come in the order of their names, in groups that hold the same, the least group first.
pub fn sorted(records: Vec<Record>) -> Result<Vec<Group>, Trouble> {
    let mut runs: Vec<Vec<Group>> = records
        .into_iter()
        .map(|record| vec![vec![record]])
        .collect();
    while runs.len() > 1 {
        let mut longer = Vec::with_capacity(runs.len().div_ceil(2));
        let mut rest = runs.into_iter();
        while let Some(run) = rest.next() {
            longer.push(match rest.next() {
                Some(next) => merged(run, next)?,
                None => run,
            });
        }
        runs = longer;
    }
    Ok(runs.pop().unwrap_or_default())
}

/// Two runs of groups, least first, as one. The names of the second come behind those of the first.
fn merged<'a>(first: Vec<Group<'a>>, second: Vec<Group<'a>>) -> Result<Vec<Group<'a>>, Trouble> {
    let mut both = Vec::with_capacity(first.len() + second.len());
    let (mut first, mut second) = (first.into_iter().peekable(), second.into_iter().peekable());
    while let (Some(one), Some(other)) = (first.peek(), second.peek()) {
        match one[0].order(&other[0])? {
            Ordering::Less => both.extend(first.next()),
            Ordering::Greater => both.extend(second.next()),
            Ordering::Equal => both.push(
                first
                    .next()
                    .into_iter()
                    .chain(second.next())
                    .flatten()
                    .collect(),
            ),
        }
    }
    both.extend(first);
    both.extend(second);
    Ok(both)
}
