//! Nearest writing beside exact writing: for each code a record whose samples fit it, others whose samples
//! have to be rounded, some or all, and one some of whose samples are beyond its range.

use crate::reels::{self, Kind, KINDS};
use crate::tables::{self, Call};
use crate::{call, in_turns, timed, Options, Who, MEGABYTE};

/// The size of the reels, in megabytes, and how many runs there are.
const SIZE: usize = 32;
const RUNS: usize = 15;

/// The best seconds of a record's calls, and how many of its samples changed.
pub struct Rounding {
    pub code: u32,
    pub kind: Kind,
    pub samples: u64,
    pub changed: u64,
    /// The library's exact writing, of the record whose samples fit.
    pub exact: f64,
    pub library: f64,
    pub same: f64,
}

/// All calls of a code in turn in each run, each run beginning with another of them; the best run counts.
pub fn compare(options: &Options) {
    let megabytes = options.megabytes.unwrap_or(SIZE);
    let runs = options.runs.unwrap_or(RUNS);
    let mut rows = Vec::new();
    for &code in &options.codes {
        let records = KINDS.map(|(kind, _, _)| {
            reels::make_record(code, options.samples, megabytes * MEGABYTE, kind)
        });
        let length = call(Who::Library, Call::Nearest, code, &records[0], &mut [])
            .expect_err("there is no room")
            .beside;
        let mut out = vec![1; length as usize];
        let mut same_out = vec![1; length as usize];
        let answers = records.each_ref().map(|record| {
            let answer = call(Who::Library, Call::Nearest, code, record, &mut out);
            same_out.fill(1);
            assert_eq!(
                call(Who::Same, Call::Nearest, code, record, &mut same_out),
                answer
            );
            assert!(same_out == out, "the same algorithm gives other bytes");
            answer.expect("a valid record")
        });

        // Exact writing of the record whose samples fit, and nearest writing of each.
        let mut turns = vec![(Who::Library, Call::Write, &records[0])];
        for record in &records {
            turns.push((Who::Library, Call::Nearest, record));
            turns.push((Who::Same, Call::Nearest, record));
        }
        let best = in_turns(runs, turns.len(), |_, turn| {
            let (who, what, record) = turns[turn];
            timed(who, what, code, record, &mut out)
        });
        for (k, (kind, _, _)) in KINDS.into_iter().enumerate() {
            rows.push(Rounding {
                code,
                kind,
                samples: answers[k].traces * answers[k].samples,
                changed: answers[k].changed,
                exact: best[0],
                library: best[1 + 2 * k],
                same: best[2 + 2 * k],
            });
        }
    }
    tables::nearest(&rows, megabytes, options.samples, runs);
}
