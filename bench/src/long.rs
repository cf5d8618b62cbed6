//! Long traces, whose samples stand in several fields of a record, beside those of N = 2,000. What counts is
//! how many samples are read or written in a second.

use crate::passes::{EARLIER, MOST_SAMPLES};
use crate::tables::{self, Call};
use crate::{call, in_turns, kinds, record_length, reel_of, reels, timed, Options, Who};

/// N of the reels. The others are compared with the first.
pub const SAMPLES: [u16; 6] = [2_000, 6_000, 6_001, 8_000, 12_001, MOST_SAMPLES];

/// The size of the reels, in megabytes, and how many runs there are.
const SIZE: usize = 32;
const RUNS: usize = 15;

/// What is measured of whom.
const CALLS: [Call; 3] = [Call::Read, Call::Write, Call::Nearest];
const CONTENDERS: [Who; 2] = [Who::Library, Who::Same];

/// The samples a second of a contender in a call, by the best run.
pub struct Row {
    pub call: Call,
    pub code: u32,
    pub not_normal: bool,
    pub who: Who,
    /// By N.
    pub speeds: [f64; SAMPLES.len()],
    /// Of a copy of the first reel or record, which says what a difference is worth.
    pub copy: f64,
    /// From the earlier form of a record, where its N has one and it is written.
    pub earlier: [Option<f64>; SAMPLES.len()],
}

/// A reel and its record in both forms, of so many samples in all.
struct Held {
    reel: Vec<u8>,
    record: Vec<u8>,
    earlier: Option<Vec<u8>>,
    count: f64,
}

/// Every code, and code 1 once more with words that aren't normal. Writing gives normal words whatever was
/// read, so that such a reel is only read.
pub fn compare(options: &Options) {
    let megabytes = options.megabytes.unwrap_or(SIZE);
    let runs = options.runs.unwrap_or(RUNS);
    let mut rows = Vec::new();
    for (code, not_normal) in kinds(&options.codes) {
        let all = SAMPLES.map(|samples| Held::new(code, samples, not_normal, megabytes));
        for what in CALLS {
            if what == Call::Read || !not_normal {
                rows.extend(measure(what, code, not_normal, &all, runs));
            }
        }
    }
    tables::long(&rows, megabytes, runs);
}

/// All inputs of a call in turn in each run, each run beginning with another of them; the best run counts.
fn measure(
    what: Call,
    code: u32,
    not_normal: bool,
    all: &[Held; SAMPLES.len()],
    runs: usize,
) -> Vec<Row> {
    let (mut inputs, outputs): (Vec<_>, Vec<_>) = match what {
        Call::Read => all.iter().map(|held| (&held.reel, &held.record)).unzip(),
        _ => all.iter().map(|held| (&held.record, &held.reel)).unzip(),
    };
    let copy = inputs[0].clone();
    inputs.push(&copy);
    if what != Call::Read {
        inputs.extend(all.iter().flat_map(|held| &held.earlier));
    }
    let room = outputs.iter().map(|output| output.len()).max();
    let mut out = vec![1; room.expect("a reel of each N")];
    let count = inputs.len();
    let best = in_turns(runs, CONTENDERS.len() * count, |_, turn| {
        let who = CONTENDERS[turn / count];
        timed(who, what, code, inputs[turn % count], &mut out)
    });
    let row = |(who, seconds): (Who, &[f64])| {
        let mut seconds = seconds.iter();
        let mut speed = |held: &Held| held.count / seconds.next().expect("a turn of each");
        Row {
            call: what,
            code,
            not_normal,
            who,
            speeds: all.each_ref().map(&mut speed),
            copy: speed(&all[0]),
            earlier: all.each_ref().map(|held| match (what, &held.earlier) {
                (Call::Write | Call::Nearest, Some(_)) => Some(speed(held)),
                _ => None,
            }),
        }
    };
    let bests = best.chunks_exact(count);
    CONTENDERS.into_iter().zip(bests).map(row).collect()
}

impl Held {
    /// All who are measured have to give the record that the independent implementation gives of the reel,
    /// and the reel that it gives of the record, from both forms.
    fn new(code: u32, samples: u16, not_normal: bool, megabytes: usize) -> Held {
        let reel = reel_of(code, samples, not_normal, megabytes);
        let mut record = vec![1; record_length(&reel, code)];
        let read = independent::read_reel(&reel, &mut record).expect("a valid reel");
        let mut written = vec![1; reel.len()];
        independent::write_reel(&record, code, &mut written).expect("a valid record");
        let earlier = EARLIER
            .contains(&usize::from(samples))
            .then(|| reels::earlier(&record, samples));

        agree(Call::Read, code, &reel, &record);
        for record in [Some(&record), earlier.as_ref()].into_iter().flatten() {
            agree(Call::Write, code, record, &written);
            agree(Call::Nearest, code, record, &written);
        }
        Held {
            reel,
            record,
            earlier,
            count: (read.traces * read.samples) as f64,
        }
    }
}

fn agree(what: Call, code: u32, input: &[u8], given: &[u8]) {
    let mut out = vec![1; given.len()];
    for who in CONTENDERS {
        out.fill(1);
        let answer = call(who, what, code, input, &mut out);
        let name = tables::name(who, what);
        assert_eq!(
            answer.map(|taken| taken.length),
            Ok(given.len() as u64),
            "{name}"
        );
        assert!(out == given, "{name} gives other bytes");
    }
}
