//! Reading an Eagle reel beside reading the plain reel of the same traces, by how many samples a trace has
//! and by whether some words aren't normal. What counts is how many samples are read in a second.

use crate::passes::MOST_SAMPLES;
use crate::tables::{self, Call};
use crate::{in_turns, library, record_length, reel_of, reels, same, timed, Options, Who};
use independent::{ReelRead, Refused};

/// N of the reels. The shorter the traces, the larger is the part of an Eagle reel that is trailers.
pub const SAMPLES: [u16; 6] = [100, 500, 1_500, 3_000, 8_000, MOST_SAMPLES];

/// The sizes of the plain reels, in megabytes: one that the caches hold, and one that they don't. How many
/// runs there are of each.
const SIZES: [(usize, usize); 2] = [(1, 401), (32, 41)];

/// The seconds of a plain reel and of its Eagle reel.
#[derive(Clone, Copy)]
pub struct Seconds {
    pub plain: f64,
    pub eagle: f64,
}

/// How long a plain reel and the Eagle reel of the same traces take, by the medians of all runs.
pub struct Row {
    pub megabytes: usize,
    pub samples: u16,
    pub not_normal: bool,
    /// All samples of either reel.
    pub count: u64,
    /// The bytes of the Eagle reel over those of the plain one.
    pub longer: f64,
    pub library: Seconds,
    pub same: Seconds,
    /// The library's seconds of a copy of the plain reel, which say what a difference is worth.
    pub copy: f64,
}

/// Reels of every size, or of the one that is asked for.
pub fn compare(options: &Options) {
    let mut sizes = SIZES.to_vec();
    if let Some(megabytes) = options.megabytes {
        sizes = vec![(megabytes, SIZES[1].1)];
    }
    if let Some(asked) = options.runs {
        sizes.iter_mut().for_each(|(_, runs)| *runs = asked);
    }
    let mut rows = Vec::new();
    for &(megabytes, runs) in &sizes {
        for samples in SAMPLES {
            for not_normal in [false, true] {
                rows.push(row(megabytes, samples, not_normal, runs));
            }
        }
    }
    tables::eagle(&rows, &sizes);
}

/// All reels of a row in turn in each run, each run beginning with another of them.
fn row(megabytes: usize, samples: u16, not_normal: bool, runs: usize) -> Row {
    let plain = reel_of(1, samples, not_normal, megabytes);
    let eagle = reels::with_trailers(&plain, samples);
    let read = agree(&plain, &eagle, library::read_reel, library::read_eagle);
    agree(&plain, &eagle, same::read_reel, same::read_eagle);

    let copy = plain.clone();
    let turns = [
        (Who::Library, Call::Read, &plain),
        (Who::Library, Call::Eagle, &eagle),
        (Who::Same, Call::Read, &plain),
        (Who::Same, Call::Eagle, &eagle),
        (Who::Library, Call::Read, &copy),
    ];
    let mut out = vec![1; read.length as usize];
    let mut all = turns.map(|_| Vec::new());
    in_turns(runs, turns.len(), |_, turn| {
        let (who, what, reel) = turns[turn];
        let seconds = timed(who, what, 1, reel, &mut out);
        all[turn].push(seconds);
        seconds
    });
    let [plain_library, eagle_library, plain_same, eagle_same, copy_library] = all.map(median);
    Row {
        megabytes,
        samples,
        not_normal,
        count: read.traces * read.samples,
        longer: eagle.len() as f64 / plain.len() as f64,
        library: Seconds {
            plain: plain_library,
            eagle: eagle_library,
        },
        same: Seconds {
            plain: plain_same,
            eagle: eagle_same,
        },
        copy: copy_library,
    }
}

/// A way to read a reel into a record.
pub type Reading = fn(&[u8], &mut [u8]) -> Result<ReelRead, Refused>;

/// Two readings, of the plain reel and of the Eagle reel, have to give the answer and the record that the
/// independent implementation gives of either.
pub fn agree(plain: &[u8], eagle: &[u8], read_reel: Reading, read_eagle: Reading) -> ReelRead {
    let mut given = vec![0; record_length(plain, 1)];
    let read = independent::read_reel(plain, &mut given).expect("a valid reel");
    let mut out = vec![1; given.len()];
    for (reading, reel, name) in [
        (read_reel, plain, "reading the plain reel"),
        (read_eagle, eagle, "reading the Eagle reel"),
        (independent::read_eagle, eagle, "the independent one"),
    ] {
        out.fill(1);
        assert_eq!(reading(reel, &mut out), Ok(read), "{name}");
        assert!(out == given, "{name} gives other bytes");
    }
    read
}

/// The middle one, or of two the longer.
pub fn median(mut seconds: Vec<f64>) -> f64 {
    seconds.sort_by(f64::total_cmp);
    seconds[seconds.len() / 2]
}
