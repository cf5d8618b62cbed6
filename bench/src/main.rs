//! Measures the library's reading and writing of whole reels, exactly and to the nearest, beside other ways
//! to do the same; all its calls that put or judge cards, on a small reel; its reading of Eagle reels beside
//! that of plain ones; long traces beside short ones; and its comparing of two records.

mod cards;
mod eagle;
mod library;
mod long;
mod nearest;
mod order;
mod passes;
mod reels;
mod same;
mod segyio;
mod tables;
#[cfg(test)]
mod tests;
mod tuned;
mod versions;

use independent::{NearestWritten, ReelRead, Refused, Taken};
use reels::Kind;
use segyio::Segyio;
use std::hint::black_box;
use std::path::PathBuf;
use std::time::Instant;
use std::{env, fs, process};
use tables::{Call, Row};

const USAGE: &str = "usage: bench [--mb SIZE] [--runs COUNT] [--codes 1,2,3,...] [--segyio PYTHON]
       bench growth [--mb MOST] [--runs COUNT]
       bench nearest [--mb SIZE] [--runs COUNT] [--codes 1,2,3,...] [--samples N]
       bench cards [--runs COUNT]
       bench eagle [--mb SIZE] [--runs COUNT]
       bench long [--mb SIZE] [--runs COUNT] [--codes 1,2,3,...]
       bench order [--mb SIZE] [--runs COUNT]
       bench versions OLD OLD NEW NEW [--mb SIZE] [--runs COUNT] [--codes 1,2,3,...] [--samples N]
       bench versions OLD OLD NEW NEW --small [--runs COUNT]
       bench one read|eagle|write|nearest CODE [--not-normal] [--kind fit|half|rounded|beyond]
                 [--mb SIZE] [--samples N] [--who library|same|tuned|independent]";

/// N of the reels that are compared, where no other is asked for.
const SAMPLES: u16 = 2_000;

/// N of the reels that grow: a reel of 1,000 MB then has fewer than 100,000 traces. And the most that there
/// may be.
const SAMPLES_IN_GROWTH: [u16; 2] = [2_500, passes::MOST_SAMPLES];

const MEGABYTE: usize = 1_000_000;

/// How many runs there are, where no other number is asked for.
const RUNS: usize = 7;

/// The sizes, in megabytes, of the reels that are compared and of those that grow.
const SIZE: usize = 256;
const SIZES: [usize; 6] = [1, 4, 16, 64, 256, 1_000];

/// What a call answers. Reading counts words that aren't normal, nearest writing samples that changed; what
/// a call doesn't count is 0.
type Answer = Result<Answered, Refused>;

/// The counts of a call that is taken.
#[derive(Clone, Copy, Debug, PartialEq)]
struct Answered {
    traces: u64,
    samples: u64,
    length: u64,
    not_normal: u64,
    changed: u64,
}

impl From<Taken> for Answered {
    fn from(taken: Taken) -> Answered {
        let Taken {
            traces,
            samples,
            length,
        } = taken;
        Answered {
            traces,
            samples,
            length,
            not_normal: 0,
            changed: 0,
        }
    }
}

impl From<ReelRead> for Answered {
    fn from(read: ReelRead) -> Answered {
        let ReelRead {
            traces,
            samples,
            length,
            not_normal,
        } = read;
        Answered {
            traces,
            samples,
            length,
            not_normal,
            changed: 0,
        }
    }
}

impl From<NearestWritten> for Answered {
    fn from(written: NearestWritten) -> Answered {
        let NearestWritten {
            traces,
            samples,
            length,
            changed,
        } = written;
        Answered {
            traces,
            samples,
            length,
            not_normal: 0,
            changed,
        }
    }
}

/// Who is measured, in the order of the tables.
#[derive(Clone, Copy, PartialEq)]
enum Who {
    Library,
    Same,
    Tuned,
    Independent,
    Memcpy,
    SegyioFile,
    SegyioConversion,
}

const ALL: [Who; 7] = [
    Who::Library,
    Who::Same,
    Who::Tuned,
    Who::Independent,
    Who::Memcpy,
    Who::SegyioFile,
    Who::SegyioConversion,
];

struct Options {
    words: Vec<String>,
    megabytes: Option<usize>,
    runs: Option<usize>,
    codes: Vec<u32>,
    samples: u16,
    small: bool,
    not_normal: bool,
    kind: Kind,
    who: Who,
    python: Option<String>,
}

fn main() {
    let Some(options) = options() else {
        usage();
    };
    let words: Vec<&str> = options.words.iter().map(String::as_str).collect();
    match words[..] {
        [] => compare(&options),
        ["growth"] => growth(&options),
        ["nearest"] => nearest::compare(&options),
        ["cards"] => cards::compare(&options),
        ["eagle"] => eagle::compare(&options),
        ["long"] => long::compare(&options),
        ["order"] => order::compare(&options),
        ["versions", old, old_again, new, new_again] => {
            let paths = [old, old_again, new, new_again];
            if options.small {
                versions::compare_small(&options, paths);
            } else {
                versions::compare(&options, paths);
            }
        }
        ["one", call, code] => {
            let call = match call {
                "read" => Call::Read,
                "eagle" => Call::Eagle,
                "write" => Call::Write,
                "nearest" => Call::Nearest,
                _ => usage(),
            };
            let code = code_of(code).unwrap_or_else(|| usage());
            if options.not_normal && (code != 1 || call == Call::Nearest) {
                usage();
            }
            if options.kind != Kind::Fit && call != Call::Nearest {
                usage();
            }
            if call == Call::Eagle && code != 1 {
                usage();
            }
            one(&options, call, code);
        }
        _ => usage(),
    }
}

fn usage() -> ! {
    eprintln!("{USAGE}");
    process::exit(1);
}

fn options() -> Option<Options> {
    let mut options = Options {
        words: Vec::new(),
        megabytes: None,
        runs: None,
        codes: reels::SAMPLES.map(|(code, _)| code).to_vec(),
        samples: SAMPLES,
        small: false,
        not_normal: false,
        kind: Kind::Fit,
        who: Who::Library,
        python: None,
    };
    let mut arguments = env::args().skip(1);
    while let Some(argument) = arguments.next() {
        match argument.as_str() {
            "--mb" => options.megabytes = Some(count_of(&arguments.next()?)?),
            "--runs" => options.runs = Some(count_of(&arguments.next()?)?),
            "--samples" => options.samples = samples_of(&arguments.next()?)?,
            "--codes" => {
                options.codes = arguments
                    .next()?
                    .split(',')
                    .map(code_of)
                    .collect::<Option<_>>()?
            }
            "--small" => options.small = true,
            "--not-normal" => options.not_normal = true,
            "--kind" => {
                options.kind = match arguments.next()?.as_str() {
                    "fit" => Kind::Fit,
                    "half" => Kind::Half,
                    "rounded" => Kind::Rounded,
                    "beyond" => Kind::Beyond,
                    _ => return None,
                }
            }
            "--segyio" => options.python = Some(arguments.next()?),
            "--who" => {
                options.who = match arguments.next()?.as_str() {
                    "library" => Who::Library,
                    "same" => Who::Same,
                    "tuned" => Who::Tuned,
                    "independent" => Who::Independent,
                    _ => return None,
                }
            }
            _ if argument.starts_with('-') => return None,
            _ => options.words.push(argument),
        }
    }
    Some(options)
}

fn count_of(text: &str) -> Option<usize> {
    text.parse().ok().filter(|&count| count > 0)
}

fn samples_of(text: &str) -> Option<u16> {
    let samples = count_of(text)?.try_into().ok()?;
    (samples <= passes::MOST_SAMPLES).then_some(samples)
}

fn code_of(text: &str) -> Option<u32> {
    text.parse().ok().filter(|&code| passes::is_code(code))
}

/// One call of a Rust contender or of the library.
fn call(who: Who, call: Call, code: u32, input: &[u8], out: &mut [u8]) -> Answer {
    match call {
        Call::Read => match who {
            Who::Library => library::read_reel(input, out),
            Who::Same => same::read_reel(input, out),
            Who::Tuned => tuned::read_reel(input, out),
            Who::Independent => independent::read_reel(input, out),
            _ => unreachable!("it has no such call"),
        }
        .map(Answered::from),
        Call::Eagle => match who {
            Who::Library => library::read_eagle(input, out),
            Who::Same => same::read_eagle(input, out),
            Who::Independent => independent::read_eagle(input, out),
            _ => unreachable!("it has no such call"),
        }
        .map(Answered::from),
        Call::Write => match who {
            Who::Library => library::write_reel(input, code, out),
            Who::Same => same::write_reel(input, code, out),
            Who::Tuned => tuned::write_reel(input, code, out),
            Who::Independent => independent::write_reel(input, code, out),
            _ => unreachable!("it has no such call"),
        }
        .map(Answered::from),
        Call::Nearest => match who {
            Who::Library => library::write_nearest(input, code, out),
            Who::Same => same::write_nearest(input, code, out),
            Who::Independent => independent::write_nearest(input, code, out),
            _ => unreachable!("it has no such call"),
        }
        .map(Answered::from),
    }
}

/// The seconds of a call that is taken.
fn timed(who: Who, what: Call, code: u32, input: &[u8], out: &mut [u8]) -> f64 {
    let start = Instant::now();
    let answer = call(who, what, code, black_box(input), black_box(out));
    let seconds = start.elapsed().as_secs_f64();
    assert!(black_box(answer).is_ok());
    seconds
}

/// The seconds of copying the reel's bytes.
fn timed_copy(reel: &[u8], out: &mut [u8]) -> f64 {
    let start = Instant::now();
    black_box(&mut out[..reel.len()]).copy_from_slice(black_box(reel));
    start.elapsed().as_secs_f64()
}

/// The bytes of the record that a plain reel is read into.
fn record_length(reel: &[u8], code: u32) -> usize {
    let samples = usize::from(u16::from_be_bytes([reel[3_220], reel[3_221]]));
    let traces = (reel.len() - 3_600) / (240 + samples * passes::sample_bytes(code));
    passes::record_length(samples, traces)
}

/// A reel to compare by, or to count by.
fn reel_of(code: u32, samples: u16, not_normal: bool, megabytes: usize) -> Vec<u8> {
    let bytes = megabytes * MEGABYTE;
    if not_normal {
        reels::make_not_normal(samples, bytes, reels::ONE_IN)
    } else {
        reels::make(code, samples, bytes)
    }
}

/// The kinds of reels: a code, and for code 1 once more with words that aren't normal.
fn kinds(codes: &[u32]) -> impl Iterator<Item = (u32, bool)> + '_ {
    codes.iter().flat_map(|&code| match code {
        1 => vec![(code, false), (code, true)],
        _ => vec![(code, false)],
    })
}

/// Every contender on every code, all in turn in each run; the best run counts.
fn compare(options: &Options) {
    let mut segyio = options.python.as_deref().map(Segyio::start);
    let version = segyio.as_mut().map(|segyio| segyio.ask("version"));
    let megabytes = options.megabytes.unwrap_or(SIZE);
    let runs = options.runs.unwrap_or(RUNS);
    tables::preface(megabytes, options.samples, runs, version);

    let mut rows = Vec::new();
    let mut untouched = Vec::new();
    for (code, not_normal) in kinds(&options.codes) {
        let reel = reel_of(code, options.samples, not_normal, megabytes);
        let mut record = vec![1; record_length(&reel, code)];
        let file = segyio
            .as_mut()
            .filter(|_| code != 4 && !not_normal)
            .map(|segyio| File::new(segyio, code, &reel));
        let mut asked = file.map(|file| (segyio.as_mut().expect("it was started"), file));
        // A sample of one byte is its own number.
        let converted = code != 8;

        let mut out = vec![1; record.len()];
        agree(Call::Read, code, &reel, &mut record, &mut out);
        rows.push(Row {
            call: Call::Read,
            code,
            not_normal,
            bytes: reel.len(),
            seconds: best(runs, |who| match (who, &mut asked) {
                (Who::Memcpy, _) => Some(timed_copy(&reel, &mut out)),
                (Who::SegyioFile, Some((segyio, _))) => Some(segyio.seconds("read")),
                (Who::SegyioConversion, Some((segyio, _))) if converted => {
                    Some(segyio.seconds("convert"))
                }
                (Who::SegyioFile | Who::SegyioConversion, _) => None,
                _ => Some(timed(who, Call::Read, code, &reel, &mut out)),
            }),
        });

        // Writing gives normal words whatever was read, so that such a reel is only read.
        if not_normal {
            continue;
        }
        let mut written = vec![1; reel.len()];
        let mut out = vec![1; reel.len()];
        agree(Call::Write, code, &record, &mut written, &mut out);
        rows.push(Row {
            call: Call::Write,
            code,
            not_normal,
            bytes: reel.len(),
            seconds: best(runs, |who| match (who, &mut asked) {
                (Who::Memcpy, _) => Some(timed_copy(&reel, &mut out)),
                (Who::SegyioFile, Some((segyio, _))) => Some(segyio.seconds("write")),
                (Who::SegyioConversion, Some((segyio, _))) if converted => {
                    Some(segyio.seconds("convert back"))
                }
                (Who::SegyioFile | Who::SegyioConversion, _) => None,
                _ => Some(timed(who, Call::Write, code, &record, &mut out)),
            }),
        });

        if code == 1 {
            drop((out, written));
            for (what, input, length) in [
                (Call::Read, &reel, record.len()),
                (Call::Write, &record, reel.len()),
            ] {
                untouched.push(Row {
                    call: what,
                    code,
                    not_normal,
                    bytes: reel.len(),
                    seconds: best(runs, |who| match who {
                        // A buffer of that size comes with no page of it in memory yet.
                        Who::Library | Who::Same | Who::Tuned => {
                            let mut out = vec![0; length.max(64 * MEGABYTE)];
                            Some(timed(who, what, code, input, &mut out))
                        }
                        _ => None,
                    }),
                });
            }
        }
    }
    tables::comparison(&rows);
    tables::untouched(&untouched);
}

/// All have to give what the library gives, which is left in `given`.
fn agree(what: Call, code: u32, input: &[u8], given: &mut [u8], out: &mut [u8]) {
    let answer = call(Who::Library, what, code, input, given);
    assert_eq!(answer.map(|taken| taken.length), Ok(given.len() as u64));
    for who in [Who::Same, Who::Tuned, Who::Independent] {
        out.fill(1);
        assert_eq!(call(who, what, code, input, out), answer);
        assert!(
            *out == *given,
            "{} gives other bytes",
            tables::name(who, what)
        );
    }
}

/// The best of each contender's runs. Every run begins with another of them, so that none always comes first, after the wait for segyio.
fn best(runs: usize, mut seconds_of: impl FnMut(Who) -> Option<f64>) -> [Option<f64>; ALL.len()] {
    let mut best = [None; ALL.len()];
    for run in 0..runs {
        for turn in 0..ALL.len() {
            let who = (run + turn) % ALL.len();
            let seconds = seconds_of(ALL[who]);
            best[who] = match (best[who], seconds) {
                (Some(before), Some(now)) => Some(f64::min(before, now)),
                _ => seconds,
            };
        }
    }
    best
}

/// The best seconds of so many, all in turn in each run, each run beginning with another of them.
fn in_turns(
    runs: usize,
    count: usize,
    mut seconds_of: impl FnMut(usize, usize) -> f64,
) -> Vec<f64> {
    let mut best = vec![f64::INFINITY; count];
    for run in 0..runs {
        for turn in 0..count {
            let turn = (run + turn) % count;
            best[turn] = best[turn].min(seconds_of(run, turn));
        }
    }
    best
}

/// A reel in a file, which goes with this.
struct File(PathBuf);

impl File {
    fn new(segyio: &mut Segyio, code: u32, reel: &[u8]) -> File {
        let path = env::temp_dir().join(format!("aukpocket-bench-{}.sgy", process::id()));
        fs::write(&path, reel).expect("the folder for temporary files has room");
        let file = File(path);
        segyio.open(code, &file.0);
        file
    }
}

impl Drop for File {
    fn drop(&mut self) {
        let _ = fs::remove_file(&self.0);
    }
}

/// The library on reels of code 1 that grow.
fn growth(options: &Options) {
    let most = options.megabytes.unwrap_or(usize::MAX);
    let sizes: Vec<usize> = SIZES.into_iter().filter(|&size| size <= most).collect();
    let runs = options.runs.unwrap_or(RUNS);
    let ns = SAMPLES_IN_GROWTH.map(|samples| grow(samples, &sizes, runs));
    tables::growth(&sizes, &ns);
}

/// The ns for each byte of the reel, in reading and in writing, by the sizes in megabytes. All sizes in turn
/// in each run; the best run counts.
fn grow(samples: u16, sizes: &[usize], runs: usize) -> Vec<[f64; 2]> {
    let mut grown: Vec<Grown> = sizes
        .iter()
        .map(|&megabytes| {
            let reel = reels::make(1, samples, megabytes * MEGABYTE);
            Grown {
                megabytes,
                record: vec![1; record_length(&reel, 1)],
                reel,
                seconds: [f64::INFINITY; 2],
            }
        })
        .collect();
    let mut out = vec![1; grown.iter().map(|one| one.reel.len()).max().unwrap_or(0)];
    for _ in 0..runs {
        for Grown {
            megabytes,
            reel,
            record,
            seconds: [read, write],
        } in &mut grown
        {
            // A short call is made more often.
            for _ in 0..(16 / *megabytes).max(1) {
                *read = read.min(timed(Who::Library, Call::Read, 1, reel, record));
                *write = write.min(timed(Who::Library, Call::Write, 1, record, &mut out));
            }
        }
    }
    let ns = |one: &Grown| one.seconds.map(|s| s * 1e9 / one.reel.len() as f64);
    grown.iter().map(ns).collect()
}

/// A reel of a size and its record, with the best seconds of reading and of writing.
struct Grown {
    megabytes: usize,
    reel: Vec<u8>,
    record: Vec<u8>,
    seconds: [f64; 2],
}

/// One call, once: for counting instructions. What it works on is made by the independent
/// implementation, so that the library is called for nothing else.
fn one(options: &Options, what: Call, code: u32) {
    let megabytes = options.megabytes.unwrap_or(SIZE);
    let reel = reel_of(code, options.samples, options.not_normal, megabytes);
    let room = record_length(&reel, code);
    let (input, room) = match what {
        Call::Read => (reel, room),
        Call::Eagle => (reels::with_trailers(&reel, options.samples), room),
        Call::Write => {
            let mut record = vec![1; room];
            independent::read_reel(&reel, &mut record).expect("a valid reel");
            (record, reel.len())
        }
        Call::Nearest => {
            let bytes = megabytes * MEGABYTE;
            let record = reels::make_record(code, options.samples, bytes, options.kind);
            (record, reel.len())
        }
    };
    let mut out = vec![1; room];
    let answer = call(
        options.who,
        what,
        code,
        black_box(&input),
        black_box(&mut out),
    );
    let taken = answer.expect("a call that is taken");
    println!(
        "{}: {} traces of {} samples, {} bytes of output, {} words not normal, {} samples changed",
        tables::name(options.who, what),
        taken.traces,
        taken.samples,
        taken.length,
        taken.not_normal,
        taken.changed
    );
}
