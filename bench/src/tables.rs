//! What is printed, in Markdown, as docs/BENCHMARKS.md has it.

use crate::cards::{self, CALLS, PLACES};
use crate::eagle::{self, Seconds};
use crate::nearest::Rounding;
use crate::order::{self, SECONDS};
use crate::reels::{Kind, KINDS, ZEROS};
use crate::versions::{Compared, ComparedSmall};
use crate::{long, reels, Who, ALL, SAMPLES_IN_GROWTH};

#[derive(Clone, Copy, PartialEq)]
pub enum Call {
    Read,
    Eagle,
    Write,
    Nearest,
}

/// The best seconds of each contender, for a call on a reel of so many bytes.
pub struct Row {
    pub call: Call,
    pub code: u32,
    pub not_normal: bool,
    pub bytes: usize,
    pub seconds: [Option<f64>; ALL.len()],
}

pub fn name(who: Who, call: Call) -> &'static str {
    match (who, call) {
        (Who::Library, _) => "library",
        (Who::Same, _) => "same algorithm in Rust",
        (Who::Tuned, _) => "tuned Rust",
        (Who::Independent, _) => "independent Rust",
        (Who::Memcpy, _) => "memcpy of the reel",
        (Who::SegyioFile, Call::Read) => "segyio, from a file",
        (Who::SegyioFile, _) => "segyio, to a file",
        (Who::SegyioConversion, _) => "segyio, conversion alone",
    }
}

pub fn preface(megabytes: usize, samples: u16, runs: usize, segyio: Option<String>) {
    println!(
        "A reel of {megabytes} MB for each code, N = {samples}; best of {runs} runs, all contenders in turn in each run, each run beginning with another."
    );
    println!(
        "Every page of every buffer was touched before, but for the table that says otherwise."
    );
    match segyio {
        Some(version) => println!("segyio is {version}."),
        None => println!("segyio was not there."),
    }
    println!();
    for (code, samples) in reels::SAMPLES {
        println!("- Code {code}: {samples}.");
    }
    println!("- Code 1 once more, in reading: {}.", reels::NOT_NORMAL);
    println!("- Trace headers: {}.", reels::HEADERS);
}

pub fn comparison(rows: &[Row]) {
    for (call, title) in [(Call::Read, "Reading"), (Call::Write, "Writing")] {
        println!("\n{title}, MB of reel a second:\n");
        head(&ALL.map(|who| name(who, call)));
        for row in rows.iter().filter(|row| row.call == call) {
            line(row, &row.speeds(), |speed| format!("{speed:.0}"));
        }
        println!("\n{title}, the library's speed over that of the others:\n");
        head(&ALL.map(|who| name(who, call))[1..]);
        for row in rows.iter().filter(|row| row.call == call) {
            line(row, &row.ratios()[1..], |ratio| format!("{ratio:.2}"));
        }
    }
}

pub fn untouched(rows: &[Row]) {
    for row in rows {
        if row.call == Call::Read {
            println!("\nThe first call on an output buffer that was never touched, code 1, MB of reel a second:\n");
            println!("| call | library | same algorithm in Rust | tuned Rust |");
            println!("|---|---|---|---|");
        }
        let speeds = row.speeds();
        let [library, same, tuned] =
            [speeds[0], speeds[1], speeds[2]].map(|speed| speed.unwrap_or(f64::NAN));
        let call = match row.call {
            Call::Read => "reading",
            Call::Eagle => "Eagle reading",
            Call::Write => "writing",
            Call::Nearest => "nearest writing",
        };
        println!("| {call} | {library:.0} | {same:.0} | {tuned:.0} |");
    }
}

/// The ns for each byte of a reel, by its N and its size.
pub fn growth(sizes: &[usize], ns: &[Vec<[f64; 2]>; SAMPLES_IN_GROWTH.len()]) {
    println!("\nGrowth, the library on code 1, ns for each byte of the reel:\n");
    let names = SAMPLES_IN_GROWTH.map(|n| format!("reading, N = {n} | writing, N = {n}"));
    println!("| reel | {} |", names.join(" | "));
    println!("|---{}|", "|---|---".repeat(names.len()));
    for (k, megabytes) in sizes.iter().enumerate() {
        let cells = ns
            .each_ref()
            .map(|ns| format!("{:.3} | {:.3}", ns[k][0], ns[k][1]));
        println!("| {megabytes} MB | {} |", cells.join(" | "));
    }
}

/// Nearest writing by code and by what the samples are.
pub fn nearest(rows: &[Rounding], megabytes: usize, samples: u16, runs: usize) {
    println!("\nNearest writing of records whose reels have {megabytes} MB, N = {samples}; best of {runs} runs, all calls of a code in turn in each run, each run beginning with another.\n");
    for (_, name, text) in KINDS {
        println!("- {name}: {text}.");
    }
    println!("\nNs for each sample, and speeds over one another; exact writing is that of the samples that all fit:\n");
    println!("| code | samples | changed | exact, library | nearest, library | nearest, same algorithm in Rust | library over Rust | nearest over exact |");
    println!("|---|---|---|---|---|---|---|---|");
    for row in rows {
        let name = kind_name(row.kind);
        let [exact, library, same] =
            [row.exact, row.library, row.same].map(|seconds| seconds * 1e9 / row.samples as f64);
        println!(
            "| {} | {name} | {:.1} % | {exact:.2} | {library:.2} | {same:.2} | {:.2} | {:.2} |",
            row.code,
            row.changed as f64 * 100.0 / row.samples as f64,
            same / library,
            exact / library
        );
    }
}

/// Loops over cards, and calls of the library on a small reel and its record.
pub fn cards(loops: &[cards::Row], calls: &[cards::Row], runs: usize) {
    println!(
        "\nCards of {}, by which of them are 00; {}.\n",
        small_reel(),
        small_runs(runs)
    );
    println!("- bytes: a test for each byte, of which rustc makes vectors of 16 bytes;");
    println!("- words of eight: the library's steps, of which rustc makes vectors of two words;");
    println!("- no vectors: the same, but one byte or one word at a time.");
    for (title, rows) in [
        ("3,200 card bytes with 40 in place of each 00", loops),
        ("The library on that reel and its record", calls),
    ] {
        println!("\n{title}, ns:\n");
        println!("| | {} |", ZEROS.map(|(_, name)| name).join(" | "));
        println!("|---{}|", "|---".repeat(ZEROS.len()));
        for row in rows {
            let cells = row.seconds.map(|seconds| format!("{:.0}", seconds * 1e9));
            println!("| {} | {} |", row.name, cells.join(" | "));
        }
    }
}

/// Long traces beside those of the first N.
pub fn long(rows: &[long::Row], megabytes: usize, runs: usize) {
    let [first, others @ ..] = long::SAMPLES;
    println!("\nLong traces: reels of {megabytes} MB for each code and N, and their records; best of {runs} runs, all N in turn in each run, each run beginning with another. A copy of the reel or the record of N = {first} says what a difference is worth.");
    let others = others.map(|samples| format!("N = {samples}")).join(" | ");
    for (call, title) in [
        (Call::Read, "Reading"),
        (Call::Write, "Writing"),
        (Call::Nearest, "Nearest writing of samples that all fit"),
    ] {
        let rows: Vec<_> = rows.iter().filter(|row| row.call == call).collect();
        let earlier: Vec<usize> = (0..long::SAMPLES.len())
            .filter(|&k| rows.iter().any(|row| row.earlier[k].is_some()))
            .collect();
        let forms = if earlier.is_empty() {
            ""
        } else {
            "; then the speed from records in the earlier form over that from the new"
        };
        println!("\n{title}, millions of samples a second with N = {first}, and the speeds of its copy and of other N over that{forms}:\n");
        let names: String = earlier
            .iter()
            .map(|&k| format!(" N = {}, earlier form |", long::SAMPLES[k]))
            .collect();
        println!("| code | by | N = {first} | its copy | {others} |{names}");
        println!(
            "{}|",
            "|---".repeat(3 + long::SAMPLES.len() + earlier.len())
        );
        for row in rows {
            let [base, others @ ..] = row.speeds;
            let mut cells = vec![row.copy / base];
            cells.extend(others.map(|speed| speed / base));
            let over_new = |&k: &usize| row.earlier[k].unwrap_or(f64::NAN) / row.speeds[k];
            cells.extend(earlier.iter().map(over_new));
            let cells: Vec<String> = cells.iter().map(|ratio| format!("{ratio:.3}")).collect();
            println!(
                "| {}{} | {} | {:.0} | {} |",
                row.code,
                kind(row.not_normal, Kind::Fit),
                name(row.who, call),
                base / 1e6,
                cells.join(" | ")
            );
        }
    }
}

/// Comparing two records: large ones by their N, and a small one.
pub fn order(large: &[order::Row], runs: usize, small: &order::Row, small_runs: usize) {
    println!("\nComparing two records beside memcmp of two that are equal, and beside judging the first alone: nearest writing of it into no room. Best of {runs} runs, of the small record best of {small_runs} runs of {CALLS} calls in a row; all calls in turn in each run, each run beginning with another.");
    println!("\nMs a call, and times over one another:\n");
    println!("| N | each record | call | order | ms | over memcmp | over judging |");
    println!("|---|---|---|---|---|---|---|");
    for row in large {
        let megabytes = row.bytes as f64 / 1e6;
        for (call, order, seconds) in order_calls(row) {
            println!(
                "| {} | {megabytes:.0} MB | {call} | {order} | {:.1} | {} |",
                row.samples,
                seconds * 1e3,
                order_ratios(row, seconds)
            );
        }
    }
    println!(
        "\nRecords of 1 trace of {} samples, ns a call, and times over one another:\n",
        small.samples
    );
    println!("| call | order | ns | over memcmp | over judging |");
    println!("|---|---|---|---|---|");
    for (call, order, seconds) in order_calls(small) {
        println!(
            "| {call} | {order} | {:.0} | {} |",
            seconds * 1e9,
            order_ratios(small, seconds)
        );
    }
}

/// The calls of a row by their names, with the order that is found and the seconds.
fn order_calls(row: &order::Row) -> Vec<(&'static str, String, f64)> {
    let mut calls = vec![
        ("memcmp", "-".into(), row.memcmp),
        ("judging", "-".into(), row.judging),
    ];
    calls.extend(row.comparing.iter().map(|&(kind, seconds)| {
        let (_, name, order) = SECONDS[kind as usize];
        (name, (order as i32).to_string(), seconds)
    }));
    calls
}

/// Seconds over those of memcmp and of judging.
fn order_ratios(row: &order::Row, seconds: f64) -> String {
    let [memcmp, judging] = [row.memcmp, row.judging].map(|yardstick| seconds / yardstick);
    format!("{memcmp:.2} | {judging:.2}")
}

fn small_reel() -> String {
    let (code, samples) = (cards::CODE, cards::SAMPLES);
    format!("a reel of code {code} with 1 trace of {samples} samples")
}

fn small_runs(runs: usize) -> String {
    format!("best of {runs} runs of {CALLS} calls in a row, all in turn in each run, each run beginning with another and taking the next of {PLACES} places for the buffers")
}

/// Eagle reels beside the plain reels of the same traces, by their sizes in megabytes, each with its runs.
pub fn eagle(rows: &[eagle::Row], sizes: &[(usize, usize)]) {
    let runs: Vec<String> = sizes
        .iter()
        .map(|(megabytes, runs)| format!("of {runs} runs with {megabytes} MB"))
        .collect();
    println!("\nReading plain reels of code 1 and the Eagle reels of the same traces; medians {}, all reels of a row in turn in each run, each run beginning with another. A copy of the plain reel says what a difference is worth.", runs.join(" and "));
    println!(
        "\nThe library's speeds in millions of samples a second, and speeds over one another:\n"
    );
    println!("| plain reel | N | words | Eagle reel's bytes over plain's | plain | Eagle | Eagle over plain | same algorithm in Rust, Eagle over plain | library over Rust, Eagle | plain's copy over plain |");
    println!("|---|---|---|---|---|---|---|---|---|---|");
    for row in rows {
        let words = match row.not_normal {
            true => format!("1 in {} not normal", reels::ONE_IN),
            false => "all normal".into(),
        };
        let speed = |seconds: f64| row.count as f64 / 1e6 / seconds;
        let over = |seconds: Seconds| seconds.plain / seconds.eagle;
        println!(
            "| {} MB | {} | {words} | {:.2} | {:.0} | {:.0} | {:.2} | {:.2} | {:.2} | {:.2} |",
            row.megabytes,
            row.samples,
            row.longer,
            speed(row.library.plain),
            speed(row.library.eagle),
            over(row.library),
            over(row.same),
            row.same.eagle / row.library.eagle,
            row.library.plain / row.copy
        );
    }
}

/// Two versions on a small reel and its record.
pub fn small_versions(rows: &[ComparedSmall], runs: usize) {
    println!("Calls on {} and on its record, no card byte 00; {}. There are two copies of both versions. The faster copy counts; the slower one is given over it.", small_reel(), small_runs(runs));
    println!(
        "\n| call | old, ns | new, ns | old over new | old's slower copy | new's slower copy |"
    );
    println!("|---|---|---|---|---|---|");
    for row in rows {
        let [old, new] = [row.old, row.new].map(sorted);
        let ns = |seconds| cell(seconds, |s| format!("{:.0}", s * 1e9));
        let over = |a: Option<f64>, b: Option<f64>| {
            cell(a.zip(b).map(|(a, b)| a / b), |ratio| format!("{ratio:.3}"))
        };
        println!(
            "| {} | {} | {} | {} | {} | {} |",
            row.name,
            ns(old[0]),
            ns(new[0]),
            over(old[0], new[0]),
            over(old[1], old[0]),
            over(new[1], new[0])
        );
    }
    if let Some(row) = rows.iter().find(|row| !row.same_bytes) {
        println!("\nA version gives other bytes in {}.", row.name);
    }
}

pub fn versions(rows: &[Compared], megabytes: usize, samples: u16, runs: usize, forms: bool) {
    println!("A reel of {megabytes} MB for each code, N = {samples}; best of {runs} runs, both copies of both versions in turn in each run, each run beginning with another. The faster copy counts; the slower one is given over it.");
    if forms {
        println!("Each version writes from the record that it reads, which is in the earlier form where the version is from before CR 8. Those whose samples have to be rounded are in the earlier form for both.");
    }
    for (call, title) in [
        (Call::Read, "Reading"),
        (Call::Eagle, "Reading Eagle reels of the same traces"),
        (Call::Write, "Writing"),
        (Call::Nearest, "Nearest writing"),
    ] {
        if rows.iter().all(|row| row.call != call) {
            continue;
        }
        println!("\n{title}, MB of reel a second:\n");
        println!("| code | old | new | new over old | old's slower copy | new's slower copy |");
        println!("|---|---|---|---|---|---|");
        for row in rows.iter().filter(|row| row.call == call) {
            let [old, new] = [row.old, row.new].map(sorted);
            let speed = |seconds| cell(seconds, |s| format!("{:.0}", row.bytes as f64 / 1e6 / s));
            let over = |a: Option<f64>, b: Option<f64>| {
                cell(a.zip(b).map(|(a, b)| b / a), |ratio| format!("{ratio:.3}"))
            };
            println!(
                "| {}{} | {} | {} | {} | {} | {} |",
                row.code,
                kind(row.not_normal, row.kind),
                speed(old[0]),
                speed(new[0]),
                over(new[0], old[0]),
                over(old[1], old[0]),
                over(new[1], new[0])
            );
        }
    }
    if let Some(row) = rows.iter().find(|row| !row.same_bytes) {
        println!("\nThe versions give other bytes under code {}.", row.code);
    }
}

fn sorted([a, b]: [Option<f64>; 2]) -> [Option<f64>; 2] {
    if a <= b {
        [a, b]
    } else {
        [b, a]
    }
}

fn cell(number: Option<f64>, text: impl Fn(f64) -> String) -> String {
    number.map_or("-".into(), text)
}

/// What is said of a row's samples beside the code.
fn kind(not_normal: bool, kind: Kind) -> String {
    if not_normal {
        format!(", 1 in {} not normal", reels::ONE_IN)
    } else if kind == Kind::Fit {
        String::new()
    } else {
        format!(", {}", kind_name(kind))
    }
}

/// The name of a kind of samples.
fn kind_name(kind: Kind) -> &'static str {
    let (_, name, _) = KINDS[kind as usize];
    name
}

impl Row {
    fn speeds(&self) -> [Option<f64>; ALL.len()] {
        self.seconds
            .map(|seconds| Some(self.bytes as f64 / 1e6 / seconds?))
    }

    fn ratios(&self) -> [Option<f64>; ALL.len()] {
        let library = self.seconds[0];
        self.seconds.map(|seconds| Some(seconds? / library?))
    }
}

fn head(names: &[&str]) {
    println!("| code | {} |", names.join(" | "));
    println!("|---{}|", "|---".repeat(names.len()));
}

fn line(row: &Row, numbers: &[Option<f64>], text: impl Fn(f64) -> String) {
    let cells: Vec<String> = numbers.iter().map(|&number| cell(number, &text)).collect();
    println!(
        "| {}{} | {} |",
        row.code,
        kind(row.not_normal, Kind::Fit),
        cells.join(" | ")
    );
}
