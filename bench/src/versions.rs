//! Two versions of the library in one process, each loaded twice, as shared objects that
//! `bench/versions.sh` makes of static libraries. Where a loop comes to lie matters, so the copies lie
//! differently, and the faster one counts. The version that is linked with this can be called as they are.

use crate::cards::{self, Lent, Small, CODE, PLACES, SMALL};
use crate::passes::{EARLIER, MOST_SAMPLES};
use crate::reels::{self, Kind, Zeros};
use crate::tables::{self, Call};
use crate::{in_turns, kinds, record_length, reel_of, Options, MEGABYTE};
use std::ffi::{c_char, c_int, c_void, CStr, CString};
use std::hash::{DefaultHasher, Hasher};
use std::hint::black_box;
use std::time::Instant;
use std::{mem, process};

/// The size of the reels, in megabytes, and how many runs there are.
const SIZE: usize = 32;
const RUNS: usize = 41;

/// The members of `struct aukpocket_reel_answer` that are looked at, and room for those that a version has
/// behind them.
#[repr(C)]
struct Answer {
    number: u64,
    traces: u64,
    samples: u64,
    length: u64,
    rest: [u64; 12],
}

type ReadReel = unsafe extern "C" fn(*const u8, usize, *mut u8, usize) -> Answer;
type WriteReel = unsafe extern "C" fn(*const u8, usize, u32, *mut u8, usize) -> Answer;
type TakeCards = unsafe extern "C" fn(*const u8, usize, *const u8, usize, *mut u8, usize) -> Answer;

// The version that is linked with this.
extern "C" {
    fn aukpocket_read_reel(from: *const u8, length: usize, to: *mut u8, room: usize) -> Answer;
    fn aukpocket_read_eagle(from: *const u8, length: usize, to: *mut u8, room: usize) -> Answer;
    fn aukpocket_write_reel(
        from: *const u8,
        length: usize,
        code: u32,
        to: *mut u8,
        room: usize,
    ) -> Answer;
    fn aukpocket_write_nearest(
        from: *const u8,
        length: usize,
        code: u32,
        to: *mut u8,
        room: usize,
    ) -> Answer;
    fn aukpocket_list_cards(from: *const u8, length: usize, to: *mut u8, room: usize) -> Answer;
    fn aukpocket_take_cards(
        from: *const u8,
        length: usize,
        listing: *const u8,
        listing_length: usize,
        to: *mut u8,
        room: usize,
    ) -> Answer;
}

extern "C" {
    fn dlopen(file: *const c_char, mode: c_int) -> *mut c_void;
    fn dlsym(handle: *mut c_void, name: *const c_char) -> *mut c_void;
}

/// The machine's number for binding all names when it is loaded.
const RTLD_NOW: c_int = 2;

/// The calls of a version. One before CR 1 has no listings, one before CR 5 no nearest writing, one before
/// CR 7 no Eagle reading.
pub struct Version {
    read: ReadReel,
    eagle: Option<ReadReel>,
    write: WriteReel,
    nearest: Option<WriteReel>,
    list: Option<ReadReel>,
    take: Option<TakeCards>,
}

impl Version {
    /// The one that is linked with this.
    pub fn linked() -> Version {
        Version {
            read: aukpocket_read_reel,
            eagle: Some(aukpocket_read_eagle),
            write: aukpocket_write_reel,
            nearest: Some(aukpocket_write_nearest),
            list: Some(aukpocket_list_cards),
            take: Some(aukpocket_take_cards),
        }
    }

    fn load(path: &str) -> Version {
        let file = CString::new(path).expect("a path");
        // SAFETY: it is a static library of this project as a shared object, which runs nothing on loading.
        let handle = unsafe { dlopen(file.as_ptr(), RTLD_NOW) };
        assert!(
            !handle.is_null(),
            "{path} can't be loaded: give it with its folder"
        );
        let find = |name: &CStr| {
            // SAFETY: the handle is that of a loaded object.
            let found = unsafe { dlsym(handle, name.as_ptr()) };
            (!found.is_null()).then_some(found)
        };
        let [read, write] = [c"aukpocket_read_reel", c"aukpocket_write_reel"]
            .map(|name| find(name).unwrap_or_else(|| panic!("{path} has no {name:?}")));
        let eagle = find(c"aukpocket_read_eagle");
        let nearest = find(c"aukpocket_write_nearest");
        let list = find(c"aukpocket_list_cards");
        let take = find(c"aukpocket_take_cards");
        // SAFETY: these are the types of the functions in every version's header, but for what an answer
        // has at its end, for which there is room.
        unsafe {
            Version {
                read: mem::transmute::<*mut c_void, ReadReel>(read),
                eagle: eagle.map(|found| mem::transmute::<*mut c_void, ReadReel>(found)),
                write: mem::transmute::<*mut c_void, WriteReel>(write),
                nearest: nearest.map(|found| mem::transmute::<*mut c_void, WriteReel>(found)),
                list: list.map(|found| mem::transmute::<*mut c_void, ReadReel>(found)),
                take: take.map(|found| mem::transmute::<*mut c_void, TakeCards>(found)),
            }
        }
    }

    /// The seconds of a call, where there is one and it is taken with so long an output.
    fn timed(&self, call: Call, code: u32, input: &[u8], out: &mut [u8]) -> Option<f64> {
        let read = match call {
            Call::Eagle => self.eagle?,
            _ => self.read,
        };
        let write = match call {
            Call::Nearest => self.nearest?,
            _ => self.write,
        };
        let (from, to) = (black_box(input.as_ptr()), black_box(out.as_mut_ptr()));
        let start = Instant::now();
        // SAFETY: both buffers are lent for the call with their lengths.
        let answer = unsafe {
            match call {
                Call::Read | Call::Eagle => read(from, input.len(), to, out.len()),
                Call::Write | Call::Nearest => write(from, input.len(), code, to, out.len()),
            }
        };
        let seconds = start.elapsed().as_secs_f64();
        (answer.number == 0 && answer.length == out.len() as u64).then_some(seconds)
    }

    /// Whether it is from before CR 8: N is 8,000 at most, and a trace has a single field of samples.
    pub fn is_earlier(&self) -> bool {
        let reel = reels::make(1, MOST_SAMPLES, 0);
        let mut record = vec![1; record_length(&reel, 1)];
        self.timed(Call::Read, 1, &reel, &mut record).is_none()
    }

    /// Whether there is such a call on the small reel or its record, and it is taken with so long an output.
    pub fn small(&self, call: Small, lent: &mut Lent) -> bool {
        let (from, length) = (lent.input.as_ptr(), lent.input.len());
        let (listing, listing_length) = (lent.listing.as_ptr(), lent.listing.len());
        let (to, room) = (lent.out.as_mut_ptr(), lent.out.len());
        // SAFETY: all buffers are lent for the call with their lengths.
        let answer = unsafe {
            match (call, self.nearest, self.list, self.take) {
                (Small::ReadHeaders | Small::Read, ..) => (self.read)(from, length, to, room),
                (Small::Write, ..) => (self.write)(from, length, CODE, to, room),
                (Small::Nearest, Some(write), ..) => write(from, length, CODE, to, room),
                (Small::List, _, Some(list), _) => list(from, length, to, room),
                (Small::Take, .., Some(take)) => {
                    take(from, length, listing, listing_length, to, room)
                }
                _ => return false,
            }
        };
        answer.number == 0 && answer.length == room as u64
    }
}

/// The best seconds of each copy: of the old version's two, and of the new one's.
pub struct Compared {
    pub call: Call,
    pub code: u32,
    pub not_normal: bool,
    pub kind: Kind,
    pub bytes: usize,
    pub old: [Option<f64>; 2],
    pub new: [Option<f64>; 2],
    pub same_bytes: bool,
}

/// What is timed of each copy, one after the other: reading, writing from the record that it has read just
/// before, nearest writing of that record and of one whose samples have to be rounded, and reading the Eagle
/// reel of the same traces.
const TURNS: [(Call, Kind); 5] = [
    (Call::Read, Kind::Fit),
    (Call::Write, Kind::Fit),
    (Call::Nearest, Kind::Fit),
    (Call::Nearest, Kind::Rounded),
    (Call::Eagle, Kind::Fit),
];

/// All calls by each copy in turn, each run beginning with another of them; the best run counts. A reel that
/// has words that aren't normal is not written to the nearest. There is Eagle reading of code 1 where both
/// versions have it. A version from before CR 8 reads the earlier form of a record where N has one, and takes
/// no other; the record whose samples have to be rounded is then in that form for all.
pub fn compare(options: &Options, paths: [&str; 4]) {
    let versions = paths.map(Version::load);
    let earlier = versions.each_ref().map(Version::is_earlier);
    let with_earlier = earlier.contains(&true);
    if with_earlier && usize::from(options.samples) > *EARLIER.end() {
        let who = match earlier {
            [true, _, true, _] => "both versions are",
            [true, ..] => "the old version is",
            _ => "the new version is",
        };
        eprintln!(
            "{who} from before CR 8, so that --samples is {} at most",
            EARLIER.end()
        );
        process::exit(1);
    }
    let forms = with_earlier && EARLIER.contains(&usize::from(options.samples));
    let megabytes = options.megabytes.unwrap_or(SIZE);
    let runs = options.runs.unwrap_or(RUNS);
    let all_read_eagle = versions.iter().all(|version| version.eagle.is_some());
    let mut rows = Vec::new();
    for (code, not_normal) in kinds(&options.codes) {
        let reel = reel_of(code, options.samples, not_normal, megabytes);
        let with_eagle = all_read_eagle && code == 1;
        let eagle = with_eagle.then(|| reels::with_trailers(&reel, options.samples));
        let bytes = megabytes * MEGABYTE;
        let mut rounded = reels::make_record(code, options.samples, bytes, Kind::Rounded);
        let mut record = vec![1; rounded.len()];
        if forms {
            rounded = reels::earlier(&rounded, options.samples);
        }
        // The bytes of the record that each reads.
        let lengths = earlier.map(|earlier| if earlier { rounded.len() } else { record.len() });
        let mut written = vec![1; reel.len()];

        let mut turns = TURNS.to_vec();
        turns.retain(|(call, _)| match call {
            Call::Read | Call::Write => true,
            Call::Nearest => !not_normal,
            Call::Eagle => with_eagle,
        });
        let mut best = [[None; 4]; TURNS.len()];
        let mut given = [[None; 4]; TURNS.len()];
        for run in 0..runs {
            for turn in 0..versions.len() {
                let who = (run + turn) % versions.len();
                for (k, &(call, kind)) in turns.iter().enumerate() {
                    let length = lengths[who];
                    let (input, out) = match (call, kind) {
                        (Call::Read, _) => (&reel[..], &mut record[..length]),
                        (Call::Eagle, _) => (
                            &eagle.as_ref().expect("it was made")[..],
                            &mut record[..length],
                        ),
                        (_, Kind::Fit) => (&record[..length], &mut written[..]),
                        _ => (&rounded[..], &mut written[..]),
                    };
                    let Some(seconds) = versions[who].timed(call, code, input, out) else {
                        // It doesn't know the code, or has no nearest writing.
                        assert!(
                            call != Call::Write,
                            "a record is written in its reel's code"
                        );
                        break;
                    };
                    lower(&mut best[k][who], seconds);
                    if run == 0 {
                        let is_read = matches!(call, Call::Read | Call::Eagle);
                        given[k][who] = Some(if is_read && forms && !earlier[who] {
                            hash_of(&reels::earlier(out, options.samples))
                        } else {
                            hash_of(out)
                        });
                    }
                }
            }
        }
        for (k, &(call, kind)) in turns.iter().enumerate() {
            let [a, b, c, d] = best[k];
            let [old, _, new, _] = given[k];
            rows.push(Compared {
                call,
                code,
                not_normal,
                kind,
                bytes: match (call, &eagle) {
                    (Call::Eagle, Some(eagle)) => eagle.len(),
                    _ => reel.len(),
                },
                old: [a, b],
                new: [c, d],
                same_bytes: old.is_none() || old == new,
            });
        }
    }
    tables::versions(&rows, megabytes, options.samples, runs, forms);
}

/// The best seconds of each copy in a call on the small reel or its record.
pub struct ComparedSmall {
    pub name: &'static str,
    pub old: [Option<f64>; 2],
    pub new: [Option<f64>; 2],
    pub same_bytes: bool,
}

/// All calls on the small reel and its record by each copy in turn, each run beginning with another of them;
/// the best run counts.
pub fn compare_small(options: &Options, paths: [&str; 4]) {
    let versions = paths.map(Version::load);
    let runs = options.runs.unwrap_or(cards::RUNS);
    let mut places = cards::in_places(&cards::lents(Zeros::No));
    let mut turns = Vec::new();
    let mut other_bytes = [false; SMALL.len()];
    for (call, _) in SMALL {
        let lent = &mut places[0][call as usize];
        for (who, version) in versions.iter().enumerate() {
            lent.out.fill(1);
            // One that has no such call gets no turn.
            if version.small(call, lent) {
                turns.push((call, who));
                other_bytes[call as usize] |= lent.out != lent.given;
            }
        }
    }

    let best = in_turns(runs, turns.len(), |run, turn| {
        let (call, who) = turns[turn];
        let lent = &mut places[run % PLACES][call as usize];
        cards::timed(|| assert!(versions[who].small(call, lent)))
    });
    let mut seconds = [[None; 4]; SMALL.len()];
    for ((call, who), best) in turns.into_iter().zip(best) {
        seconds[call as usize][who] = Some(best);
    }
    let rows = SMALL.map(|(call, name)| {
        let [a, b, c, d] = seconds[call as usize];
        ComparedSmall {
            name,
            old: [a, b],
            new: [c, d],
            same_bytes: !other_bytes[call as usize],
        }
    });
    tables::small_versions(&rows, runs);
}

fn lower(best: &mut Option<f64>, seconds: f64) {
    *best = Some(best.map_or(seconds, |before| before.min(seconds)));
}

fn hash_of(bytes: &[u8]) -> u64 {
    let mut hasher = DefaultHasher::new();
    hasher.write(bytes);
    hasher.finish()
}
