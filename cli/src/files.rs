//! Files in, files out, memory for them, and steps shown of long work.

use crate::system::{self, Mapping};
use crate::trouble::Trouble;
use std::fmt::Display;
use std::fs::{self, File, Metadata, OpenOptions};
use std::io::{self, ErrorKind, IsTerminal, Read, Write};
use std::mem;
use std::ops::Deref;
use std::os::unix::fs::MetadataExt;
use std::path::{Path, PathBuf};
use std::process;
use std::time::{SystemTime, UNIX_EPOCH};

/// Work on as many bytes is long enough to show its steps.
const LONG: u64 = 16_000_000;

/// What input without a known length is first read into.
const FIRST_ROOM: u64 = 65_536;

/// Shows a step of long work on standard error, where that is a terminal.
pub fn step(what: impl Display, bytes: u64) {
    if bytes >= LONG && io::stderr().is_terminal() {
        let _ = writeln!(io::stderr(), "aukpocket: {what}, {}", size(bytes));
    }
}

/// A length for people.
pub fn size(bytes: u64) -> String {
    match bytes {
        0..10_000_000 => format!("{bytes} bytes"),
        10_000_000..10_000_000_000 => format!("{} MB", bytes / 1_000_000),
        _ => format!("{} GB", bytes / 1_000_000_000),
    }
}

/// A file to be read, and the length that it tells.
pub fn open(path: &Path) -> Result<(File, u64), Trouble> {
    let name = path.display();
    let file =
        File::open(path).map_err(|e| Trouble::file(format!("{name}: can't be opened: {e}")))?;
    let about = file
        .metadata()
        .map_err(|e| Trouble::file(format!("{name}: can't be looked at: {e}")))?;
    if about.is_dir() {
        return Err(Trouble::file(format!("{name}: is a folder, not a file")));
    }
    Ok((file, about.len()))
}

/// The whole content of a file.
pub fn load(path: &Path) -> Result<Vec<u8>, Trouble> {
    let name = path.display();
    let (mut file, length) = open(path)?;
    step(format_args!("loading {name}"), length);
    load_from(&mut file, length, name)
}

/// What tells one state of a file from another: which file it is, its length, and when it was last changed.
#[derive(Clone, Copy, PartialEq, Eq)]
pub struct State([i64; 7]);

impl State {
    fn of(about: &Metadata) -> State {
        let numbers = [about.dev(), about.ino(), about.len()].map(|number| number as i64);
        let [device, file, length] = numbers;
        let changed = [about.mtime(), about.mtime_nsec()];
        let touched = [about.ctime(), about.ctime_nsec()];
        State([
            device, file, length, changed[0], changed[1], touched[0], touched[1],
        ])
    }
}

/// The whole content of a file, where it stands: it is mapped, so that it takes no memory of its own. What can't be mapped, an empty file
/// or a pipe, is loaded.
pub enum View {
    Mapped(Mapping, File, State),
    Loaded(Vec<u8>),
}

impl View {
    pub fn of(path: &Path) -> Result<View, Trouble> {
        let name = path.display();
        let (mut file, length) = open(path)?;
        let looked = |e| Trouble::file(format!("{name}: can't be looked at: {e}"));
        let about = file.metadata().map_err(looked)?;
        if about.is_file() && length > 0 {
            let mapping = usize::try_from(length)
                .ok()
                .map(|length| Mapping::of(&file, length));
            if let Some(Ok(mapping)) = mapping {
                return Ok(View::Mapped(mapping, file, State::of(&about)));
            }
        }
        Ok(View::Loaded(load_from(&mut file, length, name)?))
    }

    /// The state in which a file is that was mapped.
    pub fn state(&self) -> Option<State> {
        match self {
            View::Mapped(_, _, state) => Some(*state),
            View::Loaded(_) => None,
        }
    }

    /// That the file is as it was when it was mapped. A change would have changed the bytes that were lent.
    pub fn unchanged(&self, path: &Path) -> Result<(), Trouble> {
        let View::Mapped(_, file, state) = self else {
            return Ok(());
        };
        match file.metadata() {
            Ok(about) if State::of(&about) == *state => Ok(()),
            _ => Err(changed(path)),
        }
    }
}

impl Deref for View {
    type Target = [u8];

    fn deref(&self) -> &[u8] {
        match self {
            View::Mapped(mapping, ..) => mapping,
            View::Loaded(bytes) => bytes,
        }
    }
}

/// A file that another program changed while it was read.
pub fn changed(path: &Path) -> Trouble {
    Trouble::file(format!("{}: was changed while it was read", path.display()))
}

/// The whole content of a source that is expected to have that many bytes, and may have more or fewer.
pub fn load_from(
    source: &mut impl Read,
    expected: u64,
    name: impl Display,
) -> Result<Vec<u8>, Trouble> {
    let mut bytes = Vec::new();
    reserve(&mut bytes, expected.max(FIRST_ROOM), &name)?;
    loop {
        let room = bytes.capacity() - bytes.len();
        let read = source
            .by_ref()
            .take(room as u64)
            .read_to_end(&mut bytes)
            .map_err(|e| Trouble::file(format!("{name}: can't be read: {e}")))?;
        if read < room {
            return Ok(bytes);
        }
        // The room is full. One byte tells whether this is the end, before more is asked for.
        let mut next = Vec::new();
        source
            .by_ref()
            .take(1)
            .read_to_end(&mut next)
            .map_err(|e| Trouble::file(format!("{name}: can't be read: {e}")))?;
        if next.is_empty() {
            return Ok(bytes);
        }
        let more = bytes.len() as u64;
        reserve(&mut bytes, more, &name)?;
        bytes.extend(next);
    }
}

/// An output buffer of that length.
pub fn buffer(length: u64, what: impl Display) -> Result<Vec<u8>, Trouble> {
    let mut bytes = room(length, what)?;
    bytes.resize(length as usize, 0);
    Ok(bytes)
}

/// Room for that many bytes, of which none is there yet.
pub fn room(length: u64, what: impl Display) -> Result<Vec<u8>, Trouble> {
    let mut bytes = Vec::new();
    reserve(&mut bytes, length, what)?;
    Ok(bytes)
}

/// Room for more bytes. The system may promise memory that it doesn't have and end the run when it is used, so what is free is asked
/// first.
fn reserve(bytes: &mut Vec<u8>, more: u64, what: impl Display) -> Result<(), Trouble> {
    let held = bytes.len() as u64;
    let wanted = size(held.saturating_add(more));
    if let Some(free) = free_memory() {
        if more > free {
            return Err(Trouble::file(format!(
                "{what}: too large for this machine's memory: {wanted} are needed, and {} are free",
                size(held.saturating_add(free))
            )));
        }
    }
    usize::try_from(more)
        .ok()
        .and_then(|more| bytes.try_reserve_exact(more).ok())
        .ok_or_else(|| {
            Trouble::file(format!(
                "{what}: too large for the memory that this run may have: {wanted} are needed"
            ))
        })
}

/// The bytes of memory and swap that are free, where the system tells.
fn free_memory() -> Option<u64> {
    let told = fs::read_to_string("/proc/meminfo").ok()?;
    let kilobytes = |name: &str| -> Option<u64> {
        let line = told.lines().find(|line| line.starts_with(name))?;
        line.split_whitespace().nth(1)?.parse().ok()
    };
    let free = kilobytes("MemAvailable:")?.saturating_add(kilobytes("SwapFree:").unwrap_or(0));
    free.checked_mul(1024)
}

/// A file to be written: under a temporary name in the same folder, and under its own once all of it is on the disk.
pub struct Target {
    path: PathBuf,
    replaced: Option<Metadata>,
}

impl Target {
    /// Whether the file may be written is asked before the work, which may be long. A file that is there is kept unless it is to be
    /// replaced, and an input is never replaced by its own output.
    pub fn new(path: &Path, force: bool, inputs: &[&Path]) -> Result<Target, Trouble> {
        let name = path.display();
        if path.file_name().is_none() {
            return Err(Trouble::file(format!("{name}: names no file")));
        }
        match fs::symlink_metadata(path) {
            Err(e) if e.kind() == ErrorKind::NotFound => {
                let target = Target {
                    path: path.to_path_buf(),
                    replaced: None,
                };
                match fs::metadata(target.folder()) {
                    Ok(folder) if folder.is_dir() => target.writable(),
                    _ => Err(Trouble::file(format!("{name}: its folder isn't there"))),
                }
            }
            Err(e) => Err(Trouble::file(format!("{name}: can't be looked at: {e}"))),
            Ok(about) if about.is_dir() => Err(Trouble::file(format!("{name}: is a folder"))),
            Ok(about) if about.is_symlink() && !path.exists() => Err(Trouble::file(format!(
                "{name}: is a link that leads nowhere, and is kept"
            ))),
            Ok(_) => {
                // Behind a link, the file that it leads to is the one to replace.
                let looked = |e| Trouble::file(format!("{name}: can't be looked at: {e}"));
                let about = fs::metadata(path).map_err(looked)?;
                if !about.is_file() {
                    return Err(Trouble::file(format!("{name}: is no regular file")));
                }
                let same = |input: &&Path| {
                    fs::metadata(input)
                        .is_ok_and(|input| (input.dev(), input.ino()) == (about.dev(), about.ino()))
                };
                if inputs.iter().any(same) {
                    return Err(Trouble::file(format!(
                        "{name}: is an input, which is never replaced"
                    )));
                }
                if !force {
                    return Err(Trouble::file(format!(
                        "{name}: is there already and is kept; --force replaces it"
                    )));
                }
                let path = fs::canonicalize(path).map_err(looked)?;
                Target {
                    path,
                    replaced: Some(about),
                }
                .writable()
            }
        }
    }

    fn writable(self) -> Result<Target, Trouble> {
        match system::may_write(self.folder()) {
            Ok(()) => Ok(self),
            Err(e) => Err(Trouble::file(format!(
                "{}: can't be written: {e}",
                self.path.display()
            ))),
        }
    }

    fn folder(&self) -> &Path {
        match self.path.parent() {
            Some(folder) if !folder.as_os_str().is_empty() => folder,
            _ => Path::new("."),
        }
    }

    /// Writes the file.
    pub fn put(&self, bytes: &[u8]) -> Result<(), Trouble> {
        let name = self.path.display();
        step(format_args!("writing {name}"), bytes.len() as u64);
        self.put_synced(bytes).map_err(|e| match e.kind() {
            ErrorKind::AlreadyExists => Trouble::file(format!(
                "{name}: was made by another meanwhile, and is kept"
            )),
            _ => Trouble::file(format!("{name}: can't be written: {e}")),
        })
    }

    fn put_synced(&self, bytes: &[u8]) -> io::Result<()> {
        {
            let (temporary, mut file) = Temporary::new(self.folder())?;
            file.write_all(bytes)?;
            if let Some(about) = &self.replaced {
                file.set_permissions(about.permissions())?;
            }
            file.sync_all()?;
            if self.replaced.is_some() {
                fs::rename(&temporary.0, &self.path)?;
            } else {
                name_anew(&temporary.0, &self.path)?;
            }
        }
        sync_folder(self.folder())
    }
}

/// Gives a file its name where nothing has that name. A link fails where a file was made meanwhile, which a rename would replace.
fn name_anew(temporary: &Path, path: &Path) -> io::Result<()> {
    match fs::hard_link(temporary, path) {
        Ok(()) => Ok(()),
        Err(e) if e.kind() == ErrorKind::AlreadyExists => Err(e),
        // A file system without links.
        Err(_) if fs::symlink_metadata(path).is_ok() => Err(ErrorKind::AlreadyExists.into()),
        Err(_) => fs::rename(temporary, path),
    }
}

/// Makes the new name last. Some file systems can't sync a folder and say so.
fn sync_folder(folder: &Path) -> io::Result<()> {
    match File::open(folder).and_then(|folder| folder.sync_all()) {
        Err(e) if matches!(e.kind(), ErrorKind::InvalidInput | ErrorKind::Unsupported) => Ok(()),
        // A folder that may be written to and not listed.
        Err(e) if e.kind() == ErrorKind::PermissionDenied => Ok(()),
        other => other,
    }
}

/// The temporary name of a file that is being written. The name goes with the value, whatever happens.
struct Temporary(PathBuf);

impl Temporary {
    fn new(folder: &Path) -> io::Result<(Temporary, File)> {
        // The time makes a name that nobody else has, so that it can be given to the signals before there is a file.
        let time = SystemTime::now().duration_since(UNIX_EPOCH);
        let mut number = time.map_or(0, |time| time.as_nanos());
        loop {
            let path = folder.join(format!("aukpocket-{}-{number}.partial", process::id()));
            let temporary = Temporary(path);
            system::remove_at_end(&temporary.0);
            match OpenOptions::new()
                .write(true)
                .create_new(true)
                .open(&temporary.0)
            {
                Ok(file) => return Ok((temporary, file)),
                Err(e) => {
                    system::removed();
                    mem::forget(temporary);
                    if e.kind() != ErrorKind::AlreadyExists {
                        return Err(e);
                    }
                    number += 1;
                }
            }
        }
    }
}

impl Drop for Temporary {
    fn drop(&mut self) {
        let _ = fs::remove_file(&self.0);
        system::removed();
    }
}
