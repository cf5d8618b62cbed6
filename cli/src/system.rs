//! What std leaves to the C library: a limit on file sizes is an error like others, a run that is told to end takes its temporary file
//! along, whether a folder may be written to is asked before the work, a file is read from the disk itself, and a file is mapped.

use std::ffi::{c_char, c_int, c_void, CString};
use std::fs::File;
use std::io;
use std::ops::Deref;
use std::os::fd::AsRawFd;
use std::os::unix::ffi::OsStrExt;
use std::path::Path;
use std::ptr;
use std::slice;
use std::sync::atomic::{AtomicPtr, Ordering};

// Of the C library, which std is linked with.
extern "C" {
    fn signal(number: c_int, action: usize) -> usize;
    fn raise(number: c_int) -> c_int;
    fn unlink(path: *const c_char) -> c_int;
    fn access(path: *const c_char, mode: c_int) -> c_int;
    fn posix_fadvise(file: c_int, place: i64, length: i64, advice: c_int) -> c_int;
    fn mmap(
        at: *mut c_void,
        length: usize,
        access: c_int,
        kind: c_int,
        file: c_int,
        place: i64,
    ) -> *mut c_void;
    fn munmap(at: *mut c_void, length: usize) -> c_int;
    fn write(file: c_int, bytes: *const c_void, length: usize) -> isize;
    fn strlen(text: *const c_char) -> usize;
    fn _exit(status: c_int) -> !;
}

const DEFAULT: usize = 0;
const IGNORE: usize = 1;
const HANGUP: c_int = 1;
const INTERRUPT: c_int = 2;
const BUS_ERROR: c_int = 7;
const TERMINATE: c_int = 15;
const FILE_SIZE: c_int = 25;
const WRITE_AND_SEARCH: c_int = 3;
const NOT_NEEDED: c_int = 4;
const READ_ONLY: c_int = 1;
const PRIVATE: c_int = 2;
const STANDARD_ERROR: c_int = 2;

/// The name of the temporary file while there is one.
static TEMPORARY: AtomicPtr<c_char> = AtomicPtr::new(ptr::null_mut());

/// A write beyond the limit on file sizes then fails with an error, in place of ending the run.
pub fn prepare() {
    // SAFETY: no handler is set.
    unsafe { signal(FILE_SIZE, IGNORE) };
}

/// Whether files can be made in a folder, as far as can be told without making one.
pub fn may_write(folder: &Path) -> io::Result<()> {
    let name = CString::new(folder.as_os_str().as_bytes())?;
    // SAFETY: the name ends with a 0.
    match unsafe { access(name.as_ptr(), WRITE_AND_SEARCH) } {
        0 => Ok(()),
        _ => Err(io::Error::last_os_error()),
    }
}

/// Has the system forget what it keeps of a file in memory, so that the disk is read. It may keep it all the same, as where another
/// program has the file open; that is no trouble.
pub fn forget(file: &File) {
    // SAFETY: the file is open. A length of 0 is the whole file.
    unsafe { posix_fadvise(file.as_raw_fd(), 0, 0, NOT_NEEDED) };
}

/// What is said where a mapped file can't be read any more.
static LOST: AtomicPtr<c_char> = AtomicPtr::new(ptr::null_mut());

/// A file's bytes where the system has them, so that no memory is asked for. They stay there when the file is closed. Its caller looks
/// whether the file was changed meanwhile: the bytes that are lent would change with it.
pub struct Mapping {
    start: *mut c_void,
    length: usize,
}

impl Mapping {
    /// The first bytes of a file, of which there has to be one.
    pub fn of(file: &File, length: usize) -> io::Result<Mapping> {
        // SAFETY: the file is open, the system chooses where its bytes stand, and they are only read.
        let start = unsafe {
            mmap(
                ptr::null_mut(),
                length,
                READ_ONLY,
                PRIVATE,
                file.as_raw_fd(),
                0,
            )
        };
        match start as isize {
            -1 => Err(io::Error::last_os_error()),
            _ => Ok(Mapping { start, length }),
        }
    }
}

impl Deref for Mapping {
    type Target = [u8];

    fn deref(&self) -> &[u8] {
        // SAFETY: as many bytes are mapped as long as this value is there.
        unsafe { slice::from_raw_parts(self.start.cast(), self.length) }
    }
}

impl Drop for Mapping {
    fn drop(&mut self) {
        // SAFETY: nothing is lent any more.
        unsafe { munmap(self.start, self.length) };
    }
}

/// Has the run end with a sentence and the status 1 where a byte of a mapped file can't be had: the file was cut, or its disk fails. The
/// system tells it by a signal, which would end the run without a word.
pub fn say_where_lost(sentence: &str) {
    let Ok(text) = CString::new(format!("aukpocket: {sentence}\n").replace('\0', "")) else {
        return;
    };
    let before = LOST.swap(text.into_raw(), Ordering::SeqCst);
    // SAFETY: the text before is stored no longer, and the handler runs in this thread, where a mapped byte is read.
    unsafe {
        if !before.is_null() {
            drop(CString::from_raw(before));
        }
        signal(BUS_ERROR, lost as *const () as usize);
    }
}

extern "C" fn lost(_: c_int) {
    let text = LOST.load(Ordering::SeqCst);
    // SAFETY: a text that is stored ends with a 0 and isn't freed; the three functions may be called in a handler.
    unsafe {
        write(STANDARD_ERROR, text.cast(), strlen(text));
        _exit(1)
    }
}

/// Has a file removed where the run is told to end, from before it is made. The name is kept for good, since a signal may come at any
/// time.
pub fn remove_at_end(path: &Path) {
    let Ok(name) = CString::new(path.as_os_str().as_bytes()) else {
        return;
    };
    TEMPORARY.store(name.into_raw(), Ordering::SeqCst);
    for number in [HANGUP, INTERRUPT, TERMINATE] {
        // SAFETY: the handler calls only what a handler may. A signal that was ignored, as under nohup, stays so.
        unsafe {
            if signal(number, end as *const () as usize) == IGNORE {
                signal(number, IGNORE);
            }
        }
    }
}

/// The file has its own name, or is gone.
pub fn removed() {
    TEMPORARY.store(ptr::null_mut(), Ordering::SeqCst);
}

extern "C" fn end(number: c_int) {
    let name = TEMPORARY.load(Ordering::SeqCst);
    // SAFETY: a name that is stored is never freed.
    unsafe {
        if !name.is_null() {
            unlink(name);
        }
        signal(number, DEFAULT);
        raise(number);
    }
}
