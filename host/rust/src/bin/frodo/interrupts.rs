//! Interrupts: a temporary file does not outlive a run that is interrupted, and an interrupt does not come between the names that several outputs are given.
use std::ffi::{c_char, CString};
use std::os::unix::ffi::OsStrExt;
use std::path::Path;
use std::process;
use std::ptr;
use std::sync::atomic::{AtomicBool, AtomicI32, AtomicPtr, Ordering::SeqCst};
use std::sync::Once;

extern "C" {
    fn signal(number: i32, handler: usize) -> usize;
    fn raise(number: i32) -> i32;
    fn unlink(path: *const c_char) -> i32;
}

/// SIGHUP, SIGINT and SIGTERM.
const WATCHED: [i32; 3] = [1, 2, 15];
const DEFAULT: usize = 0;
const IGNORED: usize = 1;

/// What an interrupt removes. More than any command has outputs, twice.
const SLOTS: usize = 32;
#[allow(clippy::declare_interior_mutable_const)]
const EMPTY: AtomicPtr<c_char> = AtomicPtr::new(ptr::null_mut());
static LISTED: [AtomicPtr<c_char>; SLOTS] = [EMPTY; SLOTS];
static WATCHING: Once = Once::new();
static HELD: AtomicBool = AtomicBool::new(false);
static WAITING: AtomicI32 = AtomicI32::new(0);

/// Runs in the signal handler: atomics, and three calls that are safe there.
extern "C" fn interrupted(number: i32) {
    if HELD.load(SeqCst) {
        WAITING.store(number, SeqCst);
        return;
    }
    for slot in &LISTED {
        let path = slot.load(SeqCst);
        if !path.is_null() {
            // SAFETY: a path in the list is never freed.
            unsafe { unlink(path) };
        }
    }
    die_of(number);
}

fn die_of(number: i32) {
    // SAFETY: both are called with a signal's number; the default action of the watched ones ends the process.
    unsafe {
        signal(number, DEFAULT);
        raise(number);
    }
}

fn watch() {
    for number in WATCHED {
        // SAFETY: the handler is a function of the type that signal(2) wants. What was ignored (nohup) stays ignored.
        unsafe {
            if signal(number, interrupted as extern "C" fn(i32) as usize) == IGNORED {
                signal(number, IGNORED);
            }
        }
    }
}

/// A file that an interrupt removes, as long as this value lives. It is made, and listed, while interrupts are held.
pub struct Listed(Option<usize>);

impl Listed {
    pub fn new(path: &Path) -> Self {
        let Ok(path) = CString::new(path.as_os_str().as_bytes()) else { return Self(None) };
        let path = path.into_raw();
        Self(LISTED.iter().position(|slot| slot.compare_exchange(ptr::null_mut(), path, SeqCst, SeqCst).is_ok()))
    }
}

impl Drop for Listed {
    fn drop(&mut self) {
        if let Some(at) = self.0 {
            LISTED[at].store(ptr::null_mut(), SeqCst);
        }
    }
}

/// Does its work while interrupts wait. Where one came meanwhile, the work is undone and the process ends. Inside such work, more of it is a part of the whole.
pub fn held<T>(work: impl FnOnce() -> T, undo: impl FnOnce(T)) -> T {
    WATCHING.call_once(watch);
    if HELD.swap(true, SeqCst) {
        return work();
    }
    let done = work();
    if WAITING.load(SeqCst) != 0 {
        undo(done);
        HELD.store(false, SeqCst);
        interrupted(WAITING.load(SeqCst));
        process::abort(); // not reached: an interrupt ends the process
    }
    HELD.store(false, SeqCst);
    // one that came between the question and the line above: all stands, and it ends the process as any later one would
    match WAITING.load(SeqCst) {
        0 => done,
        number => {
            interrupted(number);
            done
        }
    }
}
