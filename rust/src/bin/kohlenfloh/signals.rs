//! Signals that end the program remove its temporary files first.
//!
//! Nothing is caught before there is a temporary file, and a signal that was ignored from the start stays ignored. The
//! numbers and the size of a signal set are those of Linux on x86-64 and aarch64.
// A handler may come at any time, so it calls only what may be called then (signal-safety(7)), and shares with the rest
// of the program only a table of atomic pointers. The program has one thread, whose signals are the program's.
#![allow(unsafe_code)]
use std::ffi::{c_char, c_int, c_ulong, CString};
use std::fs::File;
use std::io;
use std::os::unix::ffi::OsStrExt;
use std::path::Path;
use std::ptr;
use std::sync::atomic::{AtomicPtr, Ordering};

use crate::outputs::Output;

/// The signals: SIGHUP, SIGINT and SIGTERM.
const SIGNALS: [c_int; 3] = [1, 2, 15];

/// SIG_DFL, by which a signal does what it does by default.
const DEFAULT: usize = 0;
/// SIG_IGN, by which a signal is ignored.
const IGNORED: usize = 1;
/// SIG_BLOCK, by which signals are added to those that are held back.
const ADD: c_int = 0;
/// SIG_SETMASK, by which signals become those that are held back.
const SET: c_int = 2;

/// A set of signals, 128 bytes.
#[repr(C)]
struct SignalSet([c_ulong; 16]);

extern "C" {
    /// Says what a signal does, and answers what it did: DEFAULT, IGNORED, or the address of a function.
    fn signal(number: c_int, action: usize) -> usize;
    /// Sends a signal to the program itself.
    fn raise(number: c_int) -> c_int;
    /// Removes a file.
    fn unlink(path: *const c_char) -> c_int;
    /// Makes a set empty.
    fn sigemptyset(set: *mut SignalSet) -> c_int;
    /// Adds a signal to a set.
    fn sigaddset(set: *mut SignalSet, number: c_int) -> c_int;
    /// Changes which signals are held back, and leaves those that were in the last set where there is one.
    fn sigprocmask(how: c_int, set: *const SignalSet, former: *mut SignalSet) -> c_int;
}

/// The path of each temporary file that was made. A path stays when its file is gone: there is nothing to remove then,
/// as no name is used twice.
static FILES: [AtomicPtr<c_char>; Output::OPTIONS.len()] =
    [const { AtomicPtr::new(ptr::null_mut()) }; Output::OPTIONS.len()];

/// While this lives, the signals are held back.
pub struct Held {
    former: SignalSet,
}

/// Holds the signals back.
pub fn hold() -> Held {
    let (mut set, mut former) = (SignalSet([0; 16]), SignalSet([0; 16]));
    // SAFETY: Both sets are as large as the system's, and live as long as the calls.
    unsafe {
        sigemptyset(&mut set);
        for number in SIGNALS {
            sigaddset(&mut set, number);
        }
        sigprocmask(ADD, &set, &mut former);
    }
    Held { former }
}

/// A signal that came while it was held back does its work here.
impl Drop for Held {
    fn drop(&mut self) {
        // SAFETY: The set was filled by the system, and no set is asked for.
        unsafe { sigprocmask(SET, &self.former, ptr::null_mut()) };
    }
}

/// Creates a file that the signals remove. None comes between its creation and its entry in the table.
pub fn create(path: &Path) -> io::Result<File> {
    let name = CString::new(path.as_os_str().as_bytes())?;
    let _held = hold();
    let file = File::create_new(path)?;
    // There is an entry for each output that an option can ask for. A handler may read the name, so it is never freed.
    if let Some(entry) = FILES.iter().find(|entry| entry.load(Ordering::Acquire).is_null()) {
        entry.store(name.into_raw(), Ordering::Release);
    }
    catch();
    Ok(file)
}

/// Has the signals caught that are not ignored. Done twice, it changes nothing.
fn catch() {
    let handler: extern "C" fn(c_int) = remove_and_end;
    for number in SIGNALS {
        // SAFETY: The action is a handler of the form that the system calls, or one of the two that are named. The
        // signals are held back, so that none meets the handler where it is to be ignored.
        unsafe {
            if signal(number, handler as usize) == IGNORED {
                signal(number, IGNORED);
            }
        }
    }
}

/// Removes the temporary files, and has the signal do what it does by default: the program ends by it.
extern "C" fn remove_and_end(number: c_int) {
    for entry in &FILES {
        let path = entry.load(Ordering::Acquire);
        if !path.is_null() {
            // SAFETY: The path ends with a zero byte and is never freed.
            unsafe { unlink(path) };
        }
    }
    // SAFETY: Both may be called in a handler. The signal is held back while its handler runs, and comes at its end.
    unsafe {
        signal(number, DEFAULT);
        raise(number);
    }
}
