// SPDX-License-Identifier: Apache-2.0
//! Files that are to go when the command is interrupted: Control-C, or whoever ends it kindly.
//!
//! The standard library knows no signals, so this is the one module of the command with code that the compiler does
//! not check. A handler may do little: it calls `unlink` on names that were made ready before, and lets the signal
//! do what it does by itself.

use std::ffi::{c_char, c_int, CString};
use std::os::unix::ffi::OsStrExt;
use std::path::{Path, PathBuf};
use std::ptr::null_mut;
use std::sync::atomic::{AtomicPtr, Ordering};
use std::sync::Once;

/// The most files under way at a time; a command writes at most seven.
const MOST_FILES: usize = 16;

/// SIGHUP, SIGINT and SIGTERM, and what a signal does by itself.
const SIGNALS: [c_int; 3] = [1, INTERRUPT, 15];
const INTERRUPT: c_int = 2;
const BY_ITSELF: usize = 0;
/// SIG_IGN: whoever started the command wants it to go on, as `nohup` does.
const IGNORED: usize = 1;

extern "C" {
    fn signal(number: c_int, handler: usize) -> usize;
    fn raise(number: c_int) -> c_int;
    fn unlink(path: *const c_char) -> c_int;
}

/// The names, which are never freed: a handler may look at them at any time.
static NAMES: [AtomicPtr<c_char>; MOST_FILES] = [const { AtomicPtr::new(null_mut()) }; MOST_FILES];

static IS_READY: Once = Once::new();

/// A file that goes when the command is interrupted, for as long as this lives.
pub struct Passing {
    path: PathBuf,
    place: Option<usize>,
}

impl Passing {
    /// A file that may not be there yet.
    pub fn new(path: PathBuf) -> Passing {
        IS_READY.call_once(listen);
        // A path with a zero byte names no file, and where there is no place left the file stays.
        let place = CString::new(path.as_os_str().as_bytes())
            .ok()
            .and_then(|name| keep(name.into_raw()));
        Passing { path, place }
    }

    /// Its name.
    pub fn path(&self) -> &Path {
        &self.path
    }
}

impl Drop for Passing {
    fn drop(&mut self) {
        if let Some(place) = self.place {
            NAMES[place].store(null_mut(), Ordering::SeqCst);
        }
    }
}

/// Leaves Control-C to a program that runs below this one, from now on.
pub fn ignore() {
    // SAFETY: `signal` is the C library's.
    unsafe { signal(INTERRUPT, IGNORED) };
}

/// Puts a name into a free place.
fn keep(name: *mut c_char) -> Option<usize> {
    let order = Ordering::SeqCst;
    NAMES.iter().position(|place| {
        let kept = place.compare_exchange(null_mut(), name, order, order);
        kept.is_ok()
    })
}

/// Has the handler called, but for a signal that is ignored.
fn listen() {
    for number in SIGNALS {
        // SAFETY: `signal` is the C library's, `remove_all` has the form of a handler and does only what a handler
        // may.
        unsafe {
            if signal(number, remove_all as *const () as usize) == IGNORED {
                signal(number, IGNORED);
            }
        }
    }
}

/// The handler: removes the files, and lets the signal do what it does by itself.
extern "C" fn remove_all(number: c_int) {
    for place in &NAMES {
        let name = place.load(Ordering::SeqCst);
        if !name.is_null() {
            // SAFETY: a name in a place is a C string that is never freed; `unlink` may be called in a handler.
            unsafe { unlink(name) };
        }
    }
    // SAFETY: both may be called in a handler.
    unsafe {
        signal(number, BY_ITSELF);
        raise(number);
    }
}
