//! Temporary names: what has one is removed when it is done with, on an error, and when a signal stops the program.

use std::ffi::{c_char, c_int, CString};
use std::fs;
use std::os::unix::ffi::OsStrExt;
use std::path::{Path, PathBuf};
use std::process;
use std::ptr::null_mut;
use std::sync::atomic::{AtomicPtr, AtomicUsize, Ordering};
use std::sync::Once;

extern "C" {
    fn signal(number: c_int, handler: usize) -> usize;
    fn raise(number: c_int) -> c_int;
    fn unlink(path: *const c_char) -> c_int;
    fn rmdir(path: *const c_char) -> c_int;
}

// Numbers of Linux.
const SIGHUP: c_int = 1;
const SIGINT: c_int = 2;
const SIGTERM: c_int = 15;
const SIG_DFL: usize = 0;
const SIG_IGN: usize = 1;

/// The names that are in use, as the signal handler needs them: a folder of eleven texts, and some more.
static IN_USE: [AtomicPtr<c_char>; 32] = [const { AtomicPtr::new(null_mut()) }; 32];

/// A temporary name. Dropped, it takes what has it with it, a file or an empty folder; after a renaming nothing has it.
pub struct Temporary {
    path: PathBuf,
    slot: Option<&'static AtomicPtr<c_char>>,
}

impl Temporary {
    /// A name in `folder` that no other run of the program takes.
    pub fn in_folder(folder: &Path) -> Temporary {
        static MADE: AtomicUsize = AtomicUsize::new(0);
        let (own, number) = (process::id(), MADE.fetch_add(1, Ordering::Relaxed));
        Temporary::named(folder.join(format!(".kelompuris.{own}.{number}.part")))
    }

    /// The name `path`, which nothing has.
    pub fn named(path: PathBuf) -> Temporary {
        static HANDLED: Once = Once::new();
        HANDLED.call_once(handle_signals);
        // A path with a zero in it is none that a file can have.
        let slot = CString::new(path.as_os_str().as_bytes())
            .ok()
            .and_then(|name| {
                let name = name.into_raw();
                let free = |slot: &&AtomicPtr<c_char>| {
                    let order = Ordering::SeqCst;
                    slot.compare_exchange(null_mut(), name, order, order)
                        .is_ok()
                };
                IN_USE.iter().find(free)
            });
        Temporary { path, slot }
    }

    pub fn path(&self) -> &Path {
        &self.path
    }
}

impl Drop for Temporary {
    /// Removes first, and only then lets go of the name: a signal in between finds nothing to remove.
    fn drop(&mut self) {
        if fs::remove_file(&self.path).is_err() {
            drop(fs::remove_dir(&self.path));
        }
        if let Some(slot) = self.slot {
            let name = slot.swap(null_mut(), Ordering::SeqCst);
            if !name.is_null() {
                // SAFETY: the name is from `into_raw`, and nothing else has it any more.
                drop(unsafe { CString::from_raw(name) });
            }
        }
    }
}

/// Has the signals that stop a program remove what has a temporary name. One that is ignored stays so.
fn handle_signals() {
    for number in [SIGHUP, SIGINT, SIGTERM] {
        let handler: extern "C" fn(c_int) = remove_and_stop;
        // SAFETY: the handler calls only functions that a handler may call, and takes no lock.
        unsafe {
            if signal(number, handler as usize) == SIG_IGN {
                signal(number, SIG_IGN);
            }
        }
    }
}

/// Removes files, then folders, and ends the program by the signal that came.
extern "C" fn remove_and_stop(number: c_int) {
    type Remove = unsafe extern "C" fn(*const c_char) -> c_int;
    for remove in [unlink as Remove, rmdir] {
        for slot in &IN_USE {
            let name = slot.load(Ordering::SeqCst);
            if !name.is_null() {
                // SAFETY: a name that stands here is a text with a zero behind it. It is let go of by the one thread of the program, which does not
                // go on while this runs.
                unsafe { remove(name) };
            }
        }
    }
    // SAFETY: both may be called here. The signal comes again as soon as this returns.
    unsafe {
        signal(number, SIG_DFL);
        raise(number);
    }
}
