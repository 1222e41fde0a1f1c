//! Whether standard output was closed when the program began. Rust opens a closed one anew before `main`, so that what is written there would be lost
//! without a word.

use std::ffi::c_int;
use std::sync::atomic::{AtomicBool, Ordering};

extern "C" {
    fn fcntl(file: c_int, command: c_int, ...) -> c_int;
}

const F_GETFD: c_int = 1;
const STANDARD_OUTPUT: c_int = 1;

static CLOSED: AtomicBool = AtomicBool::new(false);

/// Called by the loader, before Rust's own start.
#[used]
#[link_section = ".init_array"]
static BEFORE_MAIN: extern "C" fn() = look;

extern "C" fn look() {
    // SAFETY: the call looks at a number, of a file that may be closed, and changes nothing.
    let closed = unsafe { fcntl(STANDARD_OUTPUT, F_GETFD) } < 0;
    CLOSED.store(closed, Ordering::Relaxed);
}

pub fn output_was_closed() -> bool {
    CLOSED.load(Ordering::Relaxed)
}
