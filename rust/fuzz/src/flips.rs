//! Whether inputs tell the proved code from code with one jump turned around: each in a
//! child of this process, so that nothing else changes.

use crate::blocks::{places, writable};
use std::ffi::c_void;
use std::fs::File;
use std::io;
use std::os::fd::AsRawFd;

/// Most seconds of processor time of a child, and the signal that then ends it.
const SECONDS: i64 = 3;
const PROCESSOR_TIME: i32 = 2;
const TIME_IS_OVER: i32 = 27;

extern "C" {
    fn fork() -> i32;
    fn waitpid(child: i32, status: *mut i32, options: i32) -> i32;
    fn setitimer(which: i32, time: *const Timer, old: *mut Timer) -> i32;
    fn dup2(from: i32, to: i32) -> i32;
    fn signal(number: i32, call: usize) -> usize;
    fn mmap(
        at: *mut c_void,
        size: usize,
        access: i32,
        kind: i32,
        file: i32,
        from: i64,
    ) -> *mut c_void;
    fn _exit(status: i32) -> !;
}

/// A time that ends once: seconds and microseconds to begin again with, and those until then.
#[repr(C)]
struct Timer {
    again: [i64; 2],
    first: [i64; 2],
}

/// How inputs tell: the two differ, memory was touched that must not be, the call did not
/// end, or in another way.
#[derive(Default)]
pub struct Told {
    pub differ: usize,
    pub touched: usize,
    pub endless: usize,
    pub other: usize,
    /// The jumps that no input tells, by their distance from the program's start.
    pub untold: Vec<usize>,
    /// For each other jump the number of the first input that tells it.
    pub by: Vec<usize>,
}

/// A number that a child sets and this process reads. It is never given back.
fn shared_number() -> io::Result<*mut usize> {
    const ANY: i32 = 3;
    const SHARED_ANONYMOUS: i32 = 0x21;
    // SAFETY: the page is new and nothing else has it.
    let page = unsafe { mmap(std::ptr::null_mut(), 4096, ANY, SHARED_ANONYMOUS, -1, 0) };
    match page as isize {
        -1 => Err(io::Error::last_os_error()),
        _ => Ok(page.cast()),
    }
}

/// Turns each conditional jump around that a file lists, as `blocks::places` reads it.
pub fn flips(list: &str, inputs: &[Vec<u8>], run: fn(&[u8])) -> io::Result<Told> {
    let (start, places) = places(list)?;
    writable(&places)?;
    let nowhere = File::options().write(true).open("/dev/null")?;
    let mut told = Told::default();
    let present = shared_number()?;
    for at in places {
        let mut status = 0;
        // SAFETY: there is one thread; the child writes one byte of the proved code, of
        // which nothing runs then, and goes no further than this.
        unsafe {
            let child = fork();
            if child < 0 {
                return Err(io::Error::last_os_error());
            }
            if child == 0 {
                let code = at as *mut u8;
                // The condition is the lowest bit of the byte, or of the second of two.
                let condition = if *code == 0x0F { code.add(1) } else { code };
                condition.write_volatile(*condition ^ 1);
                dup2(nowhere.as_raw_fd(), 2);
                // A signal ends the child, with no report of clang's.
                for number in 1..16 {
                    signal(number, 0);
                }
                let timer = Timer {
                    again: [0, 0],
                    first: [SECONDS, 0],
                };
                setitimer(PROCESSOR_TIME, &timer, std::ptr::null_mut());
                for (number, input) in inputs.iter().enumerate() {
                    present.write_volatile(number);
                    run(input);
                }
                _exit(0);
            }
            waitpid(child, &mut status, 0);
        }
        if status == 0 {
            told.untold.push(at - start);
            continue;
        }
        // SAFETY: the child is over.
        told.by.push(unsafe { present.read_volatile() });
        match status & 0x7F {
            6 => told.differ += 1,
            7 | 11 => told.touched += 1,
            TIME_IS_OVER => told.endless += 1,
            _ => told.other += 1,
        }
    }
    Ok(told)
}
