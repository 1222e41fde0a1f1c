//! Which blocks of the proved code are reached. Its compiler puts no counters there, so a
//! trap stands at the start of each block; it is taken away when it is met, and the fuzzer
//! is told. So a block counts for the first input that reaches it.

use std::ffi::c_void;
use std::ptr::{addr_of, addr_of_mut};
use std::sync::OnceLock;
use std::{fs, io};

/// Most blocks; more are not watched.
const MOST: usize = 16_384;

/// What the fuzzer looks at behind each input, beside the counters of the reference.
#[repr(align(64))]
struct Counters([u8; MOST]);

#[used]
#[link_section = "__libfuzzer_extra_counters"]
static mut COUNTERS: Counters = Counters([0; MOST]);

/// The blocks in order, each with the byte that stands at its start.
static BLOCKS: OnceLock<Vec<(usize, u8)>> = OnceLock::new();

/// The instruction that the processor ends at, with the signal that follows.
const TRAP: u8 = 0xCC;
const TRAPPED: i32 = 5;

/// Where a signal's context has the place of the next instruction.
const NEXT_INSTRUCTION: usize = 168;

#[repr(C)]
struct Action {
    call: extern "C" fn(i32, *mut c_void, *mut c_void),
    mask: [u64; 16],
    flags: i32,
    restorer: usize,
}

extern "C" {
    fn sigaction(signal: i32, new: *const Action, old: *mut Action) -> i32;
    fn mprotect(at: *mut c_void, size: usize, access: i32) -> i32;
    #[link_name = "__executable_start"]
    static PROGRAM: u8;
}

/// The program's start, and the places that a file lists, in order: distances from there,
/// in hexadecimal, one in a line.
pub fn places(list: &str) -> io::Result<(usize, Vec<usize>)> {
    let start = addr_of!(PROGRAM) as usize;
    let mut places = Vec::new();
    for line in fs::read_to_string(list)?.lines() {
        let distance = usize::from_str_radix(line, 16).map_err(io::Error::other)?;
        places.push(start + distance);
    }
    places.sort_unstable();
    Ok((start, places))
}

/// Makes the code at these places, and between them, such that it can be written.
pub fn writable(places: &[usize]) -> io::Result<()> {
    let (Some(first), Some(last)) = (places.first(), places.last()) else {
        return Ok(());
    };
    let page = first & !4095;
    // An instruction has at most 15 bytes.
    let size = last + 15 - page;
    // SAFETY: the pages are those of the program's code, which can be run as before.
    match unsafe { mprotect(page as *mut c_void, size, 7) } {
        0 => Ok(()),
        _ => Err(io::Error::last_os_error()),
    }
}

/// Sets a trap at each place that a file lists.
pub fn trap(list: &str) -> io::Result<()> {
    let (_, mut places) = places(list)?;
    places.truncate(MOST);
    writable(&places)?;
    let action = Action {
        call: met,
        mask: [0; 16],
        // With the context.
        flags: 4,
        restorer: 0,
    };
    // SAFETY: each place is the start of an instruction of the proved code, none of which
    // runs now. Each is known to `met` before it is written.
    unsafe {
        BLOCKS.get_or_init(|| places.iter().map(|&at| (at, *(at as *const u8))).collect());
        if sigaction(TRAPPED, &action, std::ptr::null_mut()) != 0 {
            return Err(io::Error::last_os_error());
        }
        for &at in &places {
            *(at as *mut u8) = TRAP;
        }
    }
    Ok(())
}

/// A trap was met: takes it away, counts the block, and goes on at its start.
extern "C" fn met(_signal: i32, _about: *mut c_void, context: *mut c_void) {
    let blocks = BLOCKS.get().map_or(&[][..], Vec::as_slice);
    // SAFETY: the context is that of a trap, one byte behind its place; the bytes of a
    // block are written only here and before all calls.
    unsafe {
        let next = context.byte_add(NEXT_INSTRUCTION).cast::<usize>();
        let at = *next - 1;
        match blocks.binary_search_by_key(&at, |block| block.0) {
            Ok(number) => {
                *(at as *mut u8) = blocks[number].1;
                *next = at;
                // Only the fuzzer reads it.
                addr_of_mut!(COUNTERS.0[number]).write_volatile(1);
            }
            Err(_) => std::process::abort(),
        }
    }
}

/// How many blocks there are, and the distances of those that no input reached.
pub fn missed() -> (usize, Vec<usize>) {
    let blocks = BLOCKS.get().map_or(&[][..], Vec::as_slice);
    let start = addr_of!(PROGRAM) as usize;
    // SAFETY: each place can be read.
    let trapped = |block: &&(usize, u8)| unsafe { *(block.0 as *const u8) == TRAP };
    let missed = blocks.iter().filter(trapped).map(|block| block.0 - start);
    (blocks.len(), missed.collect())
}
