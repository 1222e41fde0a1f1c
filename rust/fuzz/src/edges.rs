//! Which blocks of the reference inputs reach, by the counters that its compiler put
//! there.

use std::ptr::{addr_of, addr_of_mut};
use std::slice::{from_raw_parts, from_raw_parts_mut};

/// Where a counted block stands; the second number is 1 at a function's first.
#[repr(C)]
struct Block {
    place: usize,
    first: usize,
}

extern "C" {
    #[link_name = "__start___sancov_cntrs"]
    static mut COUNTERS: u8;
    #[link_name = "__stop___sancov_cntrs"]
    static mut COUNTERS_END: u8;
    #[link_name = "__start___sancov_pcs"]
    static BLOCKS: Block;
    #[link_name = "__executable_start"]
    static PROGRAM: u8;
}

/// How often each block was reached, up to 255 and then from 0 again.
fn counters() -> &'static mut [u8] {
    let (start, end) = (addr_of_mut!(COUNTERS), addr_of!(COUNTERS_END));
    // SAFETY: the linker puts one behind the other, and calls of the reference are over.
    unsafe { from_raw_parts_mut(start, end as usize - start as usize) }
}

/// Runs inputs and gives a line for each block: its place in the program, whether it is a
/// function's first, and whether an input reached it.
pub fn lines(inputs: &[Vec<u8>], run: fn(&[u8])) -> Vec<String> {
    let mut reached = vec![false; counters().len()];
    for input in inputs {
        counters().fill(0);
        run(input);
        for (reached, counter) in reached.iter_mut().zip(counters()) {
            *reached |= *counter > 0;
        }
    }
    // SAFETY: there is a block for each counter.
    let blocks = unsafe { from_raw_parts(addr_of!(BLOCKS), reached.len()) };
    let start = addr_of!(PROGRAM) as usize;
    let line = |(block, reached): (&Block, &bool)| {
        let place = block.place.wrapping_sub(start);
        let kind = if block.first & 1 != 0 {
            "function"
        } else {
            "block"
        };
        let met = if *reached { "reached" } else { "missed" };
        format!("{place:#x} {kind} {met}")
    };
    blocks.iter().zip(&reached).map(line).collect()
}
