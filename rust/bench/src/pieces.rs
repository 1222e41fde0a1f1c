//! A file in pieces beside the judge.

use crate::median;
use kelompuris::pieces::Pieces;
use kelompuris::Mode;
use scenes::damage::{file_of, node_of};
use scenes::rows::{file_with_colours, file_with_rows};
use scenes::Chunk;
use std::hint::black_box;

/// The bytes of a piece.
const PIECES: [usize; 3] = [1, 200, 65_536];

/// A line for each kind of file: nanoseconds a byte of the judge and of pieces
/// of these sizes, then their ratios.
pub fn lines() {
    println!("\na file in pieces of 1, 200 and 65,536 bytes");
    println!(
        "{:<12} {:>9} | {:>7} {:>7} {:>7} {:>7} | {:>7} {:>7} {:>7}",
        "file", "bytes", "judge", "1", "200", "65536", "1/judge", "200/j.", "65536/j."
    );
    let files = [
        ("vertices", file_with_rows(5, 16_384)),
        ("colours", file_with_colours(16_384)),
        ("keys", keys(16_384)),
        ("triangles", file_with_rows(7, 16_384)),
        ("weights", file_with_rows(8, 16_384)),
        ("nodes", file_with_rows(3, 16_384)),
        ("passed over", file_of(vec![other(262_144)]).bytes()),
        ("texts", textures(4_096)),
    ];
    for (name, file) in files {
        let judge = median(|| kelompuris::judge(Mode::Strict, black_box(&file)).number);
        let times = PIECES.map(|most| {
            median(|| {
                let mut pieces = Pieces::default();
                black_box(&file)
                    .chunks(most)
                    .for_each(|bytes| pieces.piece(bytes));
                pieces.close().number
            })
        });
        let a_byte = |time: std::time::Duration| time.as_nanos() as f64 / file.len() as f64;
        print!("{name:<12} {:>9} | {:>7.3}", file.len(), a_byte(judge));
        times
            .iter()
            .for_each(|&time| print!(" {:>7.2}", a_byte(time)));
        print!(" |");
        for time in times {
            print!(" {:>7.1}", time.as_secs_f64() / judge.as_secs_f64());
        }
        println!();
    }
}

/// A file with this many keys of position, scale and rotation.
fn keys(count: u32) -> Vec<u8> {
    let mut keys = Chunk::new(b"KEYS");
    keys.word(7);
    for frame in 0..count {
        keys.word(frame);
        keys.words(&[0x3F00_0000; 10]);
    }
    file_of(vec![node_of(vec![keys])]).bytes()
}

/// A chunk of another tag.
fn other(bytes: usize) -> Chunk {
    Chunk::of_bytes(*b"NOTE", vec![0; bytes])
}

/// A file with this many textures, with names of 64 letters.
fn textures(count: usize) -> Vec<u8> {
    let mut chunk = Chunk::new(b"TEXS");
    for _ in 0..count {
        chunk.name(&[b'a'; 64]);
        chunk.words(&[0; 7]);
    }
    file_of(vec![chunk]).bytes()
}
