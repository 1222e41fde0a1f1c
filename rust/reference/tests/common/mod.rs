//! Helpers of the tests.
#![allow(dead_code)]

use reference::{clear, judge, read, write, Answer, Mode, Written};
use scenes::sheet::ROW_WORDS;
use scenes::Sheet;

/// Both modes. What helpers do without a mode, they do in the strict one.
pub const MODES: [Mode; 2] = [Mode::Strict, Mode::Lenient];

/// What lent words and bytes hold before a call.
pub const WORD: u32 = 0xA5C3_0F1E;
pub const BYTE: u8 = 0xB7;

/// Words lent past the last row.
pub const SPARE: usize = 5;

/// A refusal of the reader.
pub fn refusal(number: u32, place: u32) -> Answer {
    Answer {
        number,
        place,
        ..Answer::default()
    }
}

/// Ten tables of these sizes in words.
pub fn lend(sizes: [usize; 10]) -> [Vec<u32>; 10] {
    sizes.map(|size| vec![WORD; size])
}

/// Reads with lent tables.
pub fn read_into(file: &[u8], tables: &mut [Vec<u32>; 10]) -> Answer {
    read_in(Mode::Strict, file, tables)
}

/// The same in a mode.
pub fn read_in(mode: Mode, file: &[u8], tables: &mut [Vec<u32>; 10]) -> Answer {
    let mut slices = tables.each_mut().map(|table| table.as_mut_slice());
    read(mode, file, &mut slices)
}

/// Words that a file with these counts fills.
pub fn sizes(counts: &[u32; 10]) -> [usize; 10] {
    std::array::from_fn(|table| counts[table] as usize * ROW_WORDS[table])
}

/// Reads an accepted file; checks that words past the last row stay.
pub fn sheet_of(file: &[u8]) -> Sheet {
    sheet_in(Mode::Strict, file)
}

/// The same in a mode.
pub fn sheet_in(mode: Mode, file: &[u8]) -> Sheet {
    let counts = judge(mode, file).counts;
    let mut tables = lend(sizes(&counts).map(|size| size + SPARE));
    let answer = read_in(mode, file, &mut tables);
    assert_eq!(answer.number, 0, "refused at {}", answer.place);
    assert_eq!(answer, judge(mode, file));
    for (table, size) in sizes(&counts).into_iter().enumerate() {
        assert!(tables[table][size..].iter().all(|&word| word == WORD));
        tables[table].truncate(size);
    }
    Sheet {
        tables,
        counts: answer.counts,
        version: answer.version,
        n_texs: answer.n_texs,
        names: file.to_vec(),
    }
}

/// Writes to an output of this size; gives the answer and the output.
pub fn write_to(sheet: &Sheet, size: usize) -> (Written, Vec<u8>) {
    write_in(Mode::Strict, sheet, size)
}

/// The same in a mode.
pub fn write_in(mode: Mode, sheet: &Sheet, size: usize) -> (Written, Vec<u8>) {
    let mut out = vec![BYTE; size];
    let written = write(
        mode,
        &sheet.slices(),
        &sheet.counts,
        sheet.version,
        sheet.n_texs,
        &sheet.names,
        &mut out,
    );
    (written, out)
}

/// Clears to an output of this size; gives the answer and the output.
pub fn clear_to(file: &[u8], size: usize) -> (Written, Vec<u8>) {
    let mut out = vec![BYTE; size];
    let written = clear(file, &mut out);
    (written, out)
}

/// The bytes written on acceptance; checks that bytes past them stay.
pub fn accepted_bytes((written, mut out): (Written, Vec<u8>)) -> Vec<u8> {
    assert_eq!((written.number, written.place), (0, 0));
    let size = written.size as usize;
    assert!(out[size..].iter().all(|&byte| byte == BYTE));
    out.truncate(size);
    out
}

/// The written file of sound tables.
pub fn written(sheet: &Sheet, size: usize) -> Vec<u8> {
    accepted_bytes(write_to(sheet, size))
}

/// The cleared copy of an accepted file.
pub fn cleared(file: &[u8]) -> Vec<u8> {
    accepted_bytes(clear_to(file, file.len() + SPARE))
}

/// Whether an output still is as lent.
pub fn untouched(out: &[u8]) -> bool {
    out.iter().all(|&byte| byte == BYTE)
}

/// Checks that judge and reader give this refusal in a mode, with lent words
/// unchanged.
pub fn assert_refused_in(mode: Mode, file: &[u8], number: u32, place: u32, about: &str) {
    let expected = refusal(number, place);
    assert_eq!(judge(mode, file), expected, "judge: {about}");
    let mut tables = lend([64; 10]);
    assert_eq!(read_in(mode, file, &mut tables), expected, "read: {about}");
    assert_eq!(tables, lend([64; 10]), "words: {about}");
}

/// Checks that judge and reader in both modes, and the clearer, give this
/// refusal, with lent words and bytes unchanged.
pub fn assert_refused(file: &[u8], number: u32, place: u32, about: &str) {
    for mode in MODES {
        assert_refused_in(mode, file, number, place, about);
    }
    let (answer, out) = clear_to(file, 64);
    let refused = Written {
        number,
        place,
        size: 0,
    };
    assert_eq!(answer, refused, "clear: {about}");
    assert!(untouched(&out), "bytes: {about}");
}
