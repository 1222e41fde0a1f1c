//! Damaged tables for the writer. Whether tables are sound is told by a file
//! rebuilt from them: they are if it is accepted and read back as the same
//! words.

mod common;

use common::*;
use reference::{judge, Mode, Written};
use scenes::damage::{file_of, node_of};
use scenes::rebuild::rebuild;
use scenes::rows::MOST_ROWS;
use scenes::sheet::ROW_WORDS;
use scenes::words::{each_cell, each_header_word, each_name_byte, reshaped};
use scenes::{scene, Profile, Rng, Sheet};

const UNSOUND: Written = Written {
    number: 12,
    place: 0,
    size: 0,
};

/// The file that the writer must make of these tables, if they are sound in a
/// mode.
fn expected(mode: Mode, sheet: &Sheet) -> Option<Vec<u8>> {
    let file = rebuild(sheet)?;
    if judge(mode, &file).number != 0 {
        return None;
    }
    match sheet_in(mode, &file).same_but_name_places(sheet) {
        true => Some(file),
        false => None,
    }
}

/// How many tables were found sound and unsound.
#[derive(Default)]
struct Found {
    sound: usize,
    unsound: usize,
}

impl Found {
    /// Checks the writer against the rebuilt file, in both modes.
    fn check(&mut self, sheet: &Sheet) {
        for mode in MODES {
            self.check_in(mode, sheet);
        }
    }

    fn check_in(&mut self, mode: Mode, sheet: &Sheet) {
        match expected(mode, sheet) {
            Some(file) => {
                let bytes = accepted_bytes(write_in(mode, sheet, file.len() + SPARE));
                assert_eq!(bytes, file);
                let (answer, out) = write_in(mode, sheet, file.len() - 1);
                assert_eq!((answer.number, answer.place), (11, file.len() as u32));
                assert!(untouched(&out));
                self.sound += 1;
            }
            None => {
                for size in [0, 4000] {
                    let (answer, out) = write_in(mode, sheet, size);
                    assert_eq!(answer, UNSOUND, "{sheet:?}");
                    assert!(untouched(&out));
                }
                self.unsound += 1;
            }
        }
    }

    fn assert_both(&self) {
        let (sound, unsound) = (self.sound, self.unsound);
        println!("{sound} tables sound, {unsound} not");
        assert!(sound > 500 && unsound > 500);
    }
}

/// Small sound tables, with the names in the file or in bytes of their own.
fn small(rng: &mut Rng) -> Sheet {
    let sheet = scene(rng, Profile::SMALL).sheet;
    match rng.percent(30) {
        true => sheet,
        false => sheet.with_own_names(),
    }
}

#[test]
fn each_word_changed() {
    let mut rng = Rng::new(21);
    let mut found = Found::default();
    for _ in 0..60 {
        let sheet = small(&mut rng);
        each_cell(&sheet, &mut rng, |changed| found.check(changed));
    }
    found.assert_both();
}

#[test]
fn each_count_version_and_n_texs_changed() {
    let mut rng = Rng::new(22);
    let mut found = Found::default();
    for _ in 0..100 {
        let sheet = small(&mut rng);
        each_header_word(&sheet, &mut rng, |changed| found.check(changed));
    }
    found.assert_both();
}

#[test]
fn each_name_byte_changed() {
    let mut rng = Rng::new(23);
    let mut found = Found::default();
    for _ in 0..100 {
        let sheet = small(&mut rng);
        each_name_byte(&sheet, |changed| found.check(changed));
    }
    found.assert_both();
}

#[test]
fn rows_moved() {
    let mut rng = Rng::new(24);
    let mut found = Found::default();
    for _ in 0..2000 {
        let profile = rng.pick(&[Profile::SMALL, Profile::WIDE, Profile::DEEP]);
        let sheet = scene(&mut rng, profile).sheet.with_own_names();
        for _ in 0..10 {
            if let Some(changed) = reshaped(&sheet, &mut rng) {
                found.check(&changed);
            }
        }
    }
    found.assert_both();
}

#[test]
fn nodes_below_at_all_depths() {
    let leaf = || node_of(Vec::new());
    let root = node_of(vec![node_of(vec![leaf()]), leaf()]);
    let file = file_of(vec![root]).bytes();
    let sheet = sheet_of(&file);
    let below: Vec<u32> = (0..4).map(|node| sheet.row(2, node)[20]).collect();
    assert_eq!(below, [3, 1, 0, 0]);
    assert_eq!(written(&sheet, file.len()), file);
    // The children alone, the node itself, and others.
    for wrong in [2, 4, 0, 0xFFFF_FFFF] {
        let mut sheet = sheet.clone();
        sheet.row_mut(2, 0)[20] = wrong;
        assert_eq!(write_to(&sheet, file.len()).0, UNSOUND);
    }
}

/// Tables of one node, whose name is of this length.
fn long_name(length: usize) -> Sheet {
    let mut sheet = Sheet::default();
    sheet.tables[2] = vec![0; ROW_WORDS[2]];
    sheet.tables[2][1] = length as u32;
    sheet.tables[2][2] = 0xFFFF_FFFF;
    sheet.count_rows();
    sheet.names = vec![b'n'; length];
    sheet
}

#[test]
fn size_limit_of_the_written_file() {
    let longest = 16_777_216 - (12 + 8 + 1 + 40);
    let sheet = long_name(longest);
    let file = written(&sheet, 16_777_216);
    assert_eq!(file.len(), 16_777_216);
    assert_eq!(judge(Mode::Strict, &file).number, 0);
    let (answer, _) = write_to(&long_name(longest + 1), 16_777_217);
    assert_eq!(answer, UNSOUND);
    let (answer, _) = write_to(&sheet, 16_777_215);
    assert_eq!((answer.number, answer.place), (11, 16_777_216));
}

#[test]
fn the_same_long_name_many_times() {
    let mut sheet = long_name(2000);
    sheet.names.resize(100_000, b'n');
    let mut child = sheet.row(2, 0).to_vec();
    child[2] = 0;
    for _ in 1..16_384 {
        sheet.tables[2].extend_from_slice(&child);
    }
    sheet.count_rows();
    sheet.count_branches();
    assert_eq!(write_to(&sheet, 0).0, UNSOUND);
    for row in sheet.tables[2].chunks_mut(ROW_WORDS[2]) {
        row[1] = 3;
    }
    let size = 12 + 16_384 * 52;
    assert_eq!(written(&sheet, size).len(), size);
}

#[test]
fn row_limit_of_the_writer() {
    let mut sheet = long_name(0);
    for (rows, answer) in [(MOST_ROWS, 0), (MOST_ROWS + 1, UNSOUND.number)] {
        sheet.tables[8] = vec![0, 0, 0, rows as u32];
        sheet.tables[9] = vec![0; 11 * rows];
        sheet.count_rows();
        assert_eq!(write_to(&sheet, 16_777_216).0.number, answer);
    }
}

#[test]
fn name_places() {
    let with_name = |place: u32, length: u32| {
        let mut sheet = long_name(4);
        sheet.tables[2][0] = place;
        sheet.tables[2][1] = length;
        write_to(&sheet, 200).0.number
    };
    assert_eq!(with_name(0, 4), 0);
    assert_eq!(with_name(4, 0), 0);
    assert_eq!(with_name(2, 2), 0);
    assert_eq!(with_name(5, 0), 12);
    assert_eq!(with_name(1, 4), 12);
    assert_eq!(with_name(0xFFFF_FFFF, 1), 12);
    assert_eq!(with_name(0xFFFF_FFFF, 3), 12);
}
