//! The worked files P, H and T and all their cases, starred or not.

mod common;

use common::*;
use reference::{clear, judge, list, Mode, Written};
use scenes::chunk::Chunk;
use scenes::damage::file_of;
use scenes::rows::{file_with_rows, MOST_ROWS};
use scenes::worked::*;

const NONE: u32 = 0xFFFF_FFFF;

#[test]
fn cases_of_paper_01() {
    for case in cases() {
        match case.number {
            0 => assert_eq!(judge(Mode::Strict, &case.file).number, 0, "{}", case.about),
            number => assert_refused(&case.file, number, case.place, &case.about),
        }
    }
}

#[test]
fn counts_of_many_rows() {
    for (table, rows) in (1..=9)
        .map(|table| (table, 16_384))
        .chain([(10, MOST_ROWS)])
    {
        let answer = judge(Mode::Strict, &file_with_rows(table, rows));
        assert_eq!(answer.counts[table - 1] as usize, rows, "table {table}");
    }
}

#[test]
fn counts_and_copies_by_hand() {
    for case in counted() {
        assert_eq!(
            judge(Mode::Strict, &case.file).counts,
            case.counts,
            "{}",
            case.about
        );
        assert_eq!(cleared(&case.file).len(), case.copy, "{}", case.about);
    }
}

#[test]
fn sizes_of_the_files() {
    assert_eq!((p().len(), h().len(), t().len()), (12, 65, 153));
}

#[test]
fn p_has_no_rows() {
    let answer = judge(Mode::Strict, &p());
    assert_eq!((answer.number, answer.place), (0, 0));
    assert_eq!((answer.version, answer.n_texs), (1, 0));
    assert_eq!(answer.counts, [0; 10]);
    assert_eq!(cleared(&p()), p());
}

#[test]
fn h_has_its_name_at_20() {
    let sheet = sheet_of(&h());
    assert_eq!(sheet.counts, [0, 0, 1, 0, 0, 0, 0, 0, 0, 0]);
    let row = [
        20, 4, NONE, 1, 2, 3, 4, 5, 6, 7, 8, 9, 10, 0, 0, 0, 0, 0, 0, 0, 0,
    ];
    assert_eq!(sheet.tables[2], row);
    assert_eq!(written(&sheet, 100), h());
}

#[test]
fn h_cleared() {
    assert_eq!(cleared(&h()), cleared_h());
    assert_eq!(cleared_h().len(), 61);
    let (answer, out) = clear_to(&h(), 60);
    let refused = Written {
        number: 11,
        place: 61,
        size: 0,
    };
    assert_eq!(answer, refused);
    assert!(untouched(&out));
    let mut exact = vec![BYTE; 61];
    assert_eq!(clear(&h(), &mut exact).size, 61);
    assert_eq!(exact, cleared_h());
}

#[test]
fn h_with_an_unknown_chunk() {
    let file = h_and_unknown();
    let (with, without) = (sheet_of(&file), sheet_of(&h()));
    assert_eq!(with.tables, without.tables);
    assert_eq!(with.counts, without.counts);
    assert_eq!(cleared(&file), cleared_h());
}

#[test]
fn t_and_its_tables() {
    let sheet = sheet_of(&t());
    assert_eq!(sheet.counts, [0, 0, 1, 1, 3, 1, 1, 0, 0, 0]);
    let kind = [1, 0, 1, 0, 0, 0, 0, 0];
    assert_eq!(sheet.tables[2][..3], [20, 0, NONE]);
    assert_eq!(sheet.tables[2][13..], kind);
    assert_eq!(sheet.tables[3], [0, NONE, 0, 0, 0, 0, 3, 0, 1]);
    assert_eq!(sheet.row(4, 1)[..3], [21, 22, 23]);
    assert_eq!(sheet.row(4, 1)[3..], [0; 39]);
    assert_eq!(sheet.tables[5], [0, NONE, 0, 1]);
    assert_eq!(sheet.tables[6], [0, 1, 2]);
    assert_eq!(written(&sheet, 200), t());
    assert_eq!(cleared(&t()), t());
}

#[test]
fn depth() {
    assert_eq!(judge(Mode::Strict, &chain(16)).counts[2], 16);
}

#[test]
fn n_texs() {
    let sheet = sheet_of(&brush(8));
    assert_eq!(sheet.n_texs, 8);
    assert_eq!(sheet.tables[1][9..], [0; 8]);
    let sheet = sheet_of(&brush(7));
    assert_eq!(sheet.tables[1][9..], [0, 0, 0, 0, 0, 0, 0, NONE]);
}

#[test]
fn listings() {
    let expected = b"0 0\n1 0\n0 0 1 0 0 0 0 0 0 0\nHall\n";
    assert_eq!(list(&h()), expected);
    let expected = b"0 0\n1 0\n0 0 1 1 3 1 1 0 0 0\nunnamed\n";
    assert_eq!(list(&t()), expected);
    assert_eq!(list(&p()), b"0 0\n1 0\n0 0 0 0 0 0 0 0 0 0\n");
    assert_eq!(list(&[]), b"1 0\n");
    let mut file = h();
    file[20..24].copy_from_slice(&[31, 32, 126, 127]);
    assert!(list(&file).ends_with(b"0\n? ~?\n"));
    file[4] += 1;
    assert_eq!(list(&file), b"2 4\n");
    assert_eq!(list(&with(t(), 149, 3)), b"7 149\n");
}

#[test]
fn longest_listing() {
    let size = |filler: usize| {
        let chunk = Chunk::of_bytes(*b"XTRA", vec![1; filler]);
        file_of(vec![chunk]).bytes()
    };
    let (largest, larger) = (size(65_536 - 20), size(65_537 - 20));
    assert_eq!((largest.len(), larger.len()), (65_536, 65_537));
    assert_eq!(list(&largest), b"0 0\n1 0\n0 0 0 0 0 0 0 0 0 0\n");
    assert_eq!(judge(Mode::Strict, &larger).number, 0);
    assert_eq!(list(&larger), b"1 0\n");
}
