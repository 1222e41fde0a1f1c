//! Colours in both modes.

mod common;

use common::*;
use reference::{judge, list, Mode, Written};
use scenes::chunk::Chunk;
use scenes::colour::{outside, outside_and_cut, INSIDE, OUTSIDE};
use scenes::damage::{file_of, node_of};
use scenes::{scene, Profile, Rng};

const NONE: u32 = 0xFFFF_FFFF;
const NAN: u32 = 0x7FC0_0000;

/// A file with one brush of these words and no texture id.
fn brush(words: [u32; 7]) -> Vec<u8> {
    let mut brus = Chunk::new(b"BRUS");
    brus.word(0);
    brus.name(b"");
    brus.words(&words);
    file_of(vec![brus]).bytes()
}

/// Where the red of that brush stands.
const RED: u32 = 25;

/// A file with a mesh of these flags and words of vertices.
fn vertices(flags: u32, words: &[u32]) -> Vec<u8> {
    let mut mesh = Chunk::new(b"MESH");
    mesh.word(NONE);
    let mut vrts = Chunk::new(b"VRTS");
    vrts.words(&[flags, 0, 0]);
    vrts.words(words);
    let mut tris = Chunk::new(b"TRIS");
    tris.word(NONE);
    mesh.chunks = vec![vrts, tris];
    file_of(vec![node_of(vec![mesh])]).bytes()
}

/// Where the first vertex of that file stands.
const VERTEX: u32 = 93;

/// Refused with 6 at this place, in strict mode only.
fn assert_strict(file: &[u8], place: u32) {
    assert_refused_in(Mode::Strict, file, 6, place, "strict");
    assert_eq!(judge(Mode::Lenient, file).number, 0);
    if file.len() <= 65_536 {
        assert_eq!(list(file), format!("6 {place}\n").into_bytes());
    }
    cleared(file);
}

fn assert_accepted(file: &[u8]) {
    for mode in MODES {
        assert_eq!(judge(mode, file).number, 0);
    }
}

#[test]
fn each_colour_of_a_brush() {
    for colour in 0..4 {
        for bits in INSIDE {
            let mut words = [0; 7];
            words[colour] = bits;
            assert_accepted(&brush(words));
        }
        for bits in OUTSIDE {
            let mut words = [0; 7];
            words[colour] = bits;
            assert_strict(&brush(words), RED + 4 * colour as u32);
        }
    }
    // Shininess is no colour.
    assert_accepted(&brush([0, 0, 0, 0, NAN, 0, 0]));
    // The first colour that does not pass is the place.
    assert_strict(&brush([0, NAN, 0, NAN, 0, 0, 0]), RED + 4);
}

#[test]
fn each_colour_of_a_vertex() {
    for colour in 0..4 {
        for bits in OUTSIDE {
            let mut words = [NAN, NAN, NAN, 0, 0, 0, 0];
            words[3 + colour] = bits;
            assert_strict(&vertices(2, &words), VERTEX + 12 + 4 * colour as u32);
            let mut words = [NAN, NAN, NAN, NAN, NAN, NAN, 0, 0, 0, 0];
            words[6 + colour] = bits;
            assert_strict(&vertices(3, &words), VERTEX + 24 + 4 * colour as u32);
        }
    }
    for bits in INSIDE {
        assert_accepted(&vertices(2, &[NAN, NAN, NAN, bits, bits, bits, bits]));
    }
    // Without flag 2 there is no colour.
    assert_accepted(&vertices(1, &[NAN; 6]));
    assert_accepted(&vertices(0, &[NAN; 3]));
}

/// 5 comes first for a whole item, and an earlier item's colour before it.
#[test]
fn a_cut_item() {
    let mut words = [0; 14];
    words[3] = NAN;
    let mut file = vertices(2, &words[..13]);
    assert_refused_in(Mode::Strict, &file, 6, VERTEX + 12, "earlier colour");
    assert_refused_in(Mode::Lenient, &file, 5, VERTEX + 28, "cut item");
    words[3] = 0;
    words[10] = NAN;
    file = vertices(2, &words[..13]);
    assert_refused(&file, 5, VERTEX + 28, "its own colour");
    // A brush's colours come before its ids: here one that names nothing.
    let mut brus = Chunk::new(b"BRUS");
    brus.word(1);
    brus.name(b"");
    brus.words(&[0, 0, 0, NAN, 0, 0, 0, 7]);
    let file = file_of(vec![brus]).bytes();
    assert_refused_in(Mode::Strict, &file, 6, RED + 12, "before the id");
    assert_refused_in(Mode::Lenient, &file, 7, RED + 28, "the id");
}

#[test]
fn generated_files() {
    let mut rng = Rng::new(81);
    let mut met = 0;
    for _ in 0..1000 {
        let profile = Profile::any(&mut rng);
        let scene = scene(&mut rng, profile);
        assert_accepted(&scene.file);
        if let Some((file, place)) = outside(&scene, &mut rng) {
            met += 1;
            assert_strict(&file, place);
            writing(&file);
        }
        if let Some((file, place)) = outside_and_cut(&scene, &mut rng) {
            assert_refused(&file, 5, place, "colours outside in a cut item");
        }
    }
    assert!(met > 500, "files with a colour outside: {met}");
}

/// What the lenient mode reads it writes, and the strict writer answers 12.
fn writing(file: &[u8]) {
    let sheet = sheet_in(Mode::Lenient, file);
    let (answer, out) = write_to(&sheet, file.len());
    let unsound = Written {
        number: 12,
        place: 0,
        size: 0,
    };
    assert_eq!(answer, unsound);
    assert!(untouched(&out));
    let written = accepted_bytes(write_in(Mode::Lenient, &sheet, file.len()));
    assert!(sheet_in(Mode::Lenient, &written).same_but_name_places(&sheet));
}
