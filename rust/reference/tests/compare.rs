//! Comparisons of paper 02, E11, worked by hand and made by the generator.

use reference::{compare, judge, Compared, Mode};
use scenes::damage::{file_of, node_of};
use scenes::pairs::{few_cells, one_less, other_numbers, swapped};
use scenes::worked::*;
use scenes::{groups, private, scene, Chunk, Profile, Rng};

const FILL: u8 = 0xB7;

/// The list of what differs, written to an output that has just room for it; bytes
/// behind it stay in a longer one.
fn list(first: &[u8], second: &[u8]) -> Vec<u8> {
    let asked = compare(first, second, &mut []);
    assert!([0, 11].contains(&asked.number), "{asked:?}");
    let size = asked.place as usize;
    let mut out = vec![FILL; size + 3];
    let written = Compared {
        size: asked.place,
        ..Compared::default()
    };
    assert_eq!(compare(first, second, &mut out), written);
    assert_eq!(out[size..], [FILL; 3]);
    let mut exact = vec![FILL; size];
    assert_eq!(compare(first, second, &mut exact), written);
    assert_eq!(exact, out[..size]);
    exact
}

fn refused(number: u32, place: u32, which: u32) -> Compared {
    Compared {
        number,
        place,
        which,
        size: 0,
    }
}

/// H with another name.
fn hall(name: &[u8]) -> Vec<u8> {
    let mut node = Chunk::new(b"NODE");
    node.name(name);
    node.words(&[1, 2, 3, 4, 5, 6, 7, 8, 9, 10]);
    file_of(vec![node]).bytes()
}

#[test]
fn nothing_differs() {
    for file in [p(), h(), t(), brush(8), chain(16)] {
        assert_eq!(list(&file, &file), []);
        assert_eq!(compare(&file, &file, &mut []), Compared::default());
    }
    // Passed-over chunks are no cells.
    assert_eq!(list(&h(), &h_and_unknown()), []);
}

#[test]
fn the_twelve_numbers_are_table_0_and_then_it_stops() {
    assert_eq!(list(&p(), &with(p(), 8, 99)), [0, 0, 0, 1, 99]);
    // Nodes: word 2 + 2. That the name differs is not told.
    assert_eq!(list(&p(), &h()), [0, 0, 4, 0, 1]);
    assert_eq!(list(&h(), &p()), [0, 0, 4, 1, 0]);
    // Version, meshes, vertices, triangle sets, triangles.
    let expected = [
        [0, 0, 0, 7, 1],
        [0, 0, 5, 0, 1],
        [0, 0, 6, 0, 3],
        [0, 0, 7, 0, 1],
        [0, 0, 8, 0, 1],
    ];
    assert_eq!(list(&with(h(), 8, 7), &t()), expected.concat());
    // n_texs is word 1: in both files there are a texture and a brush.
    assert_eq!(list(&brush(2), &brush(8)), [0, 0, 1, 2, 8]);
    // Counts in more groups than one.
    let keys = |count: usize| {
        let mut keys = Chunk::new(b"KEYS");
        keys.words(&vec![0; 1 + count]);
        file_of(vec![node_of(vec![keys])]).bytes()
    };
    let expected = [0, 0, 11, 0x81, 0x00, 0x82, 0xAC, 0x00];
    assert_eq!(list(&keys(128), &keys(0x9600)), expected);
}

#[test]
fn n_texs_of_a_file_without_brushes_is_0() {
    let bare = |n_texs: u32| {
        let mut brus = Chunk::new(b"BRUS");
        brus.word(n_texs);
        file_of(vec![brus]).bytes()
    };
    assert_eq!(list(&bare(3), &bare(5)), []);
}

#[test]
fn cells_in_order_of_table_row_and_word() {
    // T with the second vertex's x, the triangle's last id, the mesh's node's floats.
    let mut other = with(t(), 21, 0x3F80_0000);
    other = with(other, 57, 5);
    other = with(other, 93 + 12, 9);
    other = with(other, 141, 2);
    other = with(other, 149, 0);
    let expected = [
        &[3, 0, 3, 1, 0x83, 0xFC, 0x80, 0x80, 0x00][..],
        &[3, 0, 12, 10, 5],
        &[5, 1, 0, 21, 9],
        &[7, 0, 0, 0, 2],
        &[7, 0, 2, 2, 0],
    ];
    assert_eq!(list(&t(), &other), expected.concat());
}

#[test]
fn names_are_word_0_with_both_texts() {
    let expected = b"\x03\0\0\x04\x05HallLobby";
    assert_eq!(list(&h(), &hall(b"Lobby")), expected);
    assert_eq!(list(&hall(b"Lobby"), &h()), b"\x03\0\0\x05\x04LobbyHall");
    assert_eq!(list(&h(), &cleared_h()), b"\x03\0\0\x04\0Hall");
    // Of one length: by their bytes.
    assert_eq!(list(&h(), &hall(b"Hell")), b"\x03\0\0\x04\x04HallHell");
    // A long name: its length takes two groups.
    let long = vec![0xFE; 200];
    let expected = [&b"\x03\0\0\x04\x81\x48Hall"[..], &long].concat();
    assert_eq!(list(&h(), &hall(&long)), expected);
}

#[test]
fn equal_names_at_other_places_do_not_differ() {
    // The same node behind a chunk that is passed over.
    let mut node = Chunk::new(b"NODE");
    node.name(b"Hall");
    node.words(&[1, 2, 3, 4, 5, 6, 7, 8, 9, 10]);
    let before = Chunk::of_bytes(*b"XTRA", vec![7; 20]);
    assert_eq!(list(&h(), &file_of(vec![before, node]).bytes()), []);
}

#[test]
fn floats_are_compared_by_their_bits() {
    let at = 25;
    let float = |bits| with(h(), at, bits);
    let entry = |old, new| groups::of(&[3, 0, 3, old, new]);
    let nan = [0x7FC0_0000, 0x7FC0_0001, 0xFFC0_0000];
    assert_eq!(list(&float(nan[0]), &float(nan[0])), []);
    for (old, new) in [
        (nan[0], nan[1]),
        (nan[0], nan[2]),
        (0, 0x8000_0000),
        (0x8000_0000, 0),
        (0x3FC0_0000, 0x3FE0_0000),
    ] {
        assert_eq!(list(&float(old), &float(new)), entry(old, new));
    }
}

#[test]
fn whole_numbers_by_their_bits() {
    // Texture id -1 in place of 0: NONE takes five groups.
    let other = with(brush(1), 92, 0xFFFF_FFFF);
    let expected = [2, 0, 9, 0, 0x8F, 0xFF, 0xFF, 0xFF, 0x7F];
    assert_eq!(list(&brush(1), &other), expected);
}

#[test]
fn files_are_read_leniently() {
    // A brush with red NaN: at 64 of a file with a texture and a brush.
    let red = (0..brush(1).len() - 4)
        .find(|&at| {
            let file = with(brush(1), at, 0x7FC0_0000);
            judge(Mode::Strict, &file).number == 6 && judge(Mode::Lenient, &file).number == 0
        })
        .unwrap();
    let white = with(brush(1), red, 0x7FC0_0000);
    let expected = groups::of(&[2, 0, 2, 0, 0x7FC0_0000]);
    assert_eq!(list(&brush(1), &white), expected);
}

#[test]
fn refusals_say_which_file() {
    let mut out = [FILL; 50];
    let bad = with(t(), 149, 3);
    let short = &h()[..11];
    for (first, second, answer) in [
        (&bad[..], &t()[..], refused(7, 149, 1)),
        (&t(), &bad, refused(7, 149, 2)),
        (&bad, short, refused(7, 149, 1)),
        (short, &bad, refused(1, 0, 1)),
        (&t(), short, refused(1, 0, 2)),
    ] {
        assert_eq!(compare(first, second, &mut out), answer);
        assert_eq!(compare(first, second, &mut []), answer);
    }
    assert_eq!(out, [FILL; 50]);
}

#[test]
fn an_output_too_short_is_11_and_stays() {
    let other = hall(b"Lobby");
    for room in 0..14 {
        let mut out = vec![FILL; room];
        assert_eq!(compare(&h(), &other, &mut out), refused(11, 14, 0));
        assert_eq!(out, vec![FILL; room]);
    }
    assert_eq!(list(&h(), &other).len(), 14);
}

#[test]
fn generated_pairs() {
    let mut rng = Rng::new(1101);
    let mut differ = 0;
    for round in 0..600 {
        let profile = Profile::any(&mut rng);
        let pair = match round % 4 {
            0 => other_numbers(&mut rng, profile),
            1 => one_less(&mut rng, profile),
            _ => few_cells(&mut rng, profile, 8),
        };
        assert_eq!(list(&pair.first, &pair.second), pair.list);
        // Empty one way round exactly if the other way round.
        let back = list(&pair.second, &pair.first);
        assert_eq!(back.is_empty(), pair.list.is_empty());
        differ += usize::from(!pair.list.is_empty());
    }
    assert!((400..600).contains(&differ), "{differ}");
}

#[test]
fn what_a_clearer_drops_but_names_does_not_differ() {
    let mut rng = Rng::new(1102);
    for _ in 0..200 {
        let profile = Profile::any(&mut rng);
        let scene = scene(&mut rng, profile);
        let other = private::private_change(&scene.tree, &mut rng);
        // Names are the only entries: word 0 of tables 1 to 3.
        let mut left = &list(&scene.file, &other)[..];
        while !left.is_empty() {
            let [table, _, word, old, new] = std::array::from_fn(|_| number(&mut left));
            assert!((1..=3).contains(&table) && word == 0);
            left = &left[(old + new) as usize..];
        }
        if let Some(file) = swapped(&scene, &mut rng) {
            assert_eq!(
                judge(Mode::Lenient, &file),
                judge(Mode::Lenient, &scene.file)
            );
            list(&scene.file, &file);
        }
    }
}

/// Takes a number in groups from the front.
fn number(bytes: &mut &[u8]) -> u32 {
    let mut number = 0;
    loop {
        let byte = bytes[0];
        *bytes = &bytes[1..];
        number = number << 7 | u32::from(byte & 0x7F);
        if byte < 0x80 {
            return number;
        }
    }
}
