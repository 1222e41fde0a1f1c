//! Mends of paper 02, E13, worked by hand and made by the generator.

use reference::{judge, mend, Mended, Mode};
use scenes::change::changed;
use scenes::damage::{file_of, node_of};
use scenes::mendable::{mendable, not_mendable, Entry, Mendable};
use scenes::rows::{file_with_rows, MOST_ROWS};
use scenes::worked::*;
use scenes::{damage, scene, Chunk, Profile, Rng};

const FILL: u8 = 0xB7;
const NONE: u32 = 0xFFFF_FFFF;

fn refused(number: u32, place: usize) -> Mended {
    Mended {
        number,
        place: place as u32,
        ..Mended::default()
    }
}

/// The mended file and the report, or the refusal. Rooms that are one byte short are
/// refused, for the file first; bytes behind both stay; the mended file is accepted,
/// and mended again it stays as it is.
fn mended(file: &[u8]) -> Result<(Vec<u8>, Vec<u8>), Mended> {
    let asked = mend(file, &mut [], &mut []);
    if asked.number != 11 {
        let mut out = vec![FILL; file.len() + 8];
        let mut report = vec![FILL; 64];
        assert_eq!(mend(file, &mut out, &mut report), asked);
        assert!(out.iter().chain(&report).all(|&byte| byte == FILL));
        assert_eq!(asked, refused(asked.number, asked.place as usize));
        return Err(asked);
    }
    let size = asked.place as usize;
    let mut out = vec![FILL; size + 3];
    let asked = mend(file, &mut out, &mut []);
    let report_size = match asked.number {
        0 => 0,
        _ => asked.place as usize,
    };
    let mut report = vec![FILL; report_size + 3];
    if report_size > 0 {
        assert_eq!(asked, refused(11, report_size));
        let short = &mut report[..report_size - 1];
        assert_eq!(mend(file, &mut out, short), refused(11, report_size));
        assert!(out.iter().chain(&report).all(|&byte| byte == FILL));
    }
    for room in [0, size - 1] {
        let answer = mend(file, &mut out[..room], &mut report);
        assert_eq!(answer, refused(11, size));
        let answer = mend(file, &mut out[..room], &mut []);
        assert_eq!(answer, refused(11, size));
    }
    assert!(report.iter().all(|&byte| byte == FILL));
    let written = Mended {
        size: size as u32,
        report_size: report_size as u32,
        ..Mended::default()
    };
    assert_eq!(mend(file, &mut out, &mut report), written);
    assert_eq!(out.split_off(size), [FILL; 3]);
    assert_eq!(report.split_off(report_size), [FILL; 3]);
    assert_eq!(judge(Mode::Lenient, &out).number, 0);
    let (mut again, mut nothing) = (vec![FILL; size], []);
    let same = Mended {
        report_size: 0,
        ..written
    };
    assert_eq!(mend(&out, &mut again, &mut nothing), same);
    assert_eq!(again, out);
    Ok((out, report))
}

fn entry(place: usize, which: u32, given: &[u8], mended: &[u8]) -> Entry {
    let (given, mended) = (given.to_vec(), mended.to_vec());
    Entry {
        place,
        which,
        given,
        mended,
    }
}

/// Holds a file to its mended form and its report.
fn mends(file: Vec<u8>, mended_file: Vec<u8>, entries: &[Entry]) {
    let expected = Mendable {
        file,
        mended: mended_file,
        entries: entries.to_vec(),
    };
    holds(&expected);
}

fn holds(expected: &Mendable) {
    let (file, report) = mended(&expected.file).expect("mended");
    assert!(file == expected.mended, "{:?}", expected.entries);
    assert_eq!(report, expected.report());
}

/// Holds a file to a refusal.
fn refuses(file: &[u8], number: u32, place: usize) {
    assert_eq!(mended(file), Err(refused(number, place)));
}

/// A file of these bytes with the first length right.
fn file(mut bytes: Vec<u8>) -> Vec<u8> {
    let length = bytes.len() as u32 - 8;
    bytes[4..8].copy_from_slice(&length.to_le_bytes());
    bytes
}

/// The bytes with some put in at a place.
fn put_in(mut bytes: Vec<u8>, place: usize, more: &[u8]) -> Vec<u8> {
    bytes.splice(place..place, more.iter().copied());
    bytes
}

fn words(words: &[u32]) -> Vec<u8> {
    words.iter().flat_map(|word| word.to_le_bytes()).collect()
}

/// Places in T of the lengths of NODE, MESH and TRIS.
const NODE: usize = 16;
const MESH: usize = 65;
const TRIS: usize = 133;

/// T with the lengths of these chunks changed by this much, and the first length as
/// the file's.
fn t_longer(bytes: Vec<u8>, chunks: &[usize], more: i32) -> Vec<u8> {
    let longer = |bytes: Vec<u8>, &at: &usize| {
        let length = u32::from_le_bytes([0, 1, 2, 3].map(|i| bytes[at + i]));
        with(bytes, at, length.wrapping_add_signed(more))
    };
    file(chunks.iter().fold(bytes, longer))
}

#[test]
fn an_accepted_file_comes_back_with_an_empty_report() {
    for file in [p(), h(), t(), brush(8), chain(16), h_and_unknown()] {
        mends(file.clone(), file, &[]);
    }
    // Colours of any value are accepted.
    let mut vrts = Chunk::new(b"VRTS");
    vrts.words(&[2, 0, 0, 1, 2, 3, 0x7FC0_0000, 0, 0, 0xBF80_0000]);
    let mut tris = Chunk::new(b"TRIS");
    tris.word(NONE);
    let mut mesh = Chunk::new(b"MESH");
    mesh.word(NONE);
    mesh.chunks = vec![vrts, tris];
    let file = file_of(vec![node_of(vec![mesh])]).bytes();
    assert_eq!(judge(Mode::Strict, &file).number, 6);
    mends(file.clone(), file, &[]);
}

#[test]
fn one_a_wrong_first_length() {
    for wrong in [0, 3, 56, 58, 1000, NONE] {
        let given = words(&[wrong]);
        let entries = [entry(4, 1, &given, &words(&[57]))];
        mends(with(h(), 4, wrong), h(), &entries);
    }
    // The report's bytes: place, which, 4 and 4, then both lengths.
    let (_, report) = mended(&with(h(), 4, 300)).unwrap();
    assert_eq!(report, [4, 1, 4, 4, 44, 1, 0, 0, 57, 0, 0, 0]);
}

#[test]
fn its_end_is_the_files() {
    // Bytes behind a length that is too short are inside, and judged.
    let unknown = with(h_and_unknown(), 4, 57);
    let entries = [entry(4, 1, &words(&[57]), &words(&[68]))];
    mends(unknown, h_and_unknown(), &entries);
    let second = [h(), b"NODE\x00\0\0\0".to_vec()].concat();
    refuses(&second, 4, 65);
    // With spare bytes taken out the first length is what it was: still a mend.
    let spare = [h(), b"abc".to_vec()].concat();
    let entries = [
        entry(4, 1, &words(&[57]), &words(&[57])),
        entry(65, 4, b"abc", b""),
    ];
    mends(spare, h(), &entries);
    // A length that is right and follows is none.
    let spare = file([h(), b"abc".to_vec()].concat());
    mends(spare, h(), &[entry(65, 4, b"abc", b"")]);
}

#[test]
fn two_an_id_that_names_nothing() {
    // The brush of MESH at 69 and of TRIS at 137: there are none.
    for bad in [0, 1, 0x7FFF_FFFF, 0x8000_0000, 0xFFFF_FFFE] {
        for at in [69, 137] {
            let entries = [entry(at, 2, &words(&[bad]), &[0xFF; 4])];
            mends(with(t(), at, bad), t(), &entries);
        }
    }
    // A texture id at 92: there is one texture.
    mends(brush(1), brush(1), &[]);
    for bad in [1, 0xFFFF_FFFE] {
        let file = with(brush(2), 96, bad);
        let entries = [entry(96, 2, &words(&[bad]), &[0xFF; 4])];
        mends(file, with(brush(2), 96, NONE), &entries);
    }
}

#[test]
fn three_a_triangle_is_taken_out() {
    let empty = t_longer(t()[..141].to_vec(), &[NODE, MESH, TRIS], -12);
    for (corner, bad) in [(0, 3), (1, NONE), (2, 3), (2, 0x8000_0000)] {
        let file = with(t(), 141 + 4 * corner, bad);
        let given = file[141..153].to_vec();
        mends(file, empty.clone(), &[entry(141, 3, &given, b"")]);
    }
    // Several bad ids are one mend.
    let file = with(with(t(), 141, 3), 149, 4);
    let given = words(&[3, 1, 4]);
    mends(file, empty, &[entry(141, 3, &given, b"")]);
}

#[test]
fn three_a_triangle_among_others() {
    let bad = words(&[0, 7, 1]);
    let good = words(&[2, 1, 0]);
    let all = [&bad[..], &bad, &good, &bad].concat();
    let file = t_longer(put_in(t(), 153, &all), &[NODE, MESH, TRIS], 48);
    let kept = t_longer(put_in(t(), 153, &good), &[NODE, MESH, TRIS], 12);
    let entries = [153, 165, 189].map(|at| entry(at, 3, &bad, b""));
    mends(file, kept, &entries);
}

/// A mesh node of `vertices` with an ANIM perhaps, and this bone below it.
fn boned(root: usize, inner: Option<usize>, weights: &[[u32; 2]]) -> Vec<u8> {
    let mut bone = Chunk::new(b"BONE");
    bone.words(&weights.concat());
    let leaf = node_of(vec![bone]);
    let below = match inner {
        None => leaf,
        Some(vertices) => {
            let mut anim = Chunk::new(b"ANIM");
            anim.words(&[0, 0, 0]);
            let kind = match vertices {
                0 => Vec::new(),
                _ => vec![mesh(vertices)],
            };
            node_of([kind, vec![anim, leaf]].concat())
        }
    };
    file_of(vec![node_of(vec![mesh(root), below])]).bytes()
}

fn mesh(vertices: usize) -> Chunk {
    let mut vrts = Chunk::new(b"VRTS");
    vrts.words(&vec![0; 3 + 3 * vertices]);
    let mut tris = Chunk::new(b"TRIS");
    tris.word(NONE);
    let mut mesh = Chunk::new(b"MESH");
    mesh.word(NONE);
    mesh.chunks = vec![vrts, tris];
    mesh
}

#[test]
fn three_a_weight_is_taken_out() {
    // Weights of the root's mesh: 3 vertices.
    let file = boned(3, None, &[[2, 10], [3, 11], [NONE, 12], [0, 13]]);
    let place = file.len() - 24;
    let entries = [
        entry(place, 3, &words(&[3, 11]), b""),
        entry(place + 8, 3, &words(&[NONE, 12]), b""),
    ];
    mends(file, boned(3, None, &[[2, 10], [0, 13]]), &entries);
    // Of the nearest mesh above with an ANIM: 1 vertex; and of one with no mesh.
    for (vertices, kept) in [(1, &[[0, 13]][..]), (0, &[])] {
        let file = boned(3, Some(vertices), &[[0, 13], [2, 10]]);
        let place = file.len() - 8;
        let mut entries = vec![entry(place, 3, &words(&[2, 10]), b"")];
        if vertices == 0 {
            entries.insert(0, entry(place - 8, 3, &words(&[0, 13]), b""));
        }
        mends(file, boned(3, Some(vertices), kept), &entries);
    }
    // The root's own weights can name nothing.
    let rooted = |weights: &[u32]| {
        let mut bone = Chunk::new(b"BONE");
        bone.words(weights);
        file_of(vec![node_of(vec![bone])]).bytes()
    };
    let entries = [entry(69, 3, &words(&[0, 1]), b"")];
    mends(rooted(&[0, 1]), rooted(&[]), &entries);
}

#[test]
fn four_spare_bytes_at_the_end_of_bb3d_node_and_mesh() {
    for count in 1..8 {
        let spare = vec![0x42; count];
        let expected = |chunks: &[usize]| {
            let file = t_longer(put_in(t(), 153, &spare), chunks, count as i32);
            mends(file, t(), &[entry(153, 4, &spare, b"")]);
        };
        expected(&[]);
        expected(&[NODE]);
        expected(&[NODE, MESH]);
    }
    // Eight are a header.
    refuses(&file(put_in(t(), 153, &[0x42; 8])), 3, 153);
    let unknown = file(put_in(t(), 153, b"ABCD\0\0\0\0"));
    mends(unknown.clone(), unknown, &[]);
    // At the end of VRTS, TRIS, and others, it is a cut item.
    let cut = t_longer(put_in(t(), 153, &[0; 7]), &[NODE, MESH, TRIS], 7);
    refuses(&cut, 5, 153);
    // The end of a chunk that is passed over is never looked at.
    let inside = put_in(h_and_unknown(), h_and_unknown().len(), &[1, 2]);
    let inside = with(file(inside), 69, 5);
    mends(inside.clone(), inside, &[]);
}

#[test]
fn several_at_once_and_inside_each_other() {
    // Spare bytes at the end of MESH, NODE and BB3D, both brushes, the triangle and
    // the first length.
    let mut bytes = with(with(with(t(), 69, 5), 137, 6), 145, 9);
    bytes = t_longer(bytes, &[NODE, MESH], 2);
    bytes = t_longer(bytes, &[NODE], 3);
    bytes.extend(b"mmnnnb");
    let given = with(bytes, 4, 7);
    let empty = t_longer(t()[..141].to_vec(), &[NODE, MESH, TRIS], -12);
    let entries = [
        entry(4, 1, &words(&[7]), &words(&[133])),
        entry(69, 2, &words(&[5]), &[0xFF; 4]),
        entry(137, 2, &words(&[6]), &[0xFF; 4]),
        entry(141, 3, &words(&[0, 9, 2]), b""),
        entry(153, 4, b"mm", b""),
        entry(155, 4, b"nnn", b""),
        entry(158, 4, b"b", b""),
    ];
    mends(given, empty, &entries);
    // Places take two groups from 128 on.
    let (_, report) = mended(&with(t(), 145, 9)).unwrap();
    assert_eq!(report[..5], [0x81, 0x0D, 3, 12, 0]);
}

#[test]
fn faults_of_another_kind_in_their_order() {
    // Sizes, judged on the given file; the first tag, also with a wrong length.
    refuses(&h()[..11], 1, 0);
    refuses(&[], 1, 0);
    refuses(&with(with(h(), 0, 7), 4, 7), 2, 0);
    refuses(&with(h(), 8, 100), 6, 8);
    refuses(&with(with(h(), 8, 100), 4, 3), 6, 8);
    // Lengths past the enclosing chunk.
    refuses(&with(h(), 16, 46), 3, 12);
    refuses(&with(with(h(), 16, 46), 4, 1000), 3, 12);
    // A MESH without VRTS or TRIS, spare bytes in it or not.
    let bare = t_longer(t()[..129].to_vec(), &[NODE, MESH], -24);
    refuses(&bare, 8, 61);
    let spare = t_longer(put_in(bare, 129, b"abc"), &[NODE, MESH], 3);
    refuses(&spare, 8, 61);
    // A TRIS without triangles will do.
    mended(&with(t(), 141, 9)).expect("mended");
    // A cut triangle, weight or brush, whatever its ids.
    let cut = t_longer(with(t(), 141, 9)[..152].to_vec(), &[NODE, MESH, TRIS], -1);
    refuses(&cut, 5, 141);
    let weights = boned(3, None, &[[9, 9]]);
    let cut = damaged_length(&weights, 1);
    refuses(&cut, 5, weights.len() - 8);
    let cut = damaged_length(&with(brush(1), 92, 7), 1);
    refuses(&cut, 5, 62);
    refuses(&chain(17), 9, 12 + 16 * 49);
    // What stands behind a mended fault is judged as ever.
    let later = with(with(t(), 69, 7), 81, 4);
    refuses(&later, 6, 81);
    // A bad brush id is no reason to stop at a later one of another kind.
    let both = with(with(t(), 141, 9), 77, 47);
    refuses(&both, 5, 117);
}

/// The file with this many bytes less at its end, all lengths of chunks that end
/// there following.
fn damaged_length(file: &[u8], less: usize) -> Vec<u8> {
    let mut bytes = file[..file.len() - less].to_vec();
    for at in 0..file.len() - 8 {
        let tag: [u8; 4] = file[at..at + 4].try_into().unwrap();
        let length = u32::from_le_bytes(file[at + 4..at + 8].try_into().unwrap());
        let known = scenes::chunk::KNOWN.contains(&tag);
        if known && at + 8 + length as usize == file.len() {
            let length = length - less as u32;
            bytes[at + 4..at + 8].copy_from_slice(&length.to_le_bytes());
        }
    }
    bytes
}

#[test]
fn ten_over_the_mended_rows() {
    let most = file_with_rows(10, MOST_ROWS);
    let mut out = vec![0; most.len()];
    assert_eq!(mend(&most, &mut out, &mut []).number, 0);
    assert_eq!(out, most);
    let over = file_with_rows(10, MOST_ROWS + 1);
    assert_eq!(mend(&over, &mut [], &mut []), refused(10, 10));
    // Before 11, and also with faults that are mended.
    let spare = with(over, 4, 3);
    assert_eq!(mend(&spare, &mut [], &mut []), refused(10, 10));
}

#[test]
fn one_is_judged_on_the_given_file() {
    // Spare bytes would bring the file to the limit.
    let mut over = largest();
    over.push(1);
    refuses(&over, 1, 0);
    refuses(&damage::too_large().file, 1, 0);
}

#[test]
fn generated_files() {
    let mut rng = Rng::new(1301);
    let mut met = [0; 4];
    for round in 0..400 {
        let profile = Profile::any(&mut rng);
        let scene = scene(&mut rng, profile);
        let percent = [0, 3, 10, 30, 60][round % 5];
        let file = mendable(&scene, &mut rng, percent);
        holds(&file);
        for entry in &file.entries {
            met[entry.which as usize - 1] += 1;
        }
        if percent == 0 {
            assert_eq!(file.file, scene.file);
        }
    }
    assert!(met.iter().all(|&count| count > 50), "{met:?}");
}

#[test]
fn generated_refusals() {
    let mut rng = Rng::new(1302);
    let mut met = [0; 12];
    for round in 0..300 {
        let profile = Profile::any(&mut rng);
        let scene = scene(&mut rng, profile);
        for bad in not_mendable(&scene, &mut rng, [0, 10, 40][round % 3]) {
            let answer = mended(&bad.file);
            let expected = Err(refused(bad.number, bad.place as usize));
            assert_eq!(answer, expected, "{}", bad.aim);
            met[bad.number as usize] += 1;
        }
    }
    assert!([3, 4, 5, 6, 8, 9].iter().all(|&number| met[number] > 50));
    assert_eq!(met[7], 0);
}

#[test]
fn any_change_is_mended_or_refused() {
    let mut rng = Rng::new(1303);
    let (mut good, mut bad) = (0, 0);
    for _ in 0..1500 {
        let profile = Profile::any(&mut rng);
        let scene = scene(&mut rng, profile);
        let file = changed(&scene, &mut rng);
        let answer = judge(Mode::Lenient, &file);
        match mended(&file) {
            Ok((out, report)) => {
                good += 1;
                assert_eq!(answer.number == 0, report.is_empty());
                assert!(answer.number != 0 || out == file);
            }
            // Refused by what the reader refuses, at the same place or further on.
            Err(refusal) => {
                bad += 1;
                assert_ne!(answer.number, 0);
                assert_ne!(refusal.number, 7);
            }
        }
    }
    assert!(good > 100 && bad > 100, "{good} {bad}");
}
