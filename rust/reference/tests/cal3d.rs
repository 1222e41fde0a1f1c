//! Skeletons and meshes of cal3d: valid files give the words they were made
//! of, files with one fault the refusal of that fault.

use reference::cal3d::*;
use scenes::cal3d::*;
use scenes::Rng;

const LENT: u32 = 0xABCD_1234;

fn word(file: &[u8], place: usize) -> u32 {
    u32::from_le_bytes(file[place..place + 4].try_into().unwrap())
}

/// Tables with some words more than needed.
fn lent(tables: &[Vec<u32>]) -> Vec<Vec<u32>> {
    tables
        .iter()
        .map(|table| vec![LENT; table.len() + 3])
        .collect()
}

fn skeleton_into(file: &[u8], tables: &mut [Vec<u32>]) -> SkeletonAnswer {
    let [bones, children] = tables else { panic!() };
    read_skeleton(file, &mut [bones, children])
}

fn mesh_into(file: &[u8], bones: u32, tables: &mut [Vec<u32>]) -> MeshAnswer {
    let [a, b, c, d, e, f] = tables else { panic!() };
    read_mesh(file, bones, &mut [a, b, c, d, e, f])
}

fn holds(found: &[Vec<u32>], made: &[Vec<u32>]) {
    for (found, made) in found.iter().zip(made) {
        assert_eq!(&found[..made.len()], &made[..]);
        assert!(found[made.len()..].iter().all(|&word| word == LENT));
    }
}

#[test]
fn valid_skeletons() {
    for seed in 0..2000 {
        let mut rng = Rng::new(seed);
        let made = skeleton(&mut rng, 12);
        let mut tables = lent(&made.tables);
        let answer = skeleton_into(&made.file, &mut tables);
        assert_eq!((answer.number, answer.place), (0, 0), "seed {seed}");
        assert_eq!(
            answer.head,
            [4, 8, 12, 16, 20].map(|place| word(&made.file, place))
        );
        assert_eq!(
            answer.counts,
            [
                made.tables[0].len() as u32 / 23,
                made.tables[1].len() as u32
            ]
        );
        holds(&tables, &made.tables);
    }
}

#[test]
fn valid_meshes() {
    for seed in 0..2000 {
        let mut rng = Rng::new(seed);
        let bones = rng.below(4) as u32;
        let made = mesh(&mut rng, bones, 4);
        let mut tables = lent(&made.tables);
        let answer = mesh_into(&made.file, bones, &mut tables);
        assert_eq!((answer.number, answer.place), (0, 0), "seed {seed}");
        assert_eq!(answer.head, [4, 8].map(|place| word(&made.file, place)));
        let widths = [9, 12, 2, 2, 4, 3];
        let counts: Vec<u32> = made
            .tables
            .iter()
            .zip(widths)
            .map(|(table, width)| table.len() as u32 / width)
            .collect();
        assert_eq!(answer.counts[..], counts[..]);
        holds(&tables, &made.tables);
    }
}

#[test]
fn faults_in_reading_order() {
    let mut met = [0_u32; 17];
    for seed in 0..6000 {
        let mut rng = Rng::new(seed);
        let made = skeleton(&mut rng, 6);
        let fault = fault(&mut rng, &made);
        let answer = judge_skeleton(&fault.file);
        assert_eq!(
            (answer.number, answer.place),
            (fault.number, fault.place as u32),
            "seed {seed}: {}",
            fault.about
        );
        met[answer.number as usize] += 1;

        let bones = rng.below(3) as u32;
        let made = mesh(&mut rng, bones, 3);
        let fault = scenes::cal3d::fault(&mut rng, &made);
        let answer = judge_mesh(&fault.file, bones);
        assert_eq!(
            (answer.number, answer.place),
            (fault.number, fault.place as u32),
            "seed {seed}: {}",
            fault.about
        );
    }
    for number in [1, 2, 5, 6, 7] {
        assert!(met[number] > 100, "{number}");
    }
}

#[test]
fn lists_and_parents() {
    let mut met = 0;
    for seed in 0..4000 {
        let mut rng = Rng::new(seed);
        if let Some(fault) = wrong_trees(&mut rng, 9) {
            let answer = judge_skeleton(&fault.file);
            assert_eq!(
                (answer.number, answer.place),
                (16, fault.place as u32),
                "seed {seed}: {}",
                fault.about
            );
            met += 1;
        }
    }
    assert!(met > 1000);
}

#[test]
fn short_tables_stay() {
    for seed in 0..1000 {
        let mut rng = Rng::new(seed);
        let bones = rng.below(4) as u32;
        let made = mesh(&mut rng, bones, 3);
        let short = rng.below(6);
        if made.tables[short].is_empty() {
            continue;
        }
        let mut tables = lent(&made.tables);
        tables[short].truncate(made.tables[short].len() - 1);
        let before = tables.clone();
        let answer = mesh_into(&made.file, bones, &mut tables);
        assert_eq!((answer.number, answer.place), (11, short as u32 + 1));
        assert_eq!(answer.counts, [0; 6]);
        assert_eq!(tables, before);
    }
}

#[test]
fn row_limits() {
    let mut rng = Rng::new(7);
    for (bones, number) in [(16_383, 0), (16_384, 10)] {
        let parents = vec![NONE; bones];
        let made = skeleton_of(&mut rng, &parents, &vec![Vec::new(); bones], 0);
        let answer = judge_skeleton(&made.file);
        assert_eq!((answer.number, answer.place), (number, number / 10));
    }
    // Too many children of one bone: 10 before 16.
    let made = skeleton_of(&mut rng, &[NONE, 0], &[vec![1; 16_384], Vec::new()], 0);
    assert_eq!(
        (
            judge_skeleton(&made.file).number,
            judge_skeleton(&made.file).place
        ),
        (10, 2)
    );
    let made = skeleton_of(&mut rng, &[NONE, 0], &[vec![1; 16_383], Vec::new()], 0);
    assert_eq!(
        (
            judge_skeleton(&made.file).number,
            judge_skeleton(&made.file).place
        ),
        (16, made.bones[1] as u32)
    );
}

#[test]
fn counts_past_the_bytes() {
    let mut rng = Rng::new(1);
    let made = skeleton(&mut rng, 0);
    assert_eq!(
        judge_skeleton(&with_number(&made.file, 8, 2_000_000_000)).number,
        5
    );
    let made = mesh(&mut rng, 0, 0);
    let answer = judge_mesh(&with_number(&made.file, 8, 2_000_000_000), 0);
    assert_eq!((answer.number, answer.place), (5, 12));
}
