//! The files of `samples/` are those that the generator makes.

mod common;

use common::{names_in, sample_folder, samples};
use std::fs;

#[test]
fn committed_samples_are_the_made_ones() {
    let mut names: Vec<&str> = Vec::new();
    for (name, bytes) in samples::all() {
        let committed = fs::read(sample_folder().join(name)).expect("a sample");
        assert!(
            committed == bytes,
            "{name} differs: run the example make_samples"
        );
        names.push(name);
    }
    names.sort();
    assert_eq!(names_in(&sample_folder()), names);
}
