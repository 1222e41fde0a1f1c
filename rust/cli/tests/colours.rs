//! A colour outside 0 to 1: refused, but with `--lenient` and by `clear`.

mod common;

use common::{fresh, run};
use scenes::colour::outside;
use scenes::{scene, Profile, Rng};
use std::fs;

#[test]
fn colours_outside_0_to_1() {
    let folder = fresh("colours");
    let mut rng = Rng::new(8);
    let mut met = 0;
    for _ in 0..20 {
        let scene = scene(&mut rng, Profile::SMALL);
        let Some((file, place)) = outside(&scene, &mut rng) else {
            continue;
        };
        met += 1;
        fs::write(folder.join("f"), &file).unwrap();
        let words = format!("f: 6 at {place}: a number outside its range\n");
        run(&folder, &["check", "f"]).is(1, &words);
        run(&folder, &["list", "f"]).is(1, &format!("6 {place}\n"));
        run(&folder, &["tables", "f", "t"]).stops(1, "6 at");
        let checked = run(&folder, &["check", "--lenient", "f"]);
        assert!(checked.status == 0 && checked.out.starts_with("f: accepted"));
        assert_eq!(run(&folder, &["list", "--lenient", "f"]).status, 0);
        run(&folder, &["tables", "--lenient", "f", "t"]).is(0, "");
        run(&folder, &["build", "t", "b"]).stops(1, "12");
        run(&folder, &["build", "--lenient", "--force", "t", "b"]).is(0, "");
        run(&folder, &["clear", "--force", "f", "c"]).is(0, "");
        run(&folder, &["clear", "--force", "b", "d"]).is(0, "");
        assert!(fs::read(folder.join("c")).unwrap() == fs::read(folder.join("d")).unwrap());
        for name in ["b", "c", "d"] {
            fs::remove_file(folder.join(name)).unwrap();
        }
        fs::remove_dir_all(folder.join("t")).unwrap();
    }
    assert!(met > 10, "files with a colour outside: {met}");
}
