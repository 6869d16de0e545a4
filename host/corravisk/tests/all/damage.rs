//! Damaged data sets: whatever a file holds, each command ends with a known status, and a refusal names its
//! number.

use std::fs;

use crate::support::*;

/// Numbers that look random and are the same in every run.
fn numbers(seed: u64) -> impl FnMut(usize) -> usize {
    let mut state = seed;
    move |limit| {
        state = state.wrapping_mul(6_364_136_223_846_793_005).wrapping_add(1_442_695_040_888_963_407);
        (state >> 33) as usize % limit
    }
}

#[test]
fn every_damaged_data_set_ends_well() {
    let folder = Folder::new();
    let whole = fs::read(concat!(env!("CARGO_MANIFEST_DIR"), "/../../examples/slice-1.dataset")).unwrap();
    let mut refused = 0;
    for seed in 0..60 {
        let below = &mut numbers(seed);
        let mut data = whole.clone();
        for _ in 0..1 + below(3) {
            match below(4) {
                0 => data.truncate(below(data.len() + 1)),
                1 if !data.is_empty() => {
                    let place = below(data.len());
                    data[place] = below(256) as u8;
                }
                2 => data.insert(below(data.len() + 1), below(256) as u8),
                _ => {
                    let place = below(data.len() + 1);
                    data.truncate(place);
                    data.extend([0xFF; 12]);
                }
            }
        }
        folder.file("in", &data);
        let _ = fs::remove_file(folder.path("out"));
        let dump = folder.run(&["dump", "in"]);
        let view = folder.run(&["view", "in", "0010,0010"]);
        let export = folder.run(&["export", "in", "out", "--root", "1.9"]);
        for ran in [&dump, &view, &export] {
            assert!(matches!(ran.status, 0 | 1), "seed {seed}: {ran:?}");
            assert_eq!(ran.status == 1, ran.err.contains("refused, No. "), "seed {seed}: {ran:?}");
            assert!(!ran.err.contains("panicked"), "seed {seed}: {ran:?}");
        }
        assert_eq!(dump.status, view.status, "seed {seed}");
        assert!(export.status >= dump.status, "seed {seed}: what has no shape has no export");
        assert_eq!(folder.path("out").exists(), export.status == 0, "seed {seed}");
        refused += export.status;
    }
    assert!(refused > 30, "{refused}");
}

#[test]
fn a_file_that_is_too_long_is_refused_without_being_read_whole() {
    let folder = Folder::new();
    // A file of zeros that takes no room on the disk.
    fs::File::create(folder.path("in")).unwrap().set_len(1 << 40).unwrap();
    folder.run(&["export", "in", "out", "--root", "1"]).refused(5);
    folder.run(&["dump", "in"]).refused(5);
    assert!(!folder.path("out").exists());
}
