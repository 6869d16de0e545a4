//! The data sets of `examples/`: they are the ones that the program makes, and they export.

use std::fs;

use crate::support::*;

#[path = "../../examples/make_examples.rs"]
mod make_examples;

const FOLDER: &str = concat!(env!("CARGO_MANIFEST_DIR"), "/../../examples/");

#[test]
fn the_examples_are_those_that_the_program_makes() {
    for (name, bytes) in make_examples::files() {
        let there = fs::read(format!("{FOLDER}{name}")).unwrap();
        assert!(there == bytes, "{name}: make it anew by cargo run --example make_examples -- examples");
    }
}

#[test]
fn the_examples_export_without_their_patient() {
    let folder = Folder::new();
    let words = ["slice-1.dataset", "slice-2.dataset"].map(|name| format!("{FOLDER}{name}"));
    let lists = ["study.txt", "site.txt"].map(|name| format!("{FOLDER}{name}"));
    let out = folder.path("").display().to_string();
    let [study, site] = &lists;
    let ran = folder
        .run(&["export", &words[0], &words[1], &out, "--root", "2.25.7", "--study", study, "--site", site]);
    ran.succeeds();
    for name in ["slice-1.dataset", "slice-2.dataset"] {
        let export = folder.read(name);
        for hidden in
            ["Erika", "Example^", "EX-0001", "Dora", "19700101", "20240131", "329800735", "ward", "ACC-"]
        {
            let found = export.windows(hidden.len()).any(|part| part == hidden.as_bytes());
            assert!(!found, "{name} still has {hidden}");
        }
        assert!(export.windows(5).any(|part| part == b"SUBJ7"));
    }
}
