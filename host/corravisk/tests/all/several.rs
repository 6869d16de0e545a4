//! Several data sets into a folder.

use std::fs;

use crate::support::*;

#[test]
fn several_go_to_a_folder_with_one_ledger() {
    let folder = Folder::new();
    folder.file("a", study("1.2.3"));
    folder.file("b", [element(0x0008_0018, "UI", "1.2.77"), study("1.2.3")].concat());
    fs::create_dir(folder.path("out")).unwrap();
    let ran = folder.run(&["export", "a", "b", "out", "--root", "1.9"]);
    assert!(ran.succeeds().out.contains("2 exported, 0 refused"), "{}", ran.out);
    assert!(folder.read("out/a").windows(5).any(|part| part == b"1.9.1"));
    assert!(folder.read("out/b").starts_with(&element(0x0008_0018, "UI", "1.9.2\0")));
    assert!(folder.read("out/b").windows(5).any(|part| part == b"1.9.1"));
}

#[test]
fn a_refused_one_does_not_stop_the_others() {
    let folder = Folder::new();
    folder.file("a", study("1.2.3"));
    folder.file("b", [study("1.2.4"), vec![0; 5]].concat());
    folder.file("c", study("1.2.5"));
    fs::create_dir(folder.path("out")).unwrap();
    let ran = folder.run(&["export", "a", "b", "c", "out", "--root", "1.9", "--ledger", "ledger"]);
    ran.refused(6);
    assert!(ran.out.contains("2 exported, 1 refused"), "{}", ran.out);
    let mut names: Vec<_> =
        fs::read_dir(folder.path("out")).unwrap().map(|entry| entry.unwrap().file_name()).collect();
    names.sort();
    assert_eq!(names, ["a", "c"]);
    // The refused one has no number.
    assert!(folder.read("out/c").windows(5).any(|part| part == b"1.9.2"));
    assert_eq!(folder.read("ledger").len(), 128);
}

#[test]
fn a_missing_one_makes_an_end_of_it_and_what_was_done_is_told() {
    let folder = Folder::new();
    folder.file("a", study("1.2.3"));
    folder.file("c", study("1.2.5"));
    fs::create_dir(folder.path("out")).unwrap();
    let ran = folder.run(&["export", "a", "b", "c", "out", "--root", "1.9", "--json"]);
    assert_eq!(ran.status, 2);
    assert!(ran.err.contains("cannot read b"), "{}", ran.err);
    assert!(ran.out.contains("\"output\":\"out/a\"") && !ran.out.contains("out/c"), "{}", ran.out);
    let error = "\"error\":{\"input\":\"b\",\"what\":\"cannot read b: ";
    assert!(ran.out.contains(error) && ran.out.contains("\"not_tried\":[\"c\"]"), "{}", ran.out);
    let ran = folder.run(&["export", "a", "b", "c", "out", "--root", "1.9"]);
    assert!(ran.out.contains("1 exported, 0 refused, 2 not exported"), "{}", ran.out);
    let ran = folder.run(&["export", "a", "out", "--root", "1.9", "--json", "--study", "none"]);
    assert_eq!(ran.status, 2);
    assert!(ran.out.contains("\"what\":\"cannot read none: "), "{}", ran.out);
    assert!(!folder.path("out/c").exists());
}

#[test]
fn one_goes_to_a_folder_too() {
    let folder = Folder::new();
    folder.file("a", jane());
    fs::create_dir(folder.path("out")).unwrap();
    folder.run(&["export", "a", "out", "--root", "1.9"]).succeeds();
    assert_eq!(folder.read("out/a").len(), 148);
}

#[test]
fn no_progress_bar_where_there_is_no_terminal() {
    let folder = Folder::new();
    let names: Vec<String> = (0..20).map(|number| format!("in{number}")).collect();
    names.iter().for_each(|name| drop(folder.file(name, jane())));
    fs::create_dir(folder.path("out")).unwrap();
    let mut words = vec!["export"];
    words.extend(names.iter().map(String::as_str));
    words.extend(["out", "--root", "1"]);
    folder.run(&words).succeeds();
}

#[test]
fn calls_with_one_ledger_wait_for_each_other() {
    let folder = Folder::new();
    let children: Vec<_> = (0..8)
        .map(|number| {
            let (input, output) = (format!("in{number}"), format!("out{number}"));
            folder.file(&input, study(&format!("1.2.{number}")));
            let mut command = command();
            command.current_dir(folder.path("")).args(["export", &input, &output, "--root", "1.9"]);
            command.args(["--ledger", "ledger"]).stdout(std::process::Stdio::null());
            command.stderr(std::process::Stdio::null()).spawn().unwrap()
        })
        .collect();
    for mut child in children {
        assert!(child.wait().unwrap().success());
    }
    assert_eq!(folder.read("ledger").len(), 8 * 64);
    let mut slots: Vec<Vec<u8>> = folder.read("ledger").chunks(64).map(<[u8]>::to_vec).collect();
    slots.sort();
    slots.dedup();
    assert_eq!(slots.len(), 8);
}
