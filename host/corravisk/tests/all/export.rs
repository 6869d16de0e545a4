//! One data set.

use std::fs;

use crate::support::*;

/// The export of document 01's Doe^Jane without the element itself.
const MARKERS: usize = 140;

#[test]
fn the_sample_of_document_01() {
    let folder = Folder::new();
    folder.file("in", jane());
    let ran = folder.run(&["export", "in", "out", "--root", "1.9"]);
    ran.succeeds();
    let out = folder.read("out");
    assert_eq!(out.len(), MARKERS + 8);
    assert!(out.starts_with(&element(NAME, "PN", "")));
    assert!(!out.windows(3).any(|part| part == b"Doe"));
    assert!(
        ran.out.contains("in -> out: 148 bytes; 0 kept, 1 replaced, 0 renamed, 0 removed"),
        "{}",
        ran.out
    );
    assert_eq!(folder.names(), ["in", "out"]);
}

#[test]
fn lists_are_text() {
    let folder = Folder::new();
    folder.file("in", jane());
    folder.file("study", "# comment\n\n0010,0020 7\n0010,0010 SUBJ7\n");
    let ran = folder.run(&["export", "in", "out", "--root", "1.9", "--study", "study"]);
    assert!(ran.succeeds().out.contains("replaced by \"SUBJ7\", from the study list"), "{}", ran.out);
    assert!(folder.read("out").starts_with(&element(NAME, "PN", "SUBJ7 ")));
    let ran = folder.run(&["export", "in", "out", "--root", "1.9", "--site=study"]);
    assert!(ran.succeeds().out.contains("replaced by \"SUBJ7\", from the site list"), "{}", ran.out);
    assert!(folder.read("out").starts_with(&element(NAME, "PN", "SUBJ7 ")));
}

#[test]
fn options_go_by_name() {
    let folder = Folder::new();
    let date = |text: &str| element(0x0008_0020, "DA", text);
    folder.file("in", date("20200301"));
    folder
        .run(&["export", "in", "out", "--root", "1", "--keep", "modified-dates", "--shift-days", "-1"])
        .succeeds();
    assert!(folder.read("out").starts_with(&date("20200229")));
    folder.run(&["export", "in", "out", "--root", "1", "--keep", "full-dates,patient"]).succeeds();
    assert!(folder.read("out").starts_with(&date("20200301")));
    folder.run(&["export", "in", "out", "--root", "1", "--keep", "patient"]).succeeds();
    assert!(folder.read("out").starts_with(&date("")));
}

#[test]
fn the_summary_tells_what_stays_because_of_the_options() {
    let folder = Folder::new();
    folder.file("in", "");
    let ran = folder.run(&["export", "in", "out", "--root", "1", "--keep", "patient"]);
    assert!(ran.succeeds().out.contains("because of patient, kept: "), "{}", ran.out);
    assert!(ran.out.contains("Ethnic Group"), "{}", ran.out);
    assert!(ran.out.contains("(0010,0010) Patient's Name: emptied"), "{}", ran.out);
    assert!(!ran.out.contains("WARNING"), "{}", ran.out);
    let ran = folder.run(&["export", "in", "out", "--root", "1"]);
    assert!(
        ran.out.contains("nothing beside the basic profile") && !ran.out.contains("because of"),
        "{}",
        ran.out
    );
}

#[test]
fn a_list_that_is_not_used_is_told() {
    let folder = Folder::new();
    folder.file("in", "");
    folder.file("study", "0008,0060 XX\n0008,0082 S\n0008,0020 20200101\n0010,0010 A\n");
    folder.file("site", "0010,0010 B\n");
    let ran = folder.run(&["export", "in", "out", "--root", "1", "--study", "study", "--site", "site"]);
    assert!(ran.succeeds().out.contains("Modality = \"XX\"  NOT USED; what is done: kept"), "{}", ran.out);
    assert!(
        ran.out.contains("= \"B\"  NOT USED: such an element is given \"A\", from the study list"),
        "{}",
        ran.out
    );
    assert!(ran.out.contains("= \"A\"\n"), "{}", ran.out);
    // An attribute with a sequence's name is one, and one with a date's name has a date.
    assert!(ran.out.contains("= \"S\"  NOT USED: no list gives a sequence a value"), "{}", ran.out);
    assert!(ran.out.contains("Study Date = \"20200101\"\n"), "{}", ran.out);
    let dates = ["--study", "study", "--keep", "modified-dates", "--shift-days", "1"];
    let ran = folder.run(&[&["export", "in", "out", "--root", "1"], &dates[..]].concat());
    let says = "Study Date = \"20200101\"  NOT USED; what is done: dates shifted (DA, DT)";
    assert!(ran.succeeds().out.contains(says), "{}", ran.out);
}

#[test]
fn a_refusal_writes_nothing() {
    let folder = Folder::new();
    folder.file("in", [study("1.2.3"), vec![1; 3]].concat());
    folder.file("out", "as it was");
    folder.file("ledger", "");
    let ran = folder.run(&["export", "in", "out", "--root", "1.9", "--ledger", "ledger"]);
    ran.refused(6);
    assert!(ran.err.contains("in: refused, No. 6 at offset 14: the bytes end before"), "{}", ran.err);
    assert_eq!(folder.read("out"), b"as it was");
    assert_eq!(folder.read("ledger"), b"");
    assert_eq!(folder.names(), ["in", "ledger", "out"]);
}

#[test]
fn refused_settings_are_told_before_anything_is_read() {
    let folder = Folder::new();
    let export = |more: &[&str]| folder.run(&[&["export", "not-there", "out"], more].concat());
    export(&["--root", "1.09"]).refused(2);
    export(&["--root", "1", "--keep", "full-dates,modified-dates"]).refused(1);
    export(&["--root", "1", "--shift-days", "3"]).refused(1);
    export(&["--root", "1", "--keep", "modified-dates", "--shift-days", "36501"]).refused(1);
    folder.file("study", "0010,0020 good\n0010,0010 back\\slash\n");
    let ran = export(&["--root", "1", "--study", "study"]);
    assert!(ran.refused(4).err.contains("the study list, study line 2"), "{}", ran.err);
    assert!(ran.err.ends_with(": its value has a backslash\n"), "{}", ran.err);
    folder.file("site", "0010,0010 A\n0010,0010 B\n");
    let ran = export(&["--root", "1", "--site", "site"]);
    assert!(ran.refused(4).err.contains("the site list, site line 2"), "{}", ran.err);
    assert!(ran.err.ends_with(": its tag has a line before it\n"), "{}", ran.err);
    let many: String = (0..257).map(|place| format!("0010,{place:04X} A\n")).collect();
    let long = format!("0010,0010 {}", "A".repeat(65));
    for (text, why) in [
        ("0010,0010 ", "its value is empty"),
        ("0010,0010 \u{e9}", "not printable ASCII"),
        (&long, "longer than 64 characters"),
        (&many, "more than 256 entries"),
    ] {
        folder.file("site", text);
        let ran = export(&["--root", "1", "--site", "site"]);
        assert!(ran.refused(4).err.contains(why), "{}", ran.err);
    }
    folder.file("ledger", (1..=1_025).flat_map(|number| slot(&format!("1.{number}"))).collect::<Vec<u8>>());
    export(&["--root", "1", "--ledger", "ledger"]).refused(3);
    assert_eq!(folder.names(), ["ledger", "site", "study"]);
}

#[test]
fn a_report_for_programs() {
    let folder = Folder::new();
    folder.file("in", [jane(), study("1.2.3")].concat());
    let ran = folder.run(&["export", "in", "out", "--root", "1.9", "--json", "--ledger", "ledger"]);
    let expected = "{\"settings\":{\"root\":\"1.9\",\"keep\":[],\"shift_days\":0,\"study\":null,\"site\":null},\
                    \"because_of\":[],\"ledger\":{\"file\":\"ledger\",\"before\":0,\"after\":1},\"refusal\":null,\"error\":null,\
                    \"exports\":[{\"input\":\"in\",\"output\":\"out\",\"refusal\":null,\"length\":162,\"kept\":0,\
                    \"replaced\":1,\"renamed\":1,\"removed\":0}],\"not_tried\":[]}\n";
    assert_eq!(ran.succeeds().out, expected);
    folder.file("in", vec![0; 8]);
    let ran = folder.run(&["export", "in", "out", "--root", "1.9", "--json"]);
    assert!(
        ran.refused(7).out.contains("\"refusal\":{\"number\":7,\"offset\":0,\"condition\":"),
        "{}",
        ran.out
    );
    assert!(ran.out.contains("\"output\":null"), "{}", ran.out);
    let ran = folder.run(&["export", "in", "out", "--root", "", "--json"]);
    assert!(ran.refused(2).out.contains("\"refusal\":{\"number\":2"), "{}", ran.out);
}

#[test]
fn an_export_that_grows_gets_its_room() {
    let folder = Folder::new();
    // 900 UIDs of one character become 900 of 64.
    let uids = vec!["7"; 900].join("\\") + "\0";
    let sets: Vec<u8> = (0..40).flat_map(|place| element(0x0020_9000 + place, "LO", "")).collect();
    folder.file("in", [element(STUDY, "UI", &uids), sets].concat());
    folder.run(&["export", "in", "out", "--root", &"1".repeat(59)]).succeeds();
    assert_eq!(folder.read("out").len(), MARKERS + 8 + 900 * 61 + 900 + 40 * 8);
}

#[test]
fn the_ledger_is_carried_from_call_to_call() {
    let folder = Folder::new();
    folder.file("one", study("1.2.3"));
    folder.file("two", [element(0x0008_0018, "UI", "1.2.77"), study("1.2.3")].concat());
    folder.run(&["export", "one", "out", "--root", "1.9", "--ledger", "ledger"]).succeeds();
    assert!(folder.read("out").windows(5).any(|part| part == b"1.9.1"));
    assert_eq!(folder.read("ledger"), slot("1.2.3"));
    let ran = folder.run(&["export", "two", "out", "--root", "1.9", "--ledger", "ledger"]);
    assert!(
        ran.succeeds().out.contains("ledger, 1 UIDs known\n") && ran.out.contains("ledger, 2 UIDs known now"),
        "{}",
        ran.out
    );
    assert!(folder.read("out").starts_with(&element(0x0008_0018, "UI", "1.9.2\0")));
    assert_eq!(folder.read("ledger").len(), 128);
}

#[cfg(unix)]
#[test]
fn a_ledger_is_for_its_owner() {
    use std::os::unix::fs::PermissionsExt;
    let folder = Folder::new();
    folder.file("in", study("1.2.3"));
    folder.run(&["export", "in", "out", "--root", "1.9", "--ledger", "ledger"]).succeeds();
    let mode = |name| fs::metadata(folder.path(name)).unwrap().permissions().mode() & 0o777;
    assert_eq!(mode("ledger"), 0o600);
    fs::set_permissions(folder.path("ledger"), fs::Permissions::from_mode(0o640)).unwrap();
    folder.file("in", study("1.2.4"));
    folder.run(&["export", "in", "out", "--root", "1.9", "--ledger", "ledger"]).succeeds();
    assert_eq!(mode("ledger"), 0o640);
}

#[test]
fn output_and_ledger_both_or_neither() {
    let folder = Folder::new();
    folder.file("in", study("1.2.3"));
    // A folder that is not there: the output cannot be written.
    let ran = folder.run(&["export", "in", "none/out", "--root", "1.9", "--ledger", "ledger"]);
    assert_eq!(ran.status, 2);
    assert_eq!(folder.names(), ["in"]);
    // A ledger that cannot be written: no output either.
    let ran = folder.run(&["export", "in", "out", "--root", "1.9", "--ledger", "none/ledger"]);
    assert_eq!(ran.status, 2);
    assert_eq!(folder.names(), ["in"]);
}

#[test]
fn times_are_told_to_be_kept() {
    let folder = Folder::new();
    folder.file("in", "");
    let keep = ["--keep", "modified-dates", "--shift-days", "0"];
    let ran = folder.run(&[&["export", "in", "out", "--root", "1"], &keep[..]].concat());
    let says = "because of modified-dates, dates shifted, times kept as they came: ";
    assert!(ran.succeeds().out.contains(says) && !ran.out.contains("dates shifted: "), "{}", ran.out);
    assert!(ran.out.contains("dates       shifted by 0 days; times are kept as they came\n"), "{}", ran.out);
}

#[test]
fn a_ledger_that_is_not_there_is_not_said_to_be() {
    let folder = Folder::new();
    folder.file("in", "damaged");
    let ran = folder.run(&["export", "in", "out", "--root", "1", "--ledger", "ledger"]);
    assert_eq!(ran.status, 1);
    assert!(ran.out.ends_with("ledger      ledger, not written\n"), "{}", ran.out);
    assert_eq!(folder.names(), ["in"]);
}

#[test]
fn a_list_may_begin_with_a_mark() {
    let folder = Folder::new();
    folder.file("in", jane());
    folder.file("study", "\u{FEFF}0010,0010 SUBJ7\n");
    folder.run(&["export", "in", "out", "--root", "1.9", "--study", "study"]).succeeds();
    assert!(folder.read("out").starts_with(&element(NAME, "PN", "SUBJ7 ")));
}

#[test]
fn a_whole_file_gets_a_hint() {
    let folder = Folder::new();
    folder.file("in", [vec![0; 128], b"DICM".to_vec(), jane()].concat());
    let hint = "in: this looks like a file with a header; only bare data sets are taken";
    for words in [&["export", "in", "out", "--root", "1"][..], &["dump", "in"], &["view", "in", "0010,0010"]]
    {
        let ran = folder.run(words);
        assert!(ran.refused(7).err.contains(hint), "{}", ran.err);
    }
    folder.file("in", vec![0; 200]);
    assert!(!folder.run(&["dump", "in"]).refused(7).err.contains("header; only"));
}
