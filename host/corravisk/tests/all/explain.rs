//! `explain`.

use crate::support::*;

fn line(out: &str, tag: &str) -> String {
    let line = out.lines().find(|line| line.get(2..).is_some_and(|line| line.starts_with(tag)));
    line.unwrap_or_else(|| panic!("no line for {tag} in {out}")).to_string()
}

#[test]
fn every_row_is_told() {
    let ran = Folder::new().run(&["explain"]);
    let rows = ran.succeeds().out.lines().filter(|line| line.starts_with("  (") || line.starts_with("* ("));
    assert_eq!(rows.count(), 604 + 3 + 5);
    assert!(line(&ran.out, "(0010,0010)").ends_with("emptied"));
    assert!(line(&ran.out, "(0010,2160)").ends_with("removed"));
    assert!(line(&ran.out, "private").ends_with("removed"));
    assert!(line(&ran.out, "any other").contains("kept"));
    for written_anew in ["(0012,0062)", "(0012,0063)", "(0012,0064)", "(0028,0303)"] {
        assert!(line(&ran.out, written_anew).ends_with("removed"));
    }
    for barred in ["(0000,1000)", "(0000,1001)", "(0002,0003)", "(0004,1511)"] {
        assert!(line(&ran.out, barred).contains("  refused (No. 7)"));
    }
    assert!(!ran.out.contains('*'), "nothing is changed without settings");
}

#[test]
fn rows_that_settings_change_are_marked() {
    let folder = Folder::new();
    folder.file("study", "0010,0010 SUBJ7\n0008,0082 S\n");
    let keep = ["--keep", "patient,modified-dates", "--shift-days", "0"];
    let ran = folder.run(&[&["explain", "--study", "study"], &keep[..]].concat());
    let ethnic = line(&ran.succeeds().out, "(0010,2160)");
    assert!(
        ethnic.starts_with('*') && ethnic.contains("kept") && ethnic.contains("[without --keep: removed]"),
        "{ethnic}"
    );
    assert!(line(&ran.out, "(0008,0020)").contains("dates shifted"));
    assert!(line(&ran.out, "(0010,0010)").contains("   study list: \"SUBJ7\""));
    assert!(!line(&ran.out, "(0008,0082)").contains("list: "));
    assert!(line(&ran.out, "(0010,0010)").starts_with(' '));
}

#[test]
fn settings_that_do_not_go_together_are_refused() {
    let folder = Folder::new();
    folder.run(&["explain", "--keep", "full-dates,modified-dates"]).refused(1);
    folder.file("list", "0010,0010 \n");
    assert!(folder.run(&["explain", "--site", "list"]).refused(4).err.contains("list line 1"));
    // A list is at fault for No. 4 alone.
    let ran = folder.run(&["explain", "--site", "list", "--shift-days", "3", "--json"]);
    assert!(ran.refused(1).err.contains("the settings: refused, No. 1"), "{}", ran.err);
    assert!(ran.out.contains("\"refusal\":{\"number\":1,"), "{}", ran.out);
}

#[test]
fn a_report_for_programs() {
    let ran = Folder::new().run(&["explain", "--json", "--keep", "patient"]);
    let row = "{\"tag\":\"(0010,2160)\",\"name\":\"Ethnic Group\",\"action\":\"kept; SQ: walked into\",\
               \"without_keep\":\"removed\",\"list\":null,\"value\":null}";
    assert!(ran.succeeds().out.contains(row), "{}", ran.out);
}
