//! `view` and `dump`.

use crate::support::*;

fn nested() -> Vec<u8> {
    let inner = element(0x0008_1155, "UI", "1.2.77");
    let item = [&[0xFE, 0xFF, 0x00, 0xE0][..], &(inner.len() as u32).to_le_bytes(), &inner].concat();
    let sequence = [b"\x08\0\x40\x11SQ\0\0", &(item.len() as u32).to_le_bytes()[..], &item].concat();
    [element(0x0008_0060, "CS", "MR"), sequence, jane(), element(0x0028_0010, "US", [0, 2])].concat()
}

#[test]
fn view_shows_one_attribute() {
    let folder = Folder::new();
    folder.file("in", nested());
    let view = |words: &[&str]| folder.run(&[&["view", "in"], words].concat());
    assert_eq!(view(&["0010,0010"]).succeeds().out, "(0010,0010) Patient's Name: \"Doe^Jane\"\n");
    assert_eq!(view(&["(0028,0010)"]).succeeds().out, "(0028,0010) Rows: 2 bytes: 00 02\n");
    assert_eq!(view(&["00080018"]).succeeds().out, "(0008,0018) SOP Instance UID: absent\n");
    // An attribute of an item is not one of the top level.
    assert_eq!(view(&["0008,1155"]).succeeds().out, "(0008,1155) Referenced SOP Instance UID: absent\n");
    assert_eq!(view(&["0010,0010", "--raw"]).succeeds().out, "Doe^Jane");
    let json = view(&["0010,0010", "--json"]);
    assert!(
        json.succeeds().out.contains("\"found\":true,\"start\":52,\"length\":8,\"text\":\"Doe^Jane\""),
        "{}",
        json.out
    );
}

#[test]
fn dump_lists_every_element() {
    let folder = Folder::new();
    folder.file("in", nested());
    let ran = folder.run(&["dump", "in"]);
    let lines: Vec<String> = ran
        .succeeds()
        .out
        .lines()
        .map(|line| line.split("   ").next().unwrap().trim_end().to_string())
        .collect();
    assert_eq!(lines[0], "(0008,0060) CS \"MR\"");
    assert_eq!(lines[1], "(0008,1140) SQ");
    assert_eq!(lines[2], "  item 1");
    assert_eq!(lines[3], "  (0008,1155) UI \"1.2.77\"");
    assert_eq!(lines[4], "(0010,0010) PN \"Doe^Jane\"");
    assert_eq!(lines[5], "(0028,0010) US 512");
    assert_eq!(lines.len(), 6);
    assert!(ran.out.contains("Referenced Image Sequence") && ran.out.contains("Patient's Name"));
}

#[test]
fn a_damaged_data_set_is_listed_up_to_its_fault() {
    let folder = Folder::new();
    folder.file("in", [nested(), vec![0; 8]].concat());
    let ran = folder.run(&["dump", "in"]);
    assert!(ran.refused(7).err.contains("at offset 70"), "{}", ran.err);
    assert_eq!(ran.out.lines().count(), 6, "{}", ran.out);
    let ran = folder.run(&["view", "in", "0010,0010"]);
    assert_eq!(ran.refused(7).out, "");
    let json = folder.run(&["view", "in", "0010,0010", "--json"]);
    assert!(json.refused(7).out.contains("\"refusal\":{\"number\":7,\"offset\":70"), "{}", json.out);
}

#[test]
fn a_listing_for_programs() {
    let folder = Folder::new();
    folder.file("in", nested());
    let listed = "{\"depth\":0,\"tag\":\"(0008,0060)\",\"vr\":\"CS\",\"name\":\"Modality\",\"length\":2,\"text\":\"MR\"},\
                  {\"depth\":0,\"tag\":\"(0008,1140)\",\"vr\":\"SQ\",\"name\":\"Referenced Image Sequence\",\
                  \"length\":null,\"text\":null},{\"depth\":1,\"item\":1},{\"depth\":1,\"tag\":\"(0008,1155)\",\
                  \"vr\":\"UI\",\"name\":\"Referenced SOP Instance UID\",\"length\":6,\"text\":\"1.2.77\"},\
                  {\"depth\":0,\"tag\":\"(0010,0010)\",\"vr\":\"PN\",\"name\":\"Patient's Name\",\"length\":8,\
                  \"text\":\"Doe^Jane\"},{\"depth\":0,\"tag\":\"(0028,0010)\",\"vr\":\"US\",\"name\":\"Rows\",\
                  \"length\":2,\"text\":null}]}\n";
    let report = format!("{{\"input\":\"in\",\"refusal\":null,\"error\":null,\"elements\":[{listed}");
    assert_eq!(folder.run(&["dump", "in", "--json"]).succeeds().out, report);
    folder.file("in", [nested(), vec![0; 8]].concat());
    let ran = folder.run(&["dump", "--json", "in"]);
    assert!(ran.refused(7).out.contains("\"refusal\":{\"number\":7,\"offset\":70,"), "{}", ran.out);
    assert!(ran.out.ends_with(listed), "listed up to the fault: {}", ran.out);
}

#[test]
fn an_empty_data_set_has_no_lines() {
    let folder = Folder::new();
    folder.file("in", "");
    assert_eq!(folder.run(&["dump", "in"]).succeeds().out, "");
}
