//! Document 01's sample exports.

use super::*;
use crate::export::entry;

/// Doe^Jane, as document 01 spells it.
const JANE: [u8; 16] =
    [0x10, 0x00, 0x10, 0x00, 0x50, 0x4E, 0x08, 0x00, 0x44, 0x6F, 0x65, 0x5E, 0x4A, 0x61, 0x6E, 0x65];
/// Its export, byte for byte, but for the 41 characters of the meaning.
const FRONT: [u8; 72] = [
    0x10, 0x00, 0x10, 0x00, 0x50, 0x4E, 0x00, 0x00, //
    0x12, 0x00, 0x62, 0x00, 0x43, 0x53, 0x04, 0x00, 0x59, 0x45, 0x53, 0x20, //
    0x12, 0x00, 0x64, 0x00, 0x53, 0x51, 0x00, 0x00, 0xFF, 0xFF, 0xFF, 0xFF, //
    0xFE, 0xFF, 0x00, 0xE0, 0xFF, 0xFF, 0xFF, 0xFF, //
    0x08, 0x00, 0x00, 0x01, 0x53, 0x48, 0x06, 0x00, 0x31, 0x31, 0x33, 0x31, 0x30, 0x30, //
    0x08, 0x00, 0x02, 0x01, 0x53, 0x48, 0x04, 0x00, 0x44, 0x43, 0x4D, 0x20, //
    0x08, 0x00, 0x04, 0x01, 0x4C, 0x4F,
];
const BACK: [u8; 32] = [
    0xFE, 0xFF, 0x0D, 0xE0, 0x00, 0x00, 0x00, 0x00, //
    0xFE, 0xFF, 0xDD, 0xE0, 0x00, 0x00, 0x00, 0x00, //
    0x28, 0x00, 0x03, 0x03, 0x43, 0x53, 0x08, 0x00, 0x52, 0x45, 0x4D, 0x4F, 0x56, 0x45, 0x44, 0x20,
];

/// The list of document 01: (0010,0010) "SUBJ7".
const SUBJ7: [u8; 9] = [0x90, 0x80, 0x40, 0x05, 0x53, 0x55, 0x42, 0x4A, 0x37];

pub fn all() -> Vec<Edge> {
    let jane = |name| Edge::new(name, &[JANE.to_vec()]);
    let study_and_series = |name, one: &str, other: &str| {
        Edge::new(name, &[uids(STUDY, one), uids(SERIES_UID, other)]).root("1.9")
    };
    let dated = |name, date: &str| Edge::new(name, &[element(STUDY_DATE, "DA", date)]);
    let to = |date: &str| [element(STUDY_DATE, "DA", date)];
    let many = |count| uids(STUDY, &vec!["1"; count].join("\\"));
    let ethnic = || element(0x0010_2160, "SH", "NONE");
    let mut edges = vec![
        Edge::new("sample: empty input", &[]).room(140),
        Edge::new("sample: empty input, no room", &[]).room(139).refused(14, 0),
        jane("sample: Doe^Jane").writes(&[element(NAME, "PN", "")], [0, 1, 0, 0]).room(148),
        jane("sample: Doe^Jane, room 147").room(147).refused(14, 0),
        jane("sample: Doe^Jane, more room").writes(&[element(NAME, "PN", "")], [0, 1, 0, 0]).room(149),
        jane("sample: Doe^Jane with the study's list")
            .study(SUBJ7.into())
            .writes(&[element(NAME, "PN", "SUBJ7 ")], [0, 1, 0, 0])
            .room(154),
        jane("sample: Doe^Jane with the site's list")
            .site(entry(NAME, "SUBJ7"))
            .writes(&[element(NAME, "PN", "SUBJ7 ")], [0, 1, 0, 0]),
        study_and_series("sample: equal UIDs", "1.2.3", "1.2.3")
            .writes(&[uids(STUDY, "1.9.1"), uids(SERIES_UID, "1.9.1")], [0, 0, 2, 0])
            .enters(&["1.2.3"]),
        study_and_series("sample: different UIDs", "1.2.3", "1.2.4")
            .writes(&[uids(STUDY, "1.9.1"), uids(SERIES_UID, "1.9.2")], [0, 0, 2, 0])
            .enters(&["1.2.3", "1.2.4"]),
        dated("sample: 20200301 by -1", "20200301").shift(-1).writes(&to("20200229"), [0, 1, 0, 0]),
        dated("sample: 20190301 by -1", "20190301").shift(-1).writes(&to("20190228"), [0, 1, 0, 0]),
        dated("sample: 20240131 by 30", "20240131").shift(30).writes(&to("20240301"), [0, 1, 0, 0]),
        dated("sample: 00010101 by -1", "00010101").shift(-1).refused(12, 0),
        Edge::new("sample: root of 59", &[]).root([b'1'; 59]),
        Edge::new("sample: root of 60", &[]).root([b'1'; 60]).refused(2, 0),
        Edge::new("sample: private", &[element(PRIVATE, "LO", "SECRET")]).writes(&[], [0, 0, 0, 1]),
        Edge::new("sample: ethnic group", &[ethnic()]).writes(&[], [0, 0, 0, 1]),
        Edge::new("sample: ethnic group, patient", &[ethnic()]).options(4).writes(&[ethnic()], [1, 0, 0, 0]),
        Edge::new("sample: eight deep", &[nest(8, SERIES, vec![])])
            .writes(&[undefined_nest(8, SERIES, vec![])], [8, 0, 0, 0]),
        Edge::new("sample: nine deep", &[nest(9, SERIES, vec![])]).refused(10, 172),
        Edge::new("sample: 1,000 UIDs", &[many(1_000)])
            .writes(&[uids(STUDY, &vec!["1.9.1"; 1_000].join("\\"))], [0, 0, 1, 0])
            .enters(&["1"])
            .room(9_000),
        Edge::new("sample: 1,001 UIDs", &[many(1_001)]).refused(11, 0).room(9_000),
    ];
    let whole = [&FRONT[..], &[0x2A, 0x00], b"Basic Application Confidentiality Profile ", &BACK].concat();
    assert_eq!(whole.len(), 148);
    let outcome = Expected::Done { export: whole, counts: [0, 1, 0, 0], new: Vec::new() };
    edges.push(Edge { outcome, ..jane("sample: Doe^Jane, in bytes") });
    edges
}
