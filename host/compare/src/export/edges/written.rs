//! Which action an element gets, and what it writes: the readings A and W.

use super::*;
use crate::export::entry;

const PATIENT: u64 = 4;
const DEVICE: u64 = 8;
const UIDS: u64 = 16;
const INSTITUTION: u64 = 32;

/// One element and what takes its place.
fn one(name: &'static str, from: Bytes, to: Option<Bytes>, counts: [u64; 4]) -> Edge {
    Edge::new(name, &[from]).writes(to.as_slice(), counts)
}

const KEPT: [u64; 4] = [1, 0, 0, 0];
const REPLACED: [u64; 4] = [0, 1, 0, 0];
const RENAMED: [u64; 4] = [0, 0, 1, 0];
const REMOVED: [u64; 4] = [0, 0, 0, 1];

/// An element with options, and what takes its place under them.
fn under(name: &'static str, options: u64, from: Bytes, to: Option<Bytes>, counts: [u64; 4]) -> Edge {
    Edge::new(name, &[from]).options(options).writes(to.as_slice(), counts)
}

pub fn all() -> Vec<Edge> {
    [actions(), by_option(), sequences(), dummies()].into_iter().flatten().collect()
}

fn actions() -> Vec<Edge> {
    let ow = || element(PIXELS, "OW", [7; 6]);
    let overlay = |element_number: u32| element(0x6002_0000 | element_number, "OW", [1, 2]);
    let markers = [
        element(0x0012_0062, "CS", "NO"),
        element(0x0012_0063, "LO", "by hand "),
        sequence(0x0012_0064, &[item(&[])]),
        element(0x0028_0303, "CS", "MODIFIED"),
    ];
    let in_item = undefined_sequence(SERIES, &[undefined_item(&markers)]);
    let kept_in_item = undefined_sequence(
        SERIES,
        &[undefined_item(&[
            markers[0].clone(),
            markers[1].clone(),
            undefined_sequence(0x0012_0064, &[undefined_item(&[])]),
            markers[3].clone(),
        ])],
    );
    vec![
        one("no row", ow(), Some(ow()), KEPT),
        one("A2 curve", element(0x5002_0010, "US", [0; 2]), None, REMOVED),
        one(
            "A2 past the curves",
            element(0x5100_0010, "US", [0; 2]),
            Some(element(0x5100_0010, "US", [0; 2])),
            KEPT,
        ),
        one("A2 overlay data", overlay(0x3000), None, REMOVED),
        one("A2 overlay comments", overlay(0x4000), None, REMOVED),
        one("A2 other overlay element", overlay(0x0010), Some(overlay(0x0010)), KEPT),
        one("A2 odd overlay group", element(0x6003_0010, "OW", [1, 2]), None, REMOVED),
        one("A3 group length", element(FIRST_TAG, "UL", [9; 4]), None, REMOVED),
        one("A3 group length as SQ", nest(2, 0x0020_0000, vec![]), None, REMOVED),
        one(
            "A3 group length in an item",
            sequence(SERIES, &[item(&[element(FIRST_TAG, "UL", [9; 4])])]),
            Some(undefined_sequence(SERIES, &[undefined_item(&[])])),
            [1, 0, 0, 1],
        ),
        Edge::new("A4 A5 the markers at the top", &markers).writes(&[], [0, 0, 0, 4]),
        one("A4 the markers in an item", in_item, Some(kept_in_item), [5, 0, 0, 0]),
        one("A12 a name as SQ", nest(1, NAME, vec![]), Some(head(NAME, "SQ", 0)), REPLACED),
        Edge::new("A12 W9 images as LO", &[element(IMAGES, "LO", "")]).refused(11, 0),
        Edge::new("W9 a UID as LO, empty", &[element(MODALITY, "CS", "MR"), element(STUDY, "LO", "")])
            .refused(11, 10),
        one("W1 Z on a UI", element(ACCESSION, "UI", "bad!"), Some(element(ACCESSION, "UI", "")), REPLACED),
        one("W5 D on a UI", uids(ANNOTATION_UID, "1.2"), Some(uids(ANNOTATION_UID, "1.9.1")), RENAMED)
            .enters(&["1.2"]),
        one("W5 D on an empty UI", uids(ANNOTATION_UID, ""), Some(uids(ANNOTATION_UID, "")), RENAMED),
        Edge::new("W5 D on a bad UI", &[element(ANNOTATION_UID, "UI", "1..2")]).refused(11, 0),
        one("W19 U on an empty UI", uids(STUDY, ""), Some(uids(STUDY, "")), RENAMED),
        one(
            "U5 K on a bad UI",
            element(0x0008_1150, "UI", "bad!"),
            Some(element(0x0008_1150, "UI", "bad!")),
            KEPT,
        ),
        one(
            "W12 the study's value wins",
            element(NAME, "PN", "Doe "),
            Some(text(NAME, "PN", "STUDY")),
            REPLACED,
        )
        .study(entry(NAME, "STUDY"))
        .site(entry(NAME, "SITE")),
        one(
            "W11 Z on a VR that lists do not serve",
            element(NAME, "US", [1, 1]),
            Some(element(NAME, "US", "")),
            REPLACED,
        )
        .study(entry(NAME, "STUDY")),
        one("W10 no list for K", element(MODALITY, "CS", "MR"), Some(element(MODALITY, "CS", "MR")), KEPT)
            .study(entry(MODALITY, "XX")),
        one("W10 no list for X", element(PRIVATE, "LO", "AB"), None, REMOVED).study(entry(PRIVATE, "XX")),
        one(
            "W10 a list's value in an item",
            sequence(SERIES, &[item(&[element(NAME, "PN", "Doe^Jane")])]),
            Some(undefined_sequence(SERIES, &[undefined_item(&[text(NAME, "PN", "S")])])),
            [1, 1, 0, 0],
        )
        .site(entry(NAME, "S")),
    ]
}

/// Readings A6 to A10 and W6 to W8: option columns.
fn by_option() -> Vec<Edge> {
    let ae = || element(0x0008_0055, "AE", "MYSTATION ");
    let anon = |tag, vr| Some(element(tag, vr, "ANON"));
    let calibration = |date: &str| element(0x0018_1200, "DA", date);
    let allergies = |vr, value: &str| element(0x0010_2110, vr, value);
    let zone = || element(0x0008_0201, "SH", "+0100 ");
    let same = |element: &Bytes| Some(element.clone());
    let uid = uids(STUDY, "1.2.3");
    let date = element(STUDY_DATE, "DA", "20200301");
    let bad_date = element(STUDY_DATE, "DA", "20201301");
    let time = element(STUDY_TIME, "TM", "any time");
    let institution = element(0x0008_0080, "LO", "Hospital");
    vec![
        under("A6 K over U", UIDS, uid.clone(), same(&uid), KEPT),
        under("A6 K over Z", 1, date.clone(), same(&date), KEPT),
        under("D7 Full Dates judges no date", 1, bad_date.clone(), same(&bad_date), KEPT),
        under("institution", INSTITUTION, institution.clone(), same(&institution), KEPT),
        under(
            "A7 patient's C is no date's",
            PATIENT | 2,
            allergies("DA", "20200301"),
            Some(allergies("DA", "19000101")),
            REPLACED,
        ),
        under(
            "A7 patient's C on TM",
            PATIENT | 2,
            allergies("TM", "12"),
            Some(allergies("TM", "000000")),
            REPLACED,
        ),
        under("W6 C on a UI", PATIENT, uids(0x0010_2110, "1.2"), Some(uids(0x0010_2110, "1.9.1")), RENAMED)
            .enters(&["1.2"]),
        Edge::new("W6 C on a bad UI", &[allergies("UI", "bad!")]).options(PATIENT).refused(11, 0),
        under("A8 K by Device alone", DEVICE, calibration("20209999"), Some(calibration("20209999")), KEPT),
        under(
            "A8 K by Device, C by dates",
            DEVICE | 2,
            calibration("20200301"),
            Some(calibration("20200302")),
            REPLACED,
        )
        .shift(1),
        Edge::new("A8 C wins, so the date is judged", &[calibration("20209999")])
            .options(DEVICE | 2)
            .refused(12, 0),
        under("A10 C by Device on an AE", DEVICE, ae(), anon(0x0008_0055, "AE"), REPLACED),
        under(
            "A16 printed twice",
            DEVICE,
            element(0x0040_0241, "AE", "A "),
            anon(0x0040_0241, "AE"),
            REPLACED,
        ),
        under("W7 SH in the dates' column", 2, zone(), anon(0x0008_0201, "SH"), REPLACED),
        under("W7 with a list", 2, zone(), Some(text(0x0008_0201, "SH", "+0")), REPLACED)
            .study(entry(0x0008_0201, "+0")),
        under("W8 TM in the dates' column", 2, time.clone(), same(&time), KEPT),
        under("W10 shifted dates ask no list", 2, date.clone(), same(&date), REPLACED)
            .study(entry(STUDY_DATE, "18000101")),
        under(
            "D8 no row, so not shifted",
            2,
            element(0x0008_0001, "DA", "no day"),
            Some(element(0x0008_0001, "DA", "no day")),
            KEPT,
        ),
        under(
            "D8 birth date",
            2,
            element(BIRTH_DATE, "DA", "no day"),
            Some(element(BIRTH_DATE, "DA", "")),
            REPLACED,
        ),
        under("all options but Full Dates", 62, vec![], None, [0; 4]),
        under("all options but Modified Dates", 61, vec![], None, [0; 4]),
    ]
}

/// Sequences: walked into, emptied, or one empty item.
fn sequences() -> Vec<Edge> {
    let jane = || element(NAME, "PN", "Doe^Jane");
    let walked = |tag, items: &[Bytes]| Some(undefined_sequence(tag, items));
    let one_item = |tag| walked(tag, &[undefined_item(&[])]);
    let emptied = || element(NAME, "PN", "");
    vec![
        one(
            "K walks in",
            sequence(SERIES, &[item(&[jane()])]),
            walked(SERIES, &[undefined_item(&[emptied()])]),
            [1, 1, 0, 0],
        ),
        one(
            "A14 U walks in",
            sequence(IMAGES, &[item(&[jane()])]),
            walked(IMAGES, &[undefined_item(&[emptied()])]),
            [1, 1, 0, 0],
        ),
        one("W14 no items", undefined_sequence(SERIES, &[]), Some(head(SERIES, "SQ", 0)), KEPT),
        one(
            "W14 K6 items stay, empty",
            sequence(SERIES, &[item(&[element(PRIVATE, "LO", "")]), item(&[])]),
            walked(SERIES, &[undefined_item(&[]), undefined_item(&[])]),
            [1, 0, 0, 1],
        ),
        one("W2 Z on an SQ", undefined_nest(2, ACCESSION, jane()), Some(head(ACCESSION, "SQ", 0)), REPLACED),
        one(
            "W3 D on an SQ",
            sequence(CONTENT, &[item(&[uids(STUDY, "1.2")]), item(&[])]),
            one_item(CONTENT),
            REPLACED,
        ),
        one("W3 D on an SQ without items", sequence(CONTENT, &[]), one_item(CONTENT), REPLACED),
        one(
            "R5 a bad UID under D",
            nest(1, CONTENT, element(STUDY, "UI", "bad!")),
            one_item(CONTENT),
            REPLACED,
        ),
        one("X on an SQ", nest(1, ADMITTING_DIAGNOSES, element(STUDY, "UI", "bad!")), None, REMOVED),
        one(
            "W4 D eight deep writes nine deep",
            nest(8, SERIES, sequence(CONTENT, &[])),
            walked(SERIES, &[undefined_item(&[undefined_nest(7, SERIES, one_item(CONTENT).unwrap())])]),
            [8, 1, 0, 0],
        ),
        one(
            "A13 a sequence sent as UN",
            element(SERIES, "UN", item(&[jane()])),
            Some(element(SERIES, "UN", item(&[jane()]))),
            KEPT,
        ),
    ]
}

/// The dummy of every VR, on a tag with D.
fn dummies() -> Vec<Edge> {
    let dummy = |vr: &str| -> Bytes {
        match vr {
            "AS" => b"000Y".into(),
            "DA" => b"19000101".into(),
            "DT" => b"19000101000000".into(),
            "TM" => b"000000".into(),
            "DS" | "IS" => b"0 ".into(),
            "OB" | "OW" | "UN" | "US" | "SS" => vec![0; 2],
            "AT" | "FL" | "OF" | "OL" | "SL" | "UL" => vec![0; 4],
            "FD" | "OD" | "OV" | "SV" | "UV" => vec![0; 8],
            _ => b"ANON".into(),
        }
    };
    let vrs = SHORT_VRS.into_iter().chain(LONG_VRS).filter(|vr| *vr != "UI");
    vrs.map(|vr| {
        let old = element(FIELD_OF_VIEW_LABEL, vr, [9; 10]);
        one(vr, old, Some(element(FIELD_OF_VIEW_LABEL, vr, dummy(vr))), REPLACED)
    })
    .collect()
}
