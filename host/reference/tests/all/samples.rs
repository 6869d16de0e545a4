//! The sample exports of document 01.

use crate::pieces::*;
use crate::station::{PATIENT, Station};

/// "Doe^Jane", as document 01 spells it.
const JANE: [u8; 16] =
    [0x10, 0x00, 0x10, 0x00, 0x50, 0x4E, 0x08, 0x00, 0x44, 0x6F, 0x65, 0x5E, 0x4A, 0x61, 0x6E, 0x65];

/// The list of document 01: "SUBJ7" for (0010,0010).
const SUBJ7: [u8; 9] = [0x90, 0x80, 0x40, 0x05, 0x53, 0x55, 0x42, 0x4A, 0x37];

/// What document 01 prints of the export after the patient's name.
fn printed_markers() -> Bytes {
    let mut bytes = Bytes::new();
    bytes.extend([0x12, 0x00, 0x62, 0x00, 0x43, 0x53, 0x04, 0x00, 0x59, 0x45, 0x53, 0x20]);
    bytes.extend([0x12, 0x00, 0x64, 0x00, 0x53, 0x51, 0x00, 0x00, 0xFF, 0xFF, 0xFF, 0xFF]);
    bytes.extend([0xFE, 0xFF, 0x00, 0xE0, 0xFF, 0xFF, 0xFF, 0xFF]);
    bytes.extend([0x08, 0x00, 0x00, 0x01, 0x53, 0x48, 0x06, 0x00, 0x31, 0x31, 0x33, 0x31, 0x30, 0x30]);
    bytes.extend([0x08, 0x00, 0x02, 0x01, 0x53, 0x48, 0x04, 0x00, 0x44, 0x43, 0x4D, 0x20]);
    bytes.extend([0x08, 0x00, 0x04, 0x01, 0x4C, 0x4F, 0x2A, 0x00]);
    bytes.extend(b"Basic Application Confidentiality Profile ");
    bytes.extend([0xFE, 0xFF, 0x0D, 0xE0, 0x00, 0x00, 0x00, 0x00]);
    bytes.extend([0xFE, 0xFF, 0xDD, 0xE0, 0x00, 0x00, 0x00, 0x00]);
    bytes.extend([0x28, 0x00, 0x03, 0x03, 0x43, 0x53, 0x08, 0x00]);
    bytes.extend([0x52, 0x45, 0x4D, 0x4F, 0x56, 0x45, 0x44, 0x20]);
    bytes
}

#[test]
fn empty_input_gives_140_bytes_of_markers() {
    let outcome = Station::default().run(&[]);
    assert_eq!(outcome.report.refusal, 0);
    assert_eq!(outcome.report.length, 140);
    assert_eq!(outcome.export(), printed_markers());
    assert_eq!(outcome.counts(), [0, 0, 0, 0]);
    assert_eq!(outcome.report.used, 0);
}

#[test]
fn a_name_is_emptied_in_148_bytes() {
    let outcome = Station::default().run(&JANE);
    let mut expected = vec![0x10, 0x00, 0x10, 0x00, 0x50, 0x4E, 0x00, 0x00];
    expected.extend(printed_markers());
    assert_eq!(outcome.report.length, 148);
    assert_eq!(outcome.export(), expected);
    assert_eq!(outcome.counts(), [0, 1, 0, 0]);
}

#[test]
fn the_same_with_room_for_147_bytes_is_refused_with_14() {
    let station = Station { room: Some(147), ..Station::default() };
    station.expect_refusal(&[JANE.to_vec()], 14, 0);
    let station = Station { room: Some(148), ..Station::default() };
    assert_eq!(station.run(&JANE).report.length, 148);
}

#[test]
fn the_same_with_the_list_gives_154_bytes() {
    let station = Station { study: SUBJ7.to_vec(), ..Station::default() };
    let outcome = station.run(&JANE);
    let mut expected = vec![0x10, 0x00, 0x10, 0x00, 0x50, 0x4E, 0x06, 0x00];
    expected.extend(b"SUBJ7 ");
    expected.extend(printed_markers());
    assert_eq!(outcome.report.length, 154);
    assert_eq!(outcome.export(), expected);
    assert_eq!(outcome.counts(), [0, 1, 0, 0]);
}

#[test]
fn equal_uids_get_one_new_uid_and_one_slot() {
    let data = [element(STUDY_INSTANCE_UID, "UI", "1.2.3\0"), element(SERIES_INSTANCE_UID, "UI", "1.2.3\0")];
    let renamed =
        [element(STUDY_INSTANCE_UID, "UI", "1.9.1\0"), element(SERIES_INSTANCE_UID, "UI", "1.9.1\0")];
    let outcome = Station::default().expect_export(&data, &renamed);
    assert_eq!(outcome.slots(), [slot("1.2.3")]);
    assert_eq!(outcome.counts(), [0, 0, 2, 0]);
}

#[test]
fn different_uids_get_two_new_uids() {
    let data = [element(STUDY_INSTANCE_UID, "UI", "1.2.3\0"), element(SERIES_INSTANCE_UID, "UI", "1.2.4\0")];
    let renamed =
        [element(STUDY_INSTANCE_UID, "UI", "1.9.1\0"), element(SERIES_INSTANCE_UID, "UI", "1.9.2\0")];
    let outcome = Station::default().expect_export(&data, &renamed);
    assert_eq!(outcome.slots(), [slot("1.2.3"), slot("1.2.4")]);
}

#[test]
fn dates_move_by_the_gregorian_calendar() {
    for (old, days, new) in
        [("20200301", -1, "20200229"), ("20190301", -1, "20190228"), ("20240131", 30, "20240301")]
    {
        let outcome = Station::shifting(days)
            .expect_export(&[element(STUDY_DATE, "DA", old)], &[element(STUDY_DATE, "DA", new)]);
        assert_eq!(outcome.counts(), [0, 1, 0, 0]);
    }
}

#[test]
fn the_first_day_moved_back_is_refused_with_12() {
    Station::shifting(-1).expect_refusal(&[element(STUDY_DATE, "DA", "00010101")], 12, 0);
}

#[test]
fn a_root_of_59_characters_is_accepted_and_of_60_refused_with_2() {
    let root = |length| Station { root: vec![b'7'; length], ..Station::default() };
    assert_eq!(root(59).run(&[]).report.refusal, 0);
    root(60).expect_refusal(&[], 2, 0);
}

#[test]
fn a_private_element_is_removed() {
    let outcome = Station::default().expect_export(&[element(PRIVATE, "LO", "ACME")], &[]);
    assert_eq!(outcome.counts(), [0, 0, 0, 1]);
}

#[test]
fn ethnic_group_is_kept_with_patient_characteristics_alone() {
    let data = [element(0x0010_2160, "SH", "Martian ")];
    let kept = Station::with(PATIENT).expect_export(&data, &data);
    assert_eq!(kept.counts(), [1, 0, 0, 0]);
    let removed = Station::default().expect_export(&data, &[]);
    assert_eq!(removed.counts(), [0, 0, 0, 1]);
}

#[test]
fn items_8_deep_are_accepted_and_9_deep_refused_with_10() {
    let kept = element(MODALITY, "CS", "MR");
    let outcome =
        Station::default().expect_export(&[nest(8, kept.clone())], &[undefined_nest(8, kept.clone())]);
    assert_eq!(outcome.counts(), [9, 0, 0, 0]);
    Station::default().expect_refusal(&[nest(9, kept)], 10, 172);
}

#[test]
fn a_thousand_uids_are_accepted_and_1001_refused_with_11() {
    let uids = |count| {
        let mut value = vec!["1.2"; count].join("\\");
        if value.len() % 2 == 1 {
            value.push('\0');
        }
        element(STUDY_INSTANCE_UID, "UI", value)
    };
    let mut new_uids = vec!["1.9.1"; 1_000].join("\\");
    new_uids.push('\0');
    Station::default().expect_export(&[uids(1_000)], &[element(STUDY_INSTANCE_UID, "UI", new_uids)]);
    Station::default().expect_refusal(&[uids(1_001)], 11, 0);
}
