//! The readings U: UIDs and the ledger.

use crate::pieces::*;
use crate::station::*;

fn ui(value: impl AsRef<[u8]>) -> Bytes {
    element(SOP_INSTANCE_UID, "UI", value)
}

/// A UI whose value is padded as it must be.
fn padded_ui(tag: u32, value: &str) -> Bytes {
    let padding = if value.len() % 2 == 1 { "\0" } else { "" };
    element(tag, "UI", format!("{value}{padding}"))
}

#[track_caller]
fn renamed(old: &str, new: &str) {
    Station::default()
        .expect_export(&[padded_ui(SOP_INSTANCE_UID, old)], &[padded_ui(SOP_INSTANCE_UID, new)]);
}

#[test]
fn u1_one_zero_byte_at_the_end_is_padding() {
    renamed("1.2.3", "1.9.1");
    renamed("1.23", "1.9.1");
    renamed("1.2\\1.3", "1.9.1\\1.9.2");
    renamed("1.2\\1.34", "1.9.1\\1.9.2");
}

#[test]
fn u1_any_other_padding_or_empty_part_is_11() {
    let broken = [
        "1.2\0\0\0",
        "\0\0",
        "1.2.3 ",
        " 1.2.3",
        "1.\x003",
        "\x001.2",
        "1.2\\",
        "1.23\\\0",
        "\\1.2.3",
        "\\1.2",
        "1.2\\\\1.3",
        "\\\\",
        "\\\0",
        "1.2.3\n",
        "  ",
    ];
    for value in broken {
        let data = [element(CHARACTER_SET, "CS", ""), ui(value)];
        Station::default().expect_refusal(&data, 11, 8);
    }
}

#[test]
fn u1_a_part_in_the_middle_may_not_be_padded() {
    Station::default().expect_refusal(&[ui("1.2\0\\1.3")], 11, 0);
}

#[test]
fn u2_equal_uids_count_each_time() {
    let value = |count| padded_ui(SOP_INSTANCE_UID, &vec!["1"; count].join("\\"));
    assert_eq!(Station::default().run(&value(1_000)).report.used, 1);
    Station::default().expect_refusal(&[value(1_001)], 11, 0);
}

#[test]
fn u3_which_texts_are_uids() {
    for uid in ["1", "0", "0.0.0", "1.0", "2.999", "10.20.30"] {
        renamed(uid, "1.9.1");
    }
    for text in ["00", "01", "1.00", "1.01", "1..2", ".1", "1.", "1.a\0", "1,2\0", "+1", "-1", "\u{661}"] {
        Station::default().expect_refusal(&[ui(text)], 11, 0);
    }
}

#[test]
fn u3_a_root_may_have_one_component() {
    let station = Station { root: b"7".to_vec(), ..Station::default() };
    station.expect_export(&[ui("1.2.3\0")], &[ui("7.1\0")]);
}

#[test]
fn u4_a_uid_of_64_characters_is_accepted_and_of_65_is_not() {
    let outcome = Station::default().expect_export(&[ui([b'1'; 64])], &[ui("1.9.1\0")]);
    assert_eq!(outcome.slots(), [vec![b'1'; 64]]);
    Station::default().expect_refusal(&[padded_ui(SOP_INSTANCE_UID, &"1".repeat(65))], 11, 0);
}

#[test]
fn u5_k_x_and_z_do_not_judge_a_ui() {
    let bad = "bad!";
    let outcome = Station::default().expect_export(
        &[element(MODALITY, "UI", bad), element(PRIVATE, "UI", bad), element(PATIENT_NAME, "UI", bad)],
        &[element(MODALITY, "UI", bad), element(PATIENT_NAME, "UI", "")],
    );
    assert_eq!(outcome.counts(), [1, 1, 0, 1]);
    Station::with(RETAIN_UIDS).expect_export(&[ui(bad)], &[ui(bad)]);
}

#[test]
fn u6_a_slot_is_equal_to_a_uid_only_with_nothing_but_zeros_behind_it() {
    let mut garbage = slot("1.2.3");
    garbage[6] = b'x';
    let mut far_garbage = slot("1.2.3");
    far_garbage[63] = 1;
    let station = Station::with_ledger(&[garbage.clone(), far_garbage.clone(), slot("1.2.33"), slot("")], 3);
    let outcome = station.expect_export(&[ui("1.2.3\0")], &[ui("1.9.4\0")]);
    assert_eq!(outcome.slots(), [garbage, far_garbage, slot("1.2.33"), slot("1.2.3")]);
}

#[test]
fn u6_slots_in_use_are_not_judged() {
    let full = vec![0xFF; 64];
    let station = Station::with_ledger(&[slot(""), full.clone(), slot("no uid"), slot("")], 3);
    let outcome = station.expect_export(&[ui("1.2.3\0")], &[ui("1.9.4\0")]);
    assert_eq!(outcome.slots(), [slot(""), full, slot("no uid"), slot("1.2.3")]);
}

#[test]
fn u7_of_equal_slots_the_first_counts() {
    let station = Station::with_ledger(&[slot("1.1"), slot("1.2"), slot("1.2"), slot("1.1")], 4);
    let outcome = station.expect_export(&[ui("1.2\\1.1\0")], &[ui("1.9.2\\1.9.1\0")]);
    assert_eq!(outcome.report.used, 4);
}

#[test]
fn u8_slots_past_the_count_are_not_searched() {
    // The harness would dirty them, so the ledger is handed over here.
    let mut ledger = [slot("1.1"), slot("1.2"), slot("1.3")].concat();
    let mut out = vec![0; 1_000];
    let data = ui("1.3\0");
    let report = reference::deidentify(&data, 0, 0, b"1.9", b"", b"", &mut ledger, 1, &mut out);
    assert_eq!((report.refusal, report.used), (0, 2));
    assert_eq!(ledger, [slot("1.1"), slot("1.3"), slot("")].concat());
    assert_eq!(out[..14], ui("1.9.2\0"));
}

#[test]
fn u9_a_ragged_tail_is_no_slot_and_is_zeroed() {
    for tail in [1, 63] {
        let station = Station { ledger: vec![0; 64 + tail], ..Station::default() };
        let outcome = station.expect_export(&[ui("1.2.3\0")], &[ui("1.9.1\0")]);
        assert_eq!(outcome.ledger, [slot("1.2.3"), vec![0; tail]].concat());
        station.expect_refusal(&[ui("1.2\\1.3\0")], 13, 0);
    }
    Station { ledger: vec![0; 63], ..Station::default() }.expect_refusal(&[ui("1.2.3\0")], 13, 0);
}

#[test]
fn u9_there_are_at_most_1024_slots() {
    let ledger = vec![b'x'; 64 * 1_100];
    let station = Station { ledger: ledger.clone(), used: 1_023, ..Station::default() };
    let outcome = station.expect_export(&[ui("1.2.3\0")], &[ui("1.9.1024")]);
    assert!(outcome.ledger[1_024 * 64..].iter().all(|&byte| byte == 0));
    station.expect_refusal(&[ui("1.2\\1.3\0")], 13, 0);
    Station { ledger: ledger.clone(), used: 1_024, ..Station::default() }.expect_refusal(
        &[ui("1.2\0")],
        13,
        0,
    );
    Station { ledger, used: 1_025, ..Station::default() }.expect_refusal(&[], 3, 0);
}

#[test]
fn u10_numbers_go_by_first_appearance_in_the_output() {
    let hidden = |tag, uid: &str| sequence(tag, &[item(&[padded_ui(SOP_INSTANCE_UID, uid)])]);
    let data = [
        padded_ui(SOP_INSTANCE_UID, "3.1\\3.2"),
        hidden(ADMITTING_DIAGNOSES_SEQUENCE, "9.1"),
        sequence(
            REFERENCED_IMAGE_SEQUENCE,
            &[
                item(&[padded_ui(REFERENCED_SOP_INSTANCE_UID, "3.3\\3.1")]),
                item(&[padded_ui(REFERENCED_SOP_INSTANCE_UID, "3.4")]),
            ],
        ),
        element(PATIENT_ID, "UI", "9.2\0"),
        padded_ui(STUDY_INSTANCE_UID, "3.5\\3.3"),
        hidden(CONTAINER_ISSUER_SEQUENCE, "9.3"),
        hidden(CONTENT_SEQUENCE, "9.4"),
        padded_ui(ANNOTATION_GROUP_UID, "3.6"),
    ];
    let written = [
        padded_ui(SOP_INSTANCE_UID, "1.9.1\\1.9.2"),
        undefined_sequence(
            REFERENCED_IMAGE_SEQUENCE,
            &[
                undefined_item(&[padded_ui(REFERENCED_SOP_INSTANCE_UID, "1.9.3\\1.9.1")]),
                undefined_item(&[padded_ui(REFERENCED_SOP_INSTANCE_UID, "1.9.4")]),
            ],
        ),
        element(PATIENT_ID, "UI", ""),
        padded_ui(STUDY_INSTANCE_UID, "1.9.5\\1.9.3"),
        sequence(CONTAINER_ISSUER_SEQUENCE, &[]),
        undefined_sequence(CONTENT_SEQUENCE, &[undefined_item(&[])]),
        padded_ui(ANNOTATION_GROUP_UID, "1.9.6"),
    ];
    let outcome = Station::default().expect_export(&data, &written);
    let uids = ["3.1", "3.2", "3.3", "3.4", "3.5", "3.6"];
    assert_eq!(outcome.slots(), uids.map(slot));
    assert_eq!(outcome.counts(), [1, 3, 5, 1]);
}

#[test]
fn u10_a_ledger_goes_on_from_run_to_run() {
    let mut station = Station::default();
    let first = station.expect_export(&[ui("1.1\0")], &[ui("1.9.1\0")]);
    (station.ledger, station.used) = (first.ledger, first.report.used);
    let second = station.expect_export(&[ui("1.2\\1.1\0")], &[ui("1.9.2\\1.9.1\0")]);
    assert_eq!(second.slots(), [slot("1.1"), slot("1.2")]);
}

#[test]
fn u11_13_counts_distinct_new_uids_against_free_slots() {
    let station = Station::with_ledger(&[slot("1.1"), slot(""), slot("")], 1);
    let fits = station.expect_export(
        &[padded_ui(SOP_INSTANCE_UID, "1.1\\1.2\\1.3\\1.2\\1.3")],
        &[padded_ui(SOP_INSTANCE_UID, "1.9.1\\1.9.2\\1.9.3\\1.9.2\\1.9.3")],
    );
    assert_eq!(fits.report.used, 3);
    station.expect_refusal(&[padded_ui(SOP_INSTANCE_UID, "1.1\\1.2\\1.3\\1.4")], 13, 0);
}

#[test]
fn u11_13_is_judged_after_all_values() {
    let station = Station { ledger: vec![], ..Station::default() };
    let data = [padded_ui(SOP_INSTANCE_UID, "1.2.3"), padded_ui(STUDY_INSTANCE_UID, "1..2")];
    station.expect_refusal(&data, 11, 14);
}

#[test]
fn u12_a_count_above_the_slots_leaves_the_ledger_alone() {
    // That it does is checked for every run.
    let station = Station { ledger: vec![7; 130], used: 3, ..Station::default() };
    station.expect_refusal(&[], 3, 0);
    Station { options: 64, ..station.clone() }.expect_refusal(&[], 1, 0);
    Station { root: vec![], ..station.clone() }.expect_refusal(&[], 2, 0);
    Station { study: vec![0x80], ..station.clone() }.expect_refusal(&[], 3, 0);
    Station { used: u64::MAX, ..station }.expect_refusal(&[], 3, 0);
}

#[test]
fn u13_refusals_13_and_14_enter_nothing_in_the_ledger() {
    let station = Station::with_ledger(&[slot("1.1"), slot("")], 1);
    let refused = station.expect_refusal(&[ui("1.2\\1.3\0")], 13, 0);
    assert_eq!(refused.ledger, [slot("1.1"), slot("")].concat());
    let station = Station { room: Some(100), ..station };
    let refused = station.expect_refusal(&[ui("1.2\0")], 14, 0);
    assert_eq!(refused.ledger, [slot("1.1"), slot("")].concat());
}

#[test]
fn u14_a_uid_that_looks_like_a_new_one_is_renamed_like_any_other() {
    Station::default().expect_export(
        &[padded_ui(SOP_INSTANCE_UID, "1.9.2\\1.9.1\\1.9")],
        &[padded_ui(SOP_INSTANCE_UID, "1.9.1\\1.9.2\\1.9.3")],
    );
}

#[test]
fn u15_a_ledger_of_no_slots() {
    let station = Station { ledger: vec![], ..Station::default() };
    station.expect_export(&[ui("")], &[ui("")]);
    station.expect_refusal(&[ui("1.2\0")], 13, 0);
    Station { used: 1, ..station }.expect_refusal(&[], 3, 0);
}

#[test]
fn new_uids_have_as_many_digits_as_their_number() {
    let uids = |from: u32, to: u32, prefix: &str| {
        (from..=to).map(|number| format!("{prefix}{number}")).collect::<Vec<_>>().join("\\")
    };
    let data = [
        padded_ui(SOP_INSTANCE_UID, &uids(1, 500, "2.")),
        padded_ui(STUDY_INSTANCE_UID, &uids(501, 1_024, "2.")),
    ];
    let written = [
        padded_ui(SOP_INSTANCE_UID, &uids(1, 500, "1.9.")),
        padded_ui(STUDY_INSTANCE_UID, &uids(501, 1_024, "1.9.")),
    ];
    let outcome = Station::default().expect_export(&data, &written);
    assert_eq!(outcome.report.used, 1_024);
    assert_eq!(outcome.ledger[1_023 * 64..], slot("2.1024"));
}
