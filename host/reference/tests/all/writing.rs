//! The readings W: what is written.

use crate::pieces::*;
use crate::station::*;

/// An item with a UID in it that would be judged, if it were looked at.
fn bad_item() -> Bytes {
    item(&[element(SOP_INSTANCE_UID, "UI", "bad!")])
}

fn one_empty_item(tag: u32) -> Bytes {
    undefined_sequence(tag, &[undefined_item(&[])])
}

#[test]
fn w1_z_on_a_ui_is_emptied_and_not_judged() {
    let outcome = Station::default()
        .expect_export(&[element(PATIENT_ID, "UI", "bad!")], &[element(PATIENT_ID, "UI", "")]);
    assert_eq!(outcome.counts(), [0, 1, 0, 0]);
    assert_eq!(outcome.report.used, 0);
}

#[test]
fn w2_z_on_a_sequence_is_length_0_and_hides_what_was_inside() {
    let tag = CONTAINER_ISSUER_SEQUENCE;
    for came in [
        sequence(tag, &[]),
        undefined_sequence(tag, &[]),
        sequence(tag, &[bad_item(), bad_item()]),
        undefined_sequence(tag, &[bad_item()]),
    ] {
        let outcome = Station::default().expect_export(&[came], &[sequence(tag, &[])]);
        assert_eq!(outcome.counts(), [0, 1, 0, 0]);
        assert_eq!(outcome.report.used, 0);
    }
}

#[test]
fn w3_d_on_a_sequence_is_one_empty_item_in_36_bytes() {
    let tag = CONTENT_SEQUENCE;
    assert_eq!(one_empty_item(tag).len(), 36);
    for came in [
        sequence(tag, &[]),
        undefined_sequence(tag, &[]),
        sequence(tag, &[bad_item(), bad_item()]),
        undefined_sequence(tag, &[item(&[element(SOP_INSTANCE_UID, "UI", "1.2.3\0")])]),
    ] {
        let outcome = Station::default().expect_export(&[came], &[one_empty_item(tag)]);
        assert_eq!(outcome.counts(), [0, 1, 0, 0]);
        assert_eq!(outcome.report.used, 0);
    }
}

#[test]
fn w4_d_in_an_item_8_deep_writes_an_item_9_deep() {
    let came = nest(8, sequence(CONTENT_SEQUENCE, &[]));
    let written = undefined_nest(8, one_empty_item(CONTENT_SEQUENCE));
    let outcome = Station::default().expect_export(&[came], std::slice::from_ref(&written));
    // The export cannot go through again: the item is too deep to come in.
    let again = Station::default().run(outcome.export());
    assert_eq!((again.report.refusal, again.report.offset), (10, 172));
}

#[test]
fn w5_d_on_a_ui_is_renamed_judged_and_numbered() {
    let tag = ANNOTATION_GROUP_UID;
    let station = Station::default();
    let outcome = station.expect_export(&[element(tag, "UI", "1.2.3\0")], &[element(tag, "UI", "1.9.1\0")]);
    assert_eq!(outcome.counts(), [0, 0, 1, 0]);
    assert_eq!(outcome.slots(), [slot("1.2.3")]);
    let outcome = station.expect_export(&[element(tag, "UI", "")], &[element(tag, "UI", "")]);
    assert_eq!(outcome.counts(), [0, 0, 1, 0]);
    station.expect_refusal(&[element(tag, "UI", "bad!")], 11, 0);
}

#[test]
fn w6_c_on_a_ui_is_renamed_judged_and_counted_as_renamed() {
    for (options, tag) in [(PATIENT, 0x0010_2110), (DEVICE, 0x0008_0055), (MODIFIED_DATES, STUDY_DATE)] {
        let station = Station::with(options);
        let outcome =
            station.expect_export(&[element(tag, "UI", "1.2.3\0")], &[element(tag, "UI", "1.9.1\0")]);
        assert_eq!(outcome.counts(), [0, 0, 1, 0]);
        station.expect_refusal(&[element(tag, "UI", "01")], 11, 0);
    }
}

#[test]
fn w7_c_of_modified_dates_on_other_vrs_is_a_dummy_or_a_list_value() {
    let timezone = 0x0008_0201;
    let station = Station::shifting(5);
    for (vr, dummy) in
        [("SH", &b"ANON"[..]), ("LO", b"ANON"), ("OB", &[0; 2]), ("UN", &[0; 2]), ("FD", &[0; 8])]
    {
        let outcome =
            station.expect_export(&[element(timezone, vr, "+020")], &[element(timezone, vr, dummy)]);
        assert_eq!(outcome.counts(), [0, 1, 0, 0]);
    }
    let station = Station { study: entry(timezone, "+0000"), ..station };
    station.expect_export(&[element(timezone, "SH", "+0200 ")], &[element(timezone, "SH", "+0000 ")]);
}

#[test]
fn w8_tm_is_kept_under_modified_dates_and_not_judged() {
    for value in ["", "120000", "lunch!", "\\\\"] {
        let time = [element(STUDY_TIME, "TM", value)];
        let outcome = Station::shifting(5).expect_export(&time, &time);
        assert_eq!(outcome.counts(), [1, 0, 0, 0]);
    }
    // A list has no say in it.
    let station = Station { study: entry(STUDY_TIME, "000000"), ..Station::shifting(5) };
    let time = [element(STUDY_TIME, "TM", "120000")];
    station.expect_export(&time, &time);
}

#[test]
fn w9_u_on_neither_ui_nor_sq_is_11_even_if_empty() {
    for vr in ["LO", "UN", "OB", "UT"] {
        let data = [element(MODALITY, "CS", "MR"), element(STUDY_INSTANCE_UID, vr, "")];
        Station::default().expect_refusal(&data, 11, 10);
    }
}

#[test]
fn w9_no_other_action_faults_by_vr() {
    let all = "AE AS AT CS DA DS DT FD FL IS LO LT OB OD OF OL OV OW PN SH SL SQ SS ST SV TM UC UI UL UN UR US UT UV";
    for vr in all.split(' ') {
        for tag in [MODALITY, PRIVATE, PATIENT_NAME, ACQUISITION_FIELD_OF_VIEW_LABEL, 0x0010_2110, STUDY_DATE]
        {
            for options in [0, PATIENT | MODIFIED_DATES] {
                assert_eq!(
                    Station::with(options).run(&element(tag, vr, "")).report.refusal,
                    0,
                    "{vr} {tag:08X}"
                );
            }
        }
    }
}

#[test]
fn w10_list_values_serve_items_at_any_depth() {
    let station = Station { study: entry(PATIENT_NAME, "SUBJ7"), ..Station::default() };
    station.expect_export(
        &[nest(3, element(PATIENT_NAME, "PN", "Doe^Jane"))],
        &[undefined_nest(3, element(PATIENT_NAME, "PN", "SUBJ7 "))],
    );
}

#[test]
fn w10_list_values_are_never_used_for_x_k_u_or_shifted_dates() {
    let tags = [SOP_INSTANCE_UID, STUDY_DATE, MODALITY, PRIVATE];
    let station = Station { study: tags.map(|tag| entry(tag, "LISTED")).concat(), ..Station::shifting(1) };
    station.expect_export(
        &[
            element(SOP_INSTANCE_UID, "UI", "1.2.3\0"),
            element(STUDY_DATE, "DA", "20201231"),
            element(MODALITY, "CS", "MR"),
            element(PRIVATE, "LO", "AB"),
        ],
        &[
            element(SOP_INSTANCE_UID, "UI", "1.9.1\0"),
            element(STUDY_DATE, "DA", "20210101"),
            element(MODALITY, "CS", "MR"),
        ],
    );
}

#[test]
fn w10_a_kept_date_does_not_ask_the_list_but_a_replaced_one_does() {
    let station = |options| Station { study: entry(STUDY_DATE, "20000101"), ..Station::with(options) };
    let date = [element(STUDY_DATE, "DA", "20201231")];
    station(FULL_DATES).expect_export(&date, &date);
    station(0).expect_export(&date, &[element(STUDY_DATE, "DA", "20000101")]);
}

#[test]
fn w11_vrs_that_lists_do_not_serve_act_as_if_there_were_no_value() {
    let lists = [PATIENT_NAME, ACQUISITION_FIELD_OF_VIEW_LABEL].map(|tag| entry(tag, "LISTED")).concat();
    let station = Station { study: lists.clone(), site: lists, ..Station::default() };
    let unserved = [
        ("OB", 2),
        ("OW", 2),
        ("UN", 2),
        ("US", 2),
        ("SS", 2),
        ("AT", 4),
        ("FL", 4),
        ("OF", 4),
        ("OL", 4),
        ("SL", 4),
        ("UL", 4),
        ("FD", 8),
        ("OD", 8),
        ("OV", 8),
        ("SV", 8),
        ("UV", 8),
    ];
    for (vr, zeros) in unserved {
        let tag = PATIENT_NAME;
        station.expect_export(&[element(tag, vr, "secret! ")], &[element(tag, vr, "")]);
        let tag = ACQUISITION_FIELD_OF_VIEW_LABEL;
        station.expect_export(&[element(tag, vr, "secret! ")], &[element(tag, vr, vec![0; zeros])]);
    }
    station.expect_export(&[element(PATIENT_NAME, "UI", "1.2.3\0")], &[element(PATIENT_NAME, "UI", "")]);
    station.expect_export(&[sequence(PATIENT_NAME, &[bad_item()])], &[sequence(PATIENT_NAME, &[])]);
    let tag = ACQUISITION_FIELD_OF_VIEW_LABEL;
    station.expect_export(&[element(tag, "UI", "1.2.3\0")], &[element(tag, "UI", "1.9.1\0")]);
    station.expect_export(&[sequence(tag, &[bad_item()])], &[one_empty_item(tag)]);
}

#[test]
fn w11_served_vrs_get_any_list_text_and_else_nothing_or_their_dummy() {
    let dummies = [
        ("AE", "ANON"),
        ("CS", "ANON"),
        ("LO", "ANON"),
        ("LT", "ANON"),
        ("PN", "ANON"),
        ("SH", "ANON"),
        ("ST", "ANON"),
        ("UC", "ANON"),
        ("UR", "ANON"),
        ("UT", "ANON"),
        ("AS", "000Y"),
        ("DA", "19000101"),
        ("DT", "19000101000000"),
        ("TM", "000000"),
        ("DS", "0 "),
        ("IS", "0 "),
    ];
    let lists = [PATIENT_NAME, ACQUISITION_FIELD_OF_VIEW_LABEL].map(|tag| entry(tag, "not a day")).concat();
    let with_list = Station { site: lists, ..Station::default() };
    let without = Station::default();
    for (vr, dummy) in dummies {
        let (emptied, dummied) = (PATIENT_NAME, ACQUISITION_FIELD_OF_VIEW_LABEL);
        without.expect_export(&[element(emptied, vr, "secret")], &[element(emptied, vr, "")]);
        without.expect_export(&[element(dummied, vr, "secret")], &[element(dummied, vr, dummy)]);
        with_list.expect_export(&[element(emptied, vr, "secret")], &[element(emptied, vr, "not a day ")]);
        with_list.expect_export(&[element(dummied, vr, "secret")], &[element(dummied, vr, "not a day ")]);
    }
}

#[test]
fn z_and_d_do_not_look_at_whether_the_old_value_is_empty() {
    let station = Station { study: entry(PATIENT_NAME, "SUBJ"), ..Station::default() };
    station.expect_export(&[element(PATIENT_NAME, "PN", "")], &[element(PATIENT_NAME, "PN", "SUBJ")]);
    let tag = ACQUISITION_FIELD_OF_VIEW_LABEL;
    station.expect_export(&[element(tag, "LO", "")], &[element(tag, "LO", "ANON")]);
}

#[test]
fn w12_the_studys_value_wins_over_the_sites() {
    let station = Station {
        study: entry(PATIENT_NAME, "STUDY1"),
        site: entry(PATIENT_NAME, "SITE"),
        ..Station::default()
    };
    let name = [element(PATIENT_NAME, "PN", "Doe^Jane")];
    station.expect_export(&name, &[element(PATIENT_NAME, "PN", "STUDY1")]);
    let station = Station { study: entry(PATIENT_ID, "STUDY1"), ..station };
    station.expect_export(&name, &[element(PATIENT_NAME, "PN", "SITE")]);
}

#[test]
fn w13_list_values_of_odd_length_get_one_space() {
    for (value, written) in [("A", "A "), ("AB", "AB"), ("A ", "A "), (" ", "  ")] {
        let station = Station { study: entry(PATIENT_NAME, value), ..Station::default() };
        station.expect_export(&[element(PATIENT_NAME, "PN", "")], &[element(PATIENT_NAME, "PN", written)]);
    }
}

#[test]
fn w14_a_kept_element_is_written_byte_for_byte() {
    let kept = [
        element(CHARACTER_SET, "CS", "ISO_IR 100"),
        element(MODALITY, "CS", "  "),
        element(PHOTOMETRIC_INTERPRETATION, "UN", [0, 0xFF, 1, 0xFE]),
        element(PIXEL_DATA, "OW", vec![0xAB; 70_000]),
    ];
    let outcome = Station::default().expect_export(&kept, &kept);
    assert_eq!(outcome.counts(), [4, 0, 0, 0]);
}

#[test]
fn w14_a_walked_sequence_without_items_has_length_0() {
    let empty = [sequence(REFERENCED_SERIES_SEQUENCE, &[])];
    let outcome =
        Station::default().expect_export(&[undefined_sequence(REFERENCED_SERIES_SEQUENCE, &[])], &empty);
    assert_eq!(outcome.counts(), [1, 0, 0, 0]);
    Station::default().expect_export(&empty, &empty);
}

#[test]
fn w14_items_that_lost_all_elements_stay() {
    let private_items = [item(&[element(PRIVATE, "LO", "AB")]), item(&[element(PRIVATE, "LO", "CD")])];
    let outcome = Station::default().expect_export(
        &[sequence(REFERENCED_SERIES_SEQUENCE, &private_items)],
        &[undefined_sequence(REFERENCED_SERIES_SEQUENCE, &[undefined_item(&[]), undefined_item(&[])])],
    );
    assert_eq!(outcome.counts(), [1, 0, 0, 2]);
}

#[test]
fn w14_a_nested_empty_sequence_does_not_disturb_the_one_around_it() {
    let inner = undefined_sequence(REFERENCED_SERIES_SEQUENCE, &[]);
    let holder = item(&[inner]);
    let data = sequence(REFERENCED_SERIES_SEQUENCE, &[holder.clone(), item(&[]), holder]);
    let written_holder = undefined_item(&[sequence(REFERENCED_SERIES_SEQUENCE, &[])]);
    let written = undefined_sequence(
        REFERENCED_SERIES_SEQUENCE,
        &[written_holder.clone(), undefined_item(&[]), written_holder],
    );
    Station::default().expect_export(&[data], &[written]);
}

#[test]
fn w15_markers_stand_between_their_neighbours() {
    let neighbours = [
        element(0x0012_005F, "LO", "A "),
        element(0x0012_0061, "LO", "B "),
        element(0x0012_0065, "LO", "C "),
        element(0x0028_0302, "LO", "D "),
        element(0x0028_0304, "LO", "E "),
        element(PIXEL_DATA, "OW", "FF"),
    ];
    let [removed, codes, dates] = markers(0);
    let [a, b, c, d, e, f] = neighbours.clone();
    let expected = join(&[a, b, removed, codes, c, d, dates, e, f]);
    assert_eq!(Station::default().run(&neighbours.concat()).export(), expected);
}

#[test]
fn w15_old_markers_do_not_clash_with_the_new_ones() {
    let old = [
        element(0x0012_0061, "LO", "A "),
        element(0x0012_0062, "CS", "NO"),
        element(0x0012_0063, "LO", "by hand "),
        sequence(0x0012_0064, &[item(&[])]),
        element(0x0012_0065, "LO", "B "),
        element(0x0028_0303, "CS", "REMOVED "),
        element(0x0028_0304, "LO", "C "),
    ];
    let outcome = Station::default().expect_export(&old, &[old[0].clone(), old[4].clone(), old[6].clone()]);
    assert_eq!(outcome.counts(), [3, 0, 0, 4]);
}

#[test]
fn w15_markers_are_not_written_inside_items() {
    let inside = join(&[element(MODALITY, "CS", "MR"), element(PIXEL_DATA, "OW", "FF")]);
    Station::default().expect_export(&[nest(1, inside.clone())], &[undefined_nest(1, inside)]);
}

#[test]
fn w16_w17_every_option_number_names_its_options_by_rising_code() {
    for options in (0..64).filter(|options| options & 3 != 3) {
        Station::with(options).expect_export(&[], &[]);
    }
    let all_but_full_dates = Station::with(62).run(&[]);
    let text = String::from_utf8_lossy(all_but_full_dates.export()).into_owned();
    let place = |code: &str| text.find(code).unwrap_or_else(|| panic!("{code} is named"));
    let codes = ["113100", "113107", "113108", "113109", "113110", "113112"];
    assert!(codes.is_sorted_by_key(|code| place(code)));
    assert!(!text.contains("113106") && !text.contains("113111"));
}

#[test]
fn w16_the_longest_meaning_and_the_dates_words() {
    let export = |options| Station::with(options).run(&[]).export().to_vec();
    let ends_with = |options, word: &[u8]| export(options).ends_with(word);
    assert!(ends_with(0, b"\x28\x00\x03\x03CS\x08\x00REMOVED "));
    assert!(ends_with(FULL_DATES, b"\x28\x00\x03\x03CS\x0A\x00UNMODIFIED"));
    assert!(ends_with(MODIFIED_DATES, b"\x28\x00\x03\x03CS\x08\x00MODIFIED"));
    let meaning = b"\x08\x00\x04\x01LO\x3E\x00Retain Longitudinal Temporal Information Modified Dates Option";
    assert!(export(MODIFIED_DATES).windows(meaning.len()).any(|window| window == meaning));
}

#[test]
fn w18_the_longest_renamed_value_fits_its_length_field() {
    let count = 1_000;
    let station = Station { root: vec![b'7'; 59], ..Station::with_ledger(&vec![slot("x"); 1_024], 1_023) };
    let value = vec!["1"; count].join("\\") + "\0";
    let new_uid = "7".repeat(59) + ".1024";
    let written = vec![new_uid; count].join("\\") + "\0";
    assert_eq!(written.len(), 65_000);
    let station = Station { room: Some(70_000), ..station };
    station.expect_export(
        &[element(SOP_INSTANCE_UID, "UI", value)],
        &[element(SOP_INSTANCE_UID, "UI", written)],
    );
}

#[test]
fn w19_an_empty_ui_stays_empty_and_counts_as_renamed() {
    let empty = [element(SOP_INSTANCE_UID, "UI", "")];
    let outcome = Station::default().expect_export(&empty, &empty);
    assert_eq!(outcome.counts(), [0, 0, 1, 0]);
    assert_eq!(outcome.report.used, 0);
}
