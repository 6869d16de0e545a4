//! The readings A: which action an element gets.

use crate::pieces::*;
use crate::station::*;

/// Runs and expects the one element to come back as it is, as text of length 0, and so on.
#[track_caller]
fn becomes(options: u64, input: Bytes, output: &[Bytes]) {
    Station::with(options).expect_export(&[input], output);
}

#[track_caller]
fn removed(options: u64, input: Bytes) {
    let outcome = Station::with(options).expect_export(&[input], &[]);
    assert_eq!(outcome.counts(), [0, 0, 0, 1]);
}

#[track_caller]
fn kept(options: u64, input: Bytes) {
    let outcome =
        Station::with(options).expect_export(std::slice::from_ref(&input), std::slice::from_ref(&input));
    assert_eq!(outcome.counts(), [1, 0, 0, 0]);
}

/// All option numbers that are accepted with shift 0.
fn all_options() -> impl Iterator<Item = u64> {
    (0..64).filter(|options| options & 3 != 3)
}

#[test]
fn a2_curves_are_removed_in_even_groups() {
    for tag in [0x5000_0001, 0x5000_FFFF, 0x50A2_0010, 0x50FE_3000] {
        removed(0, element(tag, "OW", "AB"));
    }
    for tag in [0x4FFE_3000, 0x5100_0010, 0x5102_3000] {
        kept(0, element(tag, "OW", "AB"));
    }
}

#[test]
fn a2_overlay_data_and_comments_are_removed_and_other_overlay_elements_kept() {
    for group in [0x6000, 0x6002, 0x60FE] {
        removed(0, element(group << 16 | 0x3000, "OW", "AB"));
        removed(0, element(group << 16 | 0x4000, "LT", "AB"));
        removed(0, element(group << 16, "UL", [0; 4]));
        kept(0, element(group << 16 | 0x0010, "US", [0; 2]));
        kept(0, element(group << 16 | 0x3001, "OW", "AB"));
    }
    kept(0, element(0x6100_3000, "OW", "AB"));
}

#[test]
fn a2_odd_groups_are_private_in_the_repeating_ranges_too() {
    for tag in [0x5001_0010, 0x6001_0010, 0x6003_3000, 0x60FF_4000, 0xFFFD_0001] {
        removed(0, element(tag, "LO", "AB"));
    }
}

#[test]
fn a2_no_option_keeps_private_curve_or_overlay_elements() {
    for options in all_options() {
        for tag in [PRIVATE, 0x5000_3000, 0x6000_3000, 0x6000_4000] {
            removed(options, element(tag, "OW", "AB"));
        }
    }
}

#[test]
fn a3_element_0000_is_removed_everywhere_whatever_its_vr() {
    for group in [0x0008, 0x0010, 0x0028, 0x7FE0, 0xFFFC] {
        removed(0, element(group << 16, "UL", [0; 4]));
        removed(0, sequence(group << 16, &[item(&[element(SOP_INSTANCE_UID, "UI", "bad!")])]));
    }
    let outcome = Station::default().expect_export(
        &[nest(1, join(&[element(0x0008_0000, "UL", [0; 4]), element(MODALITY, "CS", "MR")]))],
        &[undefined_nest(1, element(MODALITY, "CS", "MR"))],
    );
    assert_eq!(outcome.counts(), [2, 0, 0, 1]);
}

#[test]
fn a4_the_four_tags_are_removed_at_the_top_level_and_kept_in_items() {
    let four = [
        element(0x0012_0062, "CS", "NO"),
        element(0x0012_0063, "LO", "by hand "),
        undefined_sequence(0x0012_0064, &[undefined_item(&[element(MODALITY, "CS", "MR")])]),
        element(0x0028_0303, "CS", "REMOVED "),
    ];
    let outcome = Station::default().expect_export(&four, &[]);
    assert_eq!(outcome.counts(), [0, 0, 0, 4]);

    let in_item = undefined_nest(1, join(&four));
    let outcome =
        Station::default().expect_export(std::slice::from_ref(&in_item), std::slice::from_ref(&in_item));
    assert_eq!(outcome.counts(), [6, 0, 0, 0]);
}

#[test]
fn a4_the_four_tags_go_whatever_their_vr_and_their_hidden_values() {
    removed(0, element(0x0012_0064, "UI", "bad!"));
    removed(0, sequence(0x0028_0303, &[item(&[element(SOP_INSTANCE_UID, "UI", "bad!")])]));
}

#[test]
fn a5_the_method_text_is_never_written() {
    removed(0, element(0x0012_0063, "LO", "by hand "));
}

#[test]
fn a6_an_option_overrides_u_x_z_and_d() {
    kept(RETAIN_UIDS, element(SOP_INSTANCE_UID, "UI", "not judged"));
    kept(INSTITUTION, element(0x0008_0081, "ST", "Road")); // X
    kept(PATIENT, element(0x0010_0040, "CS", "F ")); // Z
    kept(DEVICE, element(0x0018_9371, "UI", "whatever")); // D
}

#[test]
fn a6_several_options_that_all_say_k_keep() {
    // Device UID (0018,1002): K under Retain UIDs and under Device Identity.
    for options in [RETAIN_UIDS, DEVICE, RETAIN_UIDS | DEVICE] {
        kept(options, element(0x0018_1002, "UI", "1.2.3\0"));
    }
}

#[test]
fn a6_an_option_does_nothing_where_its_column_is_empty() {
    becomes(
        !MODIFIED_DATES & 63,
        element(PATIENT_NAME, "PN", "Doe^Jane"),
        &[element(PATIENT_NAME, "PN", "")],
    );
    becomes(RETAIN_UIDS, element(0x0040_A124, "UI", "1.2.3\0"), &[element(0x0040_A124, "UI", "1.9.1\0")]);
}

#[test]
fn a7_a_c_of_another_column_shifts_nothing() {
    // Allergies (0010,2110): C under Patient Characteristics. As a date it gets a dummy.
    for options in [PATIENT, PATIENT | MODIFIED_DATES] {
        becomes(options, element(0x0010_2110, "DA", "20200301"), &[element(0x0010_2110, "DA", "19000101")]);
        becomes(options, element(0x0010_2110, "DT", "2020"), &[element(0x0010_2110, "DT", "19000101000000")]);
        becomes(options, element(0x0010_2110, "TM", "12"), &[element(0x0010_2110, "TM", "000000")]);
        becomes(options, element(0x0010_2110, "LO", "Cats"), &[element(0x0010_2110, "LO", "ANON")]);
    }
    becomes(MODIFIED_DATES, element(0x0010_2110, "DA", "20200301"), &[]);
}

#[test]
fn a8_c_of_modified_dates_wins_over_k_of_device_on_the_calibration_rows() {
    let rows = [
        (0x0014_407C, "TM"),
        (0x0014_407E, "DA"),
        (0x0018_1200, "DA"),
        (0x0018_1201, "TM"),
        (0x0018_1202, "DT"),
        (0x0018_1203, "DT"),
        (0x0018_700C, "DA"),
        (0x0018_700E, "TM"),
        (0x300C_0127, "DT"),
    ];
    for (tag, vr) in rows {
        let value = |day| match vr {
            "DA" => element(tag, vr, day),
            "DT" => element(tag, vr, format!("{day}1200")),
            _ => element(tag, vr, "1200"),
        };
        kept(DEVICE, value("20200301"));
        kept(DEVICE | FULL_DATES, value("20200301"));
        let station = Station { options: DEVICE | MODIFIED_DATES, ..Station::shifting(-1) };
        let outcome = station.expect_export(&[value("20200301")], &[value("20200229")]);
        let shifted = vr != "TM";
        assert_eq!(outcome.counts(), if shifted { [0, 1, 0, 0] } else { [1, 0, 0, 0] });
        if shifted {
            kept(DEVICE, value("2020-3-1"));
            station.expect_refusal(&[value("2020-3-1")], 12, 0);
        }
    }
}

#[test]
fn a10_c_of_device_on_an_ae_is_a_dummy_or_a_list_value() {
    let station_ae = 0x0008_0055;
    becomes(DEVICE, element(station_ae, "AE", "CT1 "), &[element(station_ae, "AE", "ANON")]);
    let station = Station { site: entry(station_ae, "CT"), ..Station::with(DEVICE) };
    station.expect_export(&[element(station_ae, "AE", "CT1 ")], &[element(station_ae, "AE", "CT")]);
    removed(0, element(station_ae, "AE", "CT1 "));
}

#[test]
fn a11_either_or_actions_take_their_last_letter() {
    let content_creator = 0x0070_0084; // Z/D
    becomes(0, element(content_creator, "PN", ""), &[element(content_creator, "PN", "ANON")]);
    let protocol = 0x0018_1030; // X/D
    becomes(0, element(protocol, "LO", "Head"), &[element(protocol, "LO", "ANON")]);
    let operators = 0x0008_1070; // X/Z/D
    becomes(0, element(operators, "PN", "Roe "), &[element(operators, "PN", "ANON")]);
    let barcode = 0x2200_0005; // X/Z
    becomes(0, element(barcode, "LT", "4711"), &[element(barcode, "LT", "")]);
    becomes(0, element(0x0008_2112, "UI", "1.2.3\0"), &[element(0x0008_2112, "UI", "1.9.1\0")]); // X/Z/U*
}

#[test]
fn a12_the_vr_in_the_data_decides() {
    let as_sequence = sequence(PATIENT_NAME, &[item(&[element(SOP_INSTANCE_UID, "UI", "bad!")])]);
    becomes(0, as_sequence, &[sequence(PATIENT_NAME, &[])]);
    Station::default().expect_refusal(&[element(REFERENCED_IMAGE_SEQUENCE, "LO", "1.2.3 ")], 11, 0);
}

#[test]
fn a13_a_sequence_sent_as_un_is_kept_whole() {
    let inside = item(&[element(PATIENT_NAME, "PN", "Doe^Jane")]);
    kept(0, element(REFERENCED_SERIES_SEQUENCE, "UN", inside));
}

#[test]
fn a14_u_on_a_sequence_walks_it_by_all_rules() {
    let data = sequence(
        REFERENCED_IMAGE_SEQUENCE,
        &[item(&[
            element(REFERENCED_SOP_CLASS_UID, "UI", "1.2.840.1 "),
            element(REFERENCED_SOP_INSTANCE_UID, "UI", "1.2.3\0"),
            element(PRIVATE, "LO", "AB"),
            element(PATIENT_NAME, "PN", "Doe^Jane"),
        ])],
    );
    let written = undefined_sequence(
        REFERENCED_IMAGE_SEQUENCE,
        &[undefined_item(&[
            element(REFERENCED_SOP_CLASS_UID, "UI", "1.2.840.1 "),
            element(REFERENCED_SOP_INSTANCE_UID, "UI", "1.9.1\0"),
            element(PATIENT_NAME, "PN", ""),
        ])],
    );
    let outcome = Station::default().expect_export(&[data], &[written]);
    assert_eq!(outcome.counts(), [2, 1, 1, 1]);
}

#[test]
fn a15_c_on_a_sequence_walks_it_and_is_not_handed_down() {
    // (0010,2110) is C under Patient Characteristics, (0008,0020) under Modified Dates.
    for (tag, options) in [(0x0010_2110, PATIENT), (STUDY_DATE, MODIFIED_DATES)] {
        let inside = [element(MODALITY, "DA", "20200301"), element(REFERENCED_SOP_CLASS_UID, "LO", "Cats")];
        let station =
            Station { shift: if options == MODIFIED_DATES { 1 } else { 0 }, ..Station::with(options) };
        let outcome = station.expect_export(
            &[sequence(tag, &[item(&inside)])],
            &[undefined_sequence(tag, &[undefined_item(&inside)])],
        );
        assert_eq!(outcome.counts(), [3, 0, 0, 0]);
    }
}

#[test]
fn a16_the_doubles_are_cleaned_under_device() {
    for tag in [0x0032_1021, 0x0040_0001, 0x0040_0241] {
        becomes(DEVICE, element(tag, "AE", "CT1 "), &[element(tag, "AE", "ANON")]);
        removed(0, element(tag, "AE", "CT1 "));
    }
}

#[test]
fn a18_clean_columns_are_ignored() {
    // Acquisition Comments: X, with C under Clean Descriptors only.
    for options in all_options() {
        removed(options, element(0x0018_4000, "LT", "AB"));
    }
}

#[test]
fn a_tag_without_a_row_is_kept_under_all_options() {
    for options in all_options() {
        kept(options, element(MODALITY, "CS", "MR"));
    }
}
