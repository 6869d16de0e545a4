//! The readings L: replacement lists, and refusal 4.

use crate::pieces::*;
use crate::station::*;

/// Expects refusal 4 for the list in either place.
#[track_caller]
fn refused(list: Bytes) {
    Station { study: list.clone(), ..Station::default() }.expect_refusal(&[], 4, 0);
    Station { site: list, ..Station::default() }.expect_refusal(&[], 4, 0);
}

#[track_caller]
fn accepted(list: Bytes) {
    Station { study: list.clone(), site: list, ..Station::default() }.expect_export(&[], &[]);
}

#[test]
fn l1_numbers_stand_in_the_fewest_groups() {
    accepted(vec![0x05, 0x01, b'A']);
    refused(vec![0x85, 0x00, 0x01, b'A']);
    refused(vec![0x05, 0x81, 0x00, b'A']);
    refused(vec![0x85, 0x80, 0x80, 0x80, 0x80, 0x00, 0x01, b'A']);
    refused(vec![0x80, 0x00, 0x01, b'A']);
}

#[test]
fn l2_tags_go_from_0_to_ffffffff() {
    accepted(join(&[
        entry(0, "A"),
        entry(1, "B"),
        entry(PRIVATE, "C"),
        entry(0xFFFE_E000, "D"),
        entry(u32::MAX, "E"),
    ]));
    let above = join(&[list_number(0x1_0000_0000), list_number(1), b"A".to_vec()]);
    refused(above);
    let far_above = join(&[vec![0xFF; 9], vec![0x01, 0x01, b'A']]);
    refused(far_above);
    let endless = join(&[vec![0x80; 1_000], vec![0x01, 0x01, b'A']]);
    refused(endless);
}

#[test]
fn l3_values_are_1_to_64_bytes() {
    refused(entry(5, ""));
    accepted(entry(5, [b'A'; 64]));
    refused(entry(5, [b'A'; 65]));
    refused(entry(5, [b'A'; 200]));
    refused(join(&[list_number(5), list_number(0x1_0000_0001), b"A".to_vec()]));
}

#[test]
fn l3_a_list_cut_anywhere_is_refused() {
    let list = join(&[entry(PATIENT_NAME, "SUBJ7"), entry(PATIENT_ID, "0007")]);
    let whole_entries = [0, entry(PATIENT_NAME, "SUBJ7").len(), list.len()];
    for count in 0..=list.len() {
        let cut = list[..count].to_vec();
        if whole_entries.contains(&count) { accepted(cut) } else { refused(cut) }
    }
}

#[test]
fn l3_a_list_has_at_most_256_entries() {
    let list = |count: u32| (0..count).map(|tag| entry(tag, "A")).collect::<Vec<_>>().concat();
    accepted(list(256));
    refused(list(257));
}

#[test]
fn l3_tags_rise_strictly() {
    refused(join(&[entry(5, "A"), entry(5, "A")]));
    refused(join(&[entry(5, "A"), entry(4, "A")]));
    refused(join(&[entry(0x8000_0000, "A"), entry(0x7FFF_FFFF, "A")]));
    accepted(join(&[entry(0x7FFF_FFFF, "A"), entry(0x8000_0000, "A")]));
}

#[test]
fn l4_both_lists_are_judged_whole_even_if_not_used() {
    let bad_end = join(&[entry(PATIENT_NAME, "A"), vec![0x80]]);
    let name = [element(PATIENT_NAME, "PN", "Doe^Jane")];
    Station { study: entry(PATIENT_NAME, "A"), site: bad_end.clone(), ..Station::default() }
        .expect_refusal(&name, 4, 0);
    Station { study: bad_end, site: entry(PATIENT_NAME, "A"), ..Station::default() }
        .expect_refusal(&name, 4, 0);
}

#[test]
fn l4_lists_are_judged_apart_and_may_share_tags() {
    let lists = Station { study: entry(9, "A"), site: entry(5, "B"), ..Station::default() };
    lists.expect_export(&[], &[]);
}

#[test]
fn l5_values_are_of_20_to_7e_without_the_backslash() {
    for byte in 0..=255 {
        let list = entry(5, [b'A', byte, b'A']);
        let allowed = (0x20..=0x7E).contains(&byte) && byte != 0x5C;
        if allowed { accepted(list) } else { refused(list) }
    }
}

#[test]
fn l5_spaces_in_a_value_are_data() {
    for value in [" A", "A ", "  ", "A  A"] {
        let station = Station { study: entry(PATIENT_NAME, value), ..Station::default() };
        station.expect_export(&[element(PATIENT_NAME, "PN", "")], &[element(PATIENT_NAME, "PN", value)]);
    }
}

#[test]
fn entries_of_a_full_list_are_found_by_their_tags() {
    let list =
        (0..256).map(|number| entry(0x0010_0000 + number, format!("V{number:03}"))).collect::<Vec<_>>();
    let station = Station { site: list.concat(), ..Station::default() };
    station.expect_export(
        &[element(PATIENT_NAME, "PN", ""), element(PATIENT_ID, "LO", ""), element(BIRTH_DATE, "DA", "")],
        &[
            element(PATIENT_NAME, "PN", "V016"),
            element(PATIENT_ID, "LO", "V032"),
            element(BIRTH_DATE, "DA", "V048"),
        ],
    );
}
