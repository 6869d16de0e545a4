//! Refusals 6 to 10 and the readings F: the shape of a data set.

use crate::pieces::*;
use crate::station::Station;

#[track_caller]
fn refused(data: &[Bytes], number: u64, offset: usize) {
    Station::default().expect_refusal(data, number, offset);
}

/// Data that is accepted and comes back as it is.
#[track_caller]
fn kept(data: &[Bytes]) {
    Station::default().expect_export(data, data);
}

#[track_caller]
fn accepted(data: &[Bytes]) {
    assert_eq!(Station::default().run(&data.concat()).report.refusal, 0);
}

/// A kept element of 10 bytes.
fn modality() -> Bytes {
    element(MODALITY, "CS", "MR")
}

fn open_sequence() -> Bytes {
    head(REFERENCED_SERIES_SEQUENCE, "SQ", UNDEFINED)
}

fn open_item() -> Bytes {
    mark(ITEM, UNDEFINED)
}

#[test]
fn f1_a_missing_sequence_end_is_6_where_it_should_have_begun() {
    refused(&[open_sequence()], 6, 12);
    refused(&[open_sequence(), item(&[])], 6, 20);
}

#[test]
fn f1_a_missing_item_end_is_6_where_it_should_have_begun() {
    refused(&[open_sequence(), open_item()], 6, 20);
    refused(&[open_sequence(), open_item(), modality()], 6, 30);
}

#[test]
fn f1_an_end_mark_of_seven_bytes_is_6_at_its_first_byte() {
    refused(&[open_sequence(), sequence_end()[..7].to_vec()], 6, 12);
    refused(&[open_sequence(), open_item(), item_end()[..7].to_vec()], 6, 20);
}

#[test]
fn f2_leftovers_at_the_top_level_are_6_at_their_first_byte() {
    for count in 1..8 {
        refused(&[modality(), vec![0xFF; count]], 6, 10);
    }
}

#[test]
fn f2_leftovers_in_a_stated_sequence_or_item_are_6_at_their_first_byte() {
    for count in [2, 4, 6] {
        refused(&[sequence(REFERENCED_SERIES_SEQUENCE, &[item(&[]), vec![0; count]]), modality()], 6, 20);
        refused(&[sequence(REFERENCED_SERIES_SEQUENCE, &[item(&[modality(), vec![0; count]])])], 6, 30);
    }
}

#[test]
fn f3_an_undefined_container_ends_within_the_stated_one_around_it() {
    // The inner sequence's end mark stands right behind the stated item that it should stand in.
    let inner = open_sequence();
    let data = [sequence(REFERENCED_SERIES_SEQUENCE, &[item(&[inner]), sequence_end()])];
    refused(&data, 6, 32);
}

#[test]
fn f3_a_header_is_not_read_past_the_stated_container() {
    // Eight bytes of an OB header end the item; the other four are there, but behind it.
    let ob = head(0x0008_0006, "OB", 0);
    let data =
        [sequence(REFERENCED_SERIES_SEQUENCE, &[item(&[ob[..8].to_vec()]), ob[8..].to_vec()]), modality()];
    refused(&data, 6, 20);
}

#[test]
fn f4_a_length_that_passes_the_container_is_6_at_the_one_that_states_it() {
    refused(&[modality(), head(REFERENCED_SERIES_SEQUENCE, "SQ", 10), vec![0xFF; 8]], 6, 10);
    refused(&[sequence(REFERENCED_SERIES_SEQUENCE, &[mark(ITEM, 2)]), modality()], 6, 12);
    refused(&[sequence(REFERENCED_SERIES_SEQUENCE, &[item(&[head(MODALITY, "CS", 2)])]), modality()], 6, 20);
}

#[test]
fn f4_a_length_that_just_fills_the_container_is_fine() {
    accepted(&[sequence(REFERENCED_SERIES_SEQUENCE, &[item(&[modality()])])]);
}

#[test]
fn f5_end_marks_in_stated_containers_are_7() {
    refused(&[sequence(REFERENCED_SERIES_SEQUENCE, &[item(&[item_end()])])], 7, 20);
    refused(&[sequence(REFERENCED_SERIES_SEQUENCE, &[item(&[modality(), item_end()])])], 7, 30);
    refused(&[sequence(REFERENCED_SERIES_SEQUENCE, &[sequence_end()])], 7, 12);
    refused(&[sequence(REFERENCED_SERIES_SEQUENCE, &[item(&[]), sequence_end()])], 7, 20);
}

#[test]
fn f5_end_marks_in_stated_containers_are_7_even_with_a_bad_length() {
    refused(&[sequence(REFERENCED_SERIES_SEQUENCE, &[item(&[mark(ITEM_END, 3)])])], 7, 20);
    refused(&[sequence(REFERENCED_SERIES_SEQUENCE, &[mark(SEQUENCE_END, 3)])], 7, 12);
}

#[test]
fn f6_the_wrong_mark_among_the_elements_of_an_undefined_item_is_7() {
    refused(&[open_sequence(), open_item(), sequence_end()], 7, 20);
    refused(&[open_sequence(), open_item(), item(&[])], 7, 20);
}

#[test]
fn f6_the_wrong_mark_or_an_element_among_items_is_7() {
    refused(&[open_sequence(), item_end()], 7, 12);
    refused(&[open_sequence(), modality()], 7, 12);
    refused(&[sequence(REFERENCED_SERIES_SEQUENCE, &[modality()])], 7, 12);
}

#[test]
fn f6_any_mark_at_the_top_level_is_7() {
    for tag in [ITEM, ITEM_END, SEQUENCE_END, 0xFFFE_0001] {
        refused(&[modality(), mark(tag, 0)], 7, 10);
    }
}

#[test]
fn f7_at_an_item_end_the_length_is_judged_after_the_tag() {
    refused(&[open_sequence(), open_item(), mark(ITEM_END, 2)], 9, 20);
    refused(&[open_sequence(), open_item(), mark(ITEM_END, UNDEFINED)], 9, 20);
    refused(&[open_sequence(), item(&[]), mark(SEQUENCE_END, 2)], 9, 20);
}

#[test]
fn f8_an_end_mark_at_the_ninth_level_is_fine() {
    let empty = undefined_sequence(REFERENCED_SERIES_SEQUENCE, &[]);
    let outcome = sequence(REFERENCED_SERIES_SEQUENCE, &[]);
    Station::default().expect_export(&[nest(8, empty)], &[undefined_nest(8, outcome)]);
}

#[test]
fn f8_an_empty_stated_sequence_at_the_ninth_level_is_fine() {
    let empty = sequence(REFERENCED_SERIES_SEQUENCE, &[]);
    Station::default().expect_export(&[nest(8, empty.clone())], &[undefined_nest(8, empty)]);
}

#[test]
fn f8_at_the_ninth_level_an_end_mark_has_its_length_judged_and_a_wrong_one_its_tag() {
    let ninth = |mark: Bytes| undefined_nest(8, join(&[open_sequence(), mark]));
    refused(&[ninth(mark(SEQUENCE_END, 2))], 9, 172);
    refused(&[ninth(mark(ITEM_END, 2))], 7, 172);
}

#[test]
fn f9_at_a_ninth_item_10_goes_before_its_length_but_after_its_tag() {
    let ninth = |contents: Bytes| nest(8, sequence(REFERENCED_SERIES_SEQUENCE, &[contents]));
    refused(&[ninth(mark(ITEM, 3))], 10, 172);
    refused(&[ninth(mark(ITEM, 4_000))], 10, 172);
    refused(&[ninth(modality()[..8].to_vec())], 7, 172);
    refused(&[ninth(mark(ITEM, 0)[..6].to_vec())], 6, 172);
}

#[test]
fn f10_the_offset_of_10_is_that_of_the_ninth_item() {
    refused(&[modality(), nest(9, vec![])], 10, 182);
    refused(&[modality(), undefined_nest(9, vec![])], 10, 182);
}

#[test]
fn f12_a_ninth_item_in_hidden_places_is_10() {
    for hidden in [PRIVATE, ADMITTING_DIAGNOSES_SEQUENCE, CONTAINER_ISSUER_SEQUENCE, CONTENT_SEQUENCE] {
        let nested = |depth: usize| sequence(hidden, &[item(&[nest(depth - 1, vec![])])]);
        accepted(&[nested(8)]);
        refused(&[nested(9)], 10, 172);
    }
}

#[test]
fn f12_every_shape_fault_counts_in_hidden_places() {
    for hidden in [PRIVATE, ADMITTING_DIAGNOSES_SEQUENCE, CONTAINER_ISSUER_SEQUENCE, CONTENT_SEQUENCE] {
        let faulty = |contents: Bytes| [sequence(hidden, &[item(&[contents])])];
        refused(&faulty(vec![0; 2]), 6, 20);
        refused(&faulty(join(&[modality(), modality()])), 7, 30);
        refused(&faulty(element(MODALITY, "XX", "")), 8, 20);
        refused(&faulty(join(&[head(MODALITY, "CS", 1), vec![0; 2]])), 9, 20);
    }
}

#[test]
fn f13_empty_items_and_sequences_are_well_formed() {
    let empty_item = undefined_item(&[]);
    for item in [item(&[]), undefined_item(&[])] {
        let written = [undefined_sequence(REFERENCED_SERIES_SEQUENCE, std::slice::from_ref(&empty_item))];
        let station = Station::default();
        station.expect_export(&[sequence(REFERENCED_SERIES_SEQUENCE, std::slice::from_ref(&item))], &written);
        station.expect_export(&[undefined_sequence(REFERENCED_SERIES_SEQUENCE, &[item])], &written);
    }
    kept(&[sequence(REFERENCED_SERIES_SEQUENCE, &[])]);
}

#[test]
fn f14_equal_and_falling_tags_are_7() {
    refused(&[modality(), modality()], 7, 10);
    refused(&[modality(), element(CHARACTER_SET, "CS", "")], 7, 10);
    refused(&[element(0x0010_0001, "CS", ""), element(0x0008_FFFF, "CS", "")], 7, 8);
}

#[test]
fn f14_tags_begin_anew_in_every_item_and_go_on_after_a_sequence() {
    let items = [undefined_item(&[modality()]), undefined_item(&[modality()])];
    let walked = undefined_sequence(REFERENCED_SERIES_SEQUENCE, &items);
    kept(&[walked.clone(), element(REFERENCED_SERIES_SEQUENCE + 1, "CS", "")]);
    refused(&[walked.clone(), element(MODALITY, "CS", "")], 7, walked.len());
    refused(&[walked.clone(), walked.clone()], 7, walked.len());
}

#[test]
fn f14_tags_are_compared_by_group_before_element() {
    kept(&[element(0x0008_FFFF, "CS", ""), element(0x000A_0001, "CS", "")]);
}

#[test]
fn f15_groups_that_are_not_allowed_are_7() {
    for group in [0x0000, 0x0001, 0x0002, 0x0004, 0x0007, 0xFFFE, 0xFFFF] {
        refused(&[element(group << 16 | 0x0010, "LO", "AB")], 7, 0);
    }
}

#[test]
fn f15_the_groups_next_to_them_are_allowed() {
    for group in [0x0008, 0x0009, 0xFFFA, 0xFFFC, 0xFFFD] {
        accepted(&[element(group << 16 | 0x0010, "LO", "AB")]);
    }
}

#[test]
fn f16_an_unknown_vr_is_8_before_the_header_is_short() {
    refused(&[vec![0x08, 0x00, 0x05, 0x00, 0x4F, 0x58, 0x01, 0x00]], 8, 0);
    for vr in ["OX", "pn", "Pn", "  ", "\0\0", "QS"] {
        refused(&[modality(), element(PATIENT_NAME, vr, "")], 8, 10);
    }
}

#[test]
fn f16_a_tag_is_judged_before_its_vr() {
    refused(&[modality(), element(MODALITY, "XX", "")], 7, 10);
}

#[test]
fn f16_each_known_vr_is_read_with_its_own_header() {
    let all =
        "AE AS AT CS DA DS DT FD FL IS LO LT OB OD OF OL OV OW PN SH SL SS ST SV TM UC UI UL UN UR US UT UV";
    for vr in all.split(' ') {
        kept(&[element(CHARACTER_SET, vr, "12345678"), modality()]);
    }
}

#[test]
fn f17_a_long_header_cut_short_is_6_whatever_its_zero_bytes() {
    let ob = [0x08, 0x00, 0x05, 0x00, b'O', b'B', 0x01, 0x01, 0x01, 0x00, 0x00, 0x00];
    for count in 8..12 {
        refused(&[ob[..count].to_vec()], 6, 0);
    }
    refused(&[ob.to_vec()], 8, 0);
}

#[test]
fn f17_either_of_the_two_zero_bytes_is_judged_before_the_length() {
    for place in [6, 7] {
        let mut ob = element(CHARACTER_SET, "OB", "");
        ob[8] = 1;
        refused(&[ob.clone()], 9, 0);
        ob[place] = 1;
        refused(&[ob], 8, 0);
    }
}

#[test]
fn f18_undefined_length_on_anything_but_a_sequence_or_item_is_9() {
    for vr in ["OB", "OD", "OF", "OL", "OV", "OW", "SV", "UC", "UN", "UR", "UT", "UV"] {
        refused(&[head(PIXEL_DATA, vr, UNDEFINED), item(&[]), sequence_end()], 9, 0);
    }
    refused(&[head(MODALITY, "CS", 0xFFFF)], 9, 0);
}

#[test]
fn f19_an_odd_length_is_9_even_past_the_end() {
    refused(&[head(MODALITY, "CS", 1), vec![b'M']], 9, 0);
    refused(&[head(MODALITY, "CS", 9_999)], 9, 0);
    refused(&[head(PIXEL_DATA, "OW", 0xFFFF_FFFD)], 9, 0);
    refused(&[head(REFERENCED_SERIES_SEQUENCE, "SQ", 0xFFFF_FFFD)], 9, 0);
    refused(&[sequence(REFERENCED_SERIES_SEQUENCE, &[mark(ITEM, 9_999)])], 9, 12);
}

#[test]
fn f19_an_even_length_past_the_end_is_6() {
    refused(&[head(MODALITY, "CS", 9_998)], 6, 0);
    refused(&[head(PIXEL_DATA, "OW", 0xFFFF_FFFE)], 6, 0);
    refused(&[head(REFERENCED_SERIES_SEQUENCE, "SQ", 0xFFFF_FFFE)], 6, 0);
    refused(&[sequence(REFERENCED_SERIES_SEQUENCE, &[mark(ITEM, 0xFFFF_FFFE)])], 6, 12);
}

#[test]
fn f20_a_late_shape_fault_beats_an_early_value_fault() {
    let bad_uid = element(SOP_INSTANCE_UID, "UI", "1..2");
    refused(std::slice::from_ref(&bad_uid), 11, 0);
    refused(&[bad_uid.clone(), head(PIXEL_DATA, "OW", 1)], 9, bad_uid.len());
    let bad_date = element(STUDY_DATE, "DA", "20201301");
    Station::shifting(0).expect_refusal(&[bad_date.clone(), vec![0]], 6, bad_date.len());
}

#[test]
fn f21_values_are_not_looked_into_for_shape() {
    let looks_wrong = join(&[sequence_end(), item(&[]), item_end(), vec![0xFF; 6]]);
    kept(&[element(CHARACTER_SET, "UN", &looks_wrong), element(PIXEL_DATA, "OB", &looks_wrong)]);
}

#[test]
fn f22_exactly_the_longest_data_set_is_accepted_and_one_byte_more_is_5() {
    const LONGEST: usize = 268_435_456;
    let mut data = vec![0; LONGEST + 1];
    data[..12].copy_from_slice(&head(PRIVATE, "OB", (LONGEST - 12) as u32));
    let station = Station { room: Some(140), ..Station::default() };
    assert_eq!(station.run(&data[..LONGEST]).counts(), [0, 0, 0, 1]);
    let refused = station.run(&data).report;
    assert_eq!((refused.refusal, refused.offset), (5, 0));
}

#[test]
fn f23_a_sequence_header_is_judged_before_its_contents_and_these_before_what_follows() {
    let bad_contents = [mark(ITEM, 1)];
    let mut bad_header = sequence(REFERENCED_SERIES_SEQUENCE, &bad_contents);
    refused(&[bad_header.clone(), vec![0]], 9, 12);
    bad_header[7] = 1;
    refused(&[bad_header, vec![0]], 8, 0);
}

#[test]
fn items_and_sequences_of_either_length_style_nest_freely() {
    let innermost = undefined_item(&[modality()]);
    let expected = undefined_nest(2, modality());
    for inner in [
        sequence(REFERENCED_SERIES_SEQUENCE, &[item(&[modality()])]),
        sequence(REFERENCED_SERIES_SEQUENCE, std::slice::from_ref(&innermost)),
        undefined_sequence(REFERENCED_SERIES_SEQUENCE, &[item(&[modality()])]),
        undefined_sequence(REFERENCED_SERIES_SEQUENCE, &[innermost]),
    ] {
        let station = Station::default();
        let expected = std::slice::from_ref(&expected);
        for item in [item(std::slice::from_ref(&inner)), undefined_item(&[inner])] {
            station.expect_export(
                &[sequence(REFERENCED_SERIES_SEQUENCE, std::slice::from_ref(&item))],
                expected,
            );
            station.expect_export(&[undefined_sequence(REFERENCED_SERIES_SEQUENCE, &[item])], expected);
        }
    }
}

#[test]
fn a_million_elements_and_items_do_not_exhaust_the_stack() {
    let many = 1_000_000;
    let items = item(&[]).repeat(many);
    let mut data = element(REFERENCED_SERIES_SEQUENCE, "SQ", items);
    for number in 0..many as u32 {
        data.extend(head(0x1000_0001 + (number >> 15 << 17 | (number & 0x7FFF)), "CS", 0));
    }
    let station = Station { room: Some(140 + 20 + 16 * many + 8 * many), ..Station::default() };
    assert_eq!(station.run(&data).counts(), [many as u64 + 1, 0, 0, 0]);
}
