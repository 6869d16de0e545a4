//! The readings V: the second entry.

use reference::{View, view};

use crate::pieces::*;

const ABSENT: View = View { refusal: 0, offset: 0, found: false, start: 0, len: 0 };

fn found(start: usize, len: usize) -> View {
    View { found: true, start, len, ..ABSENT }
}

fn refused(refusal: u64, offset: u64) -> View {
    View { refusal, offset, ..ABSENT }
}

fn modality() -> Bytes {
    element(MODALITY, "CS", "MR")
}

#[test]
fn v1_the_whole_shape_is_judged_first() {
    let data = join(&[modality(), vec![0; 3]]);
    assert_eq!(view(&data, MODALITY.into()), refused(6, 10));
    assert_eq!(view(&data[..10], MODALITY.into()), found(8, 2));
}

#[test]
fn v1_each_refusal_of_shape_has_its_offset() {
    let tag = MODALITY.into();
    assert_eq!(view(&join(&[modality(), modality()]), tag), refused(7, 10));
    assert_eq!(view(&join(&[modality(), element(PATIENT_NAME, "XX", "")]), tag), refused(8, 10));
    assert_eq!(view(&join(&[modality(), head(PATIENT_NAME, "PN", 1)]), tag), refused(9, 10));
    assert_eq!(view(&join(&[modality(), nest(9, vec![])]), tag), refused(10, 182));
}

#[test]
fn v1_a_data_set_that_is_too_long_is_5() {
    let data = vec![0; 268_435_457];
    assert_eq!(view(&data, MODALITY.into()), refused(5, 0));
    assert_eq!(view(&data[1..], MODALITY.into()), refused(7, 0));
}

#[test]
fn v2_only_the_top_level_is_searched() {
    let data = nest(2, modality());
    assert_eq!(view(&data, MODALITY.into()), ABSENT);
    let data = join(&[data, element(PATIENT_NAME, "PN", "Doe^Jane")]);
    assert_eq!(view(&data, MODALITY.into()), ABSENT);
    assert_eq!(view(&data, PATIENT_NAME.into()), found(58, 8));
}

#[test]
fn v2_an_item_with_the_tag_asked_for_does_not_hide_the_top_level_one() {
    let data = join(&[
        modality(),
        sequence(REFERENCED_SERIES_SEQUENCE, &[item(&[element(PATIENT_NAME, "PN", "Inside")])]),
        element(PATIENT_NAME, "PN", "Top "),
    ]);
    assert_eq!(view(&data, PATIENT_NAME.into()), found(data.len() - 4, 4));
    let data = &data[..data.len() - 12];
    assert_eq!(view(data, PATIENT_NAME.into()), ABSENT);
}

#[test]
fn v2_tags_that_are_never_allowed_are_absent() {
    let data = undefined_nest(1, modality());
    for tag in [0, ITEM, ITEM_END, SEQUENCE_END, 0xFFFF_0001, u32::MAX] {
        assert_eq!(view(&data, tag.into()), ABSENT);
    }
}

#[test]
fn v2_numbers_that_are_no_tags_are_absent() {
    let data = modality();
    for above in [1 << 32, 1 << 40, 1 << 63, 0xFFFF_FFFF << 32] {
        assert_eq!(view(&data, above | u64::from(MODALITY)), ABSENT);
    }
    assert_eq!(view(&data, u64::MAX), ABSENT);
}

#[test]
fn v3_a_value_begins_after_its_length_field() {
    let data = join(&[modality(), element(PIXEL_DATA, "OW", vec![7; 70_000])]);
    assert_eq!(view(&data, PIXEL_DATA.into()), found(22, 70_000));
}

#[test]
fn v3_a_stated_sequence_is_shown_with_its_items() {
    let data = join(&[
        sequence(REFERENCED_SERIES_SEQUENCE, &[item(&[modality()])]),
        element(PATIENT_NAME, "PN", ""),
    ]);
    assert_eq!(view(&data, REFERENCED_SERIES_SEQUENCE.into()), found(12, 18));
}

#[test]
fn v3_an_undefined_sequence_is_shown_with_its_end_mark() {
    let data = join(&[
        undefined_sequence(REFERENCED_SERIES_SEQUENCE, &[undefined_item(&[modality()])]),
        element(PATIENT_NAME, "PN", ""),
    ]);
    assert_eq!(view(&data, REFERENCED_SERIES_SEQUENCE.into()), found(12, 8 + 10 + 8 + 8));
    let data = undefined_sequence(REFERENCED_SERIES_SEQUENCE, &[]);
    assert_eq!(view(&data, REFERENCED_SERIES_SEQUENCE.into()), found(12, 8));
}

#[test]
fn v4_an_empty_element_is_found() {
    let data = element(PATIENT_NAME, "PN", "");
    let answer = view(&data, PATIENT_NAME.into());
    assert!(answer.found);
    assert_eq!(answer.len, 0);
    assert_eq!(view(&[], PATIENT_NAME.into()), ABSENT);
}

#[test]
fn v5_values_are_not_judged() {
    let data = join(&[element(SOP_INSTANCE_UID, "UI", "bad!"), element(STUDY_DATE, "DA", "any day!")]);
    assert_eq!(view(&data, STUDY_DATE.into()), found(20, 8));
}
