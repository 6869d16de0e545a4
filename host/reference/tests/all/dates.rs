//! The readings D: dates.

use crate::pieces::*;
use crate::station::*;

#[track_caller]
fn da(days: i64, old: &str, new: &str) {
    let outcome = Station::shifting(days)
        .expect_export(&[element(STUDY_DATE, "DA", old)], &[element(STUDY_DATE, "DA", new)]);
    assert_eq!(outcome.counts(), [0, 1, 0, 0]);
}

#[track_caller]
fn dt(days: i64, old: impl AsRef<[u8]>, new: impl AsRef<[u8]>) {
    let tag = ACQUISITION_DATETIME;
    let outcome =
        Station::shifting(days).expect_export(&[element(tag, "DT", old)], &[element(tag, "DT", new)]);
    assert_eq!(outcome.counts(), [0, 1, 0, 0]);
}

/// Expects 12 at an element that has another before it.
#[track_caller]
fn refused(days: i64, vr: &str, value: &str) {
    let data = [element(CHARACTER_SET, "CS", ""), element(STUDY_DATE, vr, value)];
    Station::shifting(days).expect_refusal(&data, 12, 8);
}

#[test]
fn d1_shift_0_judges_every_date_and_counts_it_as_replaced() {
    da(0, "20200301", "20200301");
    dt(0, "2020030112", "2020030112");
    refused(0, "DA", "20200230");
    refused(0, "DT", "20200230");
}

#[test]
fn d2_several_dates_are_joined_by_backslashes_with_one_space_if_odd() {
    da(-1, "20200301\\20190301 ", "20200229\\20190228 ");
    da(1, "20201231\\20200228\\20210228", "20210101\\20200229\\20210301");
}

#[test]
fn d2_there_is_no_limit_on_the_number_of_dates() {
    let many = |date: &str| vec![date; 7_001].join("\\");
    da(1, &many("20201231"), &many("20210101"));
}

#[test]
fn d2_anything_else_in_a_da_is_12() {
    let malformed = [
        "20200301-20200302 ",
        "2020.03.01",
        "20200301\\20190301\0",
        "20200301\\       ",
        "20200301  ",
        "  ",
        "20200301\\20200301\\",
        "20200301\\ ",
        "\\20200301 ",
        "20200301\\\\20200301",
        "2020",
        "202003",
        "2020030112",
        "-2020301",
        "2020030a",
        " 20200301 ",
        "\0\0",
    ];
    for value in malformed {
        refused(0, "DA", value);
    }
}

#[test]
fn d3_empty_dates_stay_empty_and_count_as_replaced() {
    da(7, "", "");
    dt(7, "", "");
}

#[test]
fn d4_in_a_dt_the_rest_of_each_value_is_copied_unjudged() {
    dt(-1, "20200301", "20200229");
    dt(-1, "20200301120000.000000+0100", "20200229120000.000000+0100");
    dt(-1, "2020030112\\20190301 ", "2020022912\\20190228 ");
    dt(-1, "20200301\0\0", "20200229\0\0");
    dt(-1, "20200301lunch time", "20200229lunch time");
    dt(-1, "20200301-20200302 ", "20200229-20200302 ");
    dt(
        -1,
        [b"20200301".to_vec(), vec![0xFF, 0x80]].concat(),
        [b"20200229".to_vec(), vec![0xFF, 0x80]].concat(),
    );
}

#[test]
fn d4_fewer_than_eight_characters_in_a_dt_are_12() {
    for value in
        ["2020", "202003", "  ", "\\\\", "20200301\\ ", "20200301\\2020 ", "\\20200301 ", "2020030\\20200301"]
    {
        refused(0, "DT", value);
    }
}

#[test]
fn d4_the_first_eight_characters_of_each_dt_value_must_be_a_real_day() {
    for value in ["2020-03-01", "20200230", "20200301\\20200230 ", "00000101", "20200001", " 20200301 "] {
        refused(0, "DT", value);
    }
    refused(-1, "DT", "00010101");
}

#[test]
fn d5_days_that_are_not_real_are_12_whatever_the_shift() {
    let unreal = [
        "00000101", "00001231", "20200001", "20201301", "20200100", "20200132", "20200431", "20200230",
        "20190229", "19000229", "21000229",
    ];
    for day in unreal {
        for days in [0, 1, -1, 366] {
            refused(days, "DA", day);
        }
    }
    for day in ["20000229", "20200229", "00040229", "00010101", "99991231"] {
        da(0, day, day);
    }
}

#[test]
fn d5_dates_may_not_leave_the_years() {
    refused(-1, "DA", "00010101");
    refused(-36_500, "DA", "01001207");
    refused(1, "DA", "99991231");
    refused(36_500, "DA", "99991231");
    da(-36_500, "01001208", "00010101");
    da(-1, "00010102", "00010101");
    da(1, "99991230", "99991231");
    da(36_500, "99000124", "99991231");
    refused(36_500, "DA", "99000125");
}

#[test]
fn d5_the_longest_shifts_cross_a_century() {
    da(36_500, "19000301", "20000205");
    da(-36_500, "20000205", "19000301");
}

#[test]
fn d6_the_offset_is_the_elements_for_any_of_its_dates() {
    refused(0, "DA", "20200301\\20200302\\20200230");
}

#[test]
fn d7_full_dates_and_no_date_option_do_not_judge_dates() {
    let malformed = [element(STUDY_DATE, "DA", "any day!"), element(ACQUISITION_DATETIME, "DT", "20")];
    let outcome = Station::with(FULL_DATES).expect_export(&malformed, &malformed);
    assert_eq!(outcome.counts(), [2, 0, 0, 0]);
    let replaced = [element(STUDY_DATE, "DA", ""), element(ACQUISITION_DATETIME, "DT", "19000101000000")];
    Station::default().expect_export(&malformed, &replaced);
}

#[test]
fn d8_a_date_on_a_tag_without_a_row_is_kept_and_not_shifted() {
    let kept = [element(MODALITY, "DA", "any day!")];
    Station::shifting(3).expect_export(&kept, &kept);
    let birth_date = [element(BIRTH_DATE, "DA", "20200301")];
    Station::shifting(3).expect_export(&birth_date, &[element(BIRTH_DATE, "DA", "")]);
}

#[test]
fn dates_in_items_are_shifted_too() {
    let outcome = Station::shifting(-1).expect_export(
        &[nest(8, element(STUDY_DATE, "DA", "20200301"))],
        &[undefined_nest(8, element(STUDY_DATE, "DA", "20200229"))],
    );
    assert_eq!(outcome.counts(), [8, 1, 0, 0]);
    Station::shifting(-1).expect_refusal(&[nest(8, element(STUDY_DATE, "DA", "20200230"))], 12, 160);
}
