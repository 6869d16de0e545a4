//! The readings R: settings, the order of refusals, and what they leave.

use crate::pieces::*;
use crate::station::*;

#[test]
fn r6_option_numbers_above_63_are_refused_with_1() {
    for options in [64, 65, 128, 255, 256, 1 << 32, 1 << 63, u64::MAX] {
        Station::with(options).expect_refusal(&[], 1, 0);
    }
    Station::with(62).expect_export(&[], &[]);
    Station::with(61).expect_export(&[], &[]);
}

#[test]
fn r6_both_date_options_are_refused_with_1() {
    for options in (0..64).filter(|options| options & 3 == 3) {
        Station::with(options).expect_refusal(&[], 1, 0);
    }
}

#[test]
fn r6_a_shift_out_of_range_is_refused_with_1() {
    for days in [-36_500, 36_500, 0, 1, -1] {
        Station::shifting(days).expect_export(&[], &[]);
    }
    for days in [-36_501, 36_501, i64::MIN, i64::MAX, 1 << 32, -(1 << 32)] {
        Station::shifting(days).expect_refusal(&[], 1, 0);
    }
}

#[test]
fn r6_a_shift_without_modified_dates_is_refused_with_1_unless_0() {
    for options in (0..64).filter(|options| options & 3 <= 1) {
        Station { shift: 1, ..Station::with(options) }.expect_refusal(&[], 1, 0);
        Station { shift: -36_500, ..Station::with(options) }.expect_refusal(&[], 1, 0);
        Station::with(options).expect_export(&[], &[]);
    }
}

#[test]
fn a_root_that_is_no_uid_is_refused_with_2() {
    for root in ["", ".", "1.", ".1", "1..2", "01", "1.02", "1.a", "1.2 ", "1.2\0", "1\\2"] {
        Station { root: root.into(), ..Station::default() }.expect_refusal(&[], 2, 0);
    }
    for root in ["0", "1", "2.25", "1.0.1"] {
        Station { root: root.into(), ..Station::default() }.expect_export(&[], &[]);
    }
}

#[test]
fn r1_refusals_1_to_5_are_tried_in_their_order_and_before_the_data() {
    let mut station = Station {
        options: 64,
        root: vec![],
        ledger: vec![1; 64],
        used: 2,
        study: vec![0x80],
        room: Some(0),
        ..Station::default()
    };
    let too_long = vec![0; 268_435_457];
    let mut refusals = vec![];
    let mut repairs: [&mut dyn FnMut(&mut Station); 4] = [
        &mut |station| station.options = 0,
        &mut |station| station.root = b"1.9".to_vec(),
        &mut |station| station.used = 1,
        &mut |station| station.study = vec![],
    ];
    refusals.push(station.run(&too_long).report.refusal);
    for repair in &mut repairs {
        repair(&mut station);
        refusals.push(station.run(&too_long).report.refusal);
    }
    refusals.push(station.run(&[0; 8]).report.refusal);
    assert_eq!(refusals, [1, 2, 3, 4, 5, 7]);
}

#[test]
fn r3_the_rest_of_the_ledger_is_zeroed_by_every_refusal() {
    // Each run is checked for that; here the slots in use are seen to stay, garbage or not.
    let ledger = [slot("1.2.3"), vec![0xEE; 64], vec![0xDD; 64], vec![0xCC; 10]].concat();
    let station = Station { ledger, used: 2, ..Station::default() };
    let left = [slot("1.2.3"), vec![0xEE; 64], vec![0; 74]].concat();
    let uid = [element(SOP_INSTANCE_UID, "UI", "1.4\\1.5\0")];
    for (station, number) in [
        (Station { options: 99, ..station.clone() }, 1),
        (Station { root: vec![], ..station.clone() }, 2),
        (Station { site: vec![0x80], ..station.clone() }, 4),
        (station.clone(), 13),
    ] {
        assert_eq!(station.expect_refusal(&uid, number, 0).ledger, left);
    }
    assert_eq!(station.expect_refusal(&[vec![0]], 6, 0).ledger, left);
}

#[test]
fn r4_11_and_12_are_found_in_one_pass() {
    let bad_uid = |tag| element(tag, "UI", "1..2");
    let bad_date = element(STUDY_DATE, "DA", "20200230");
    let station = Station::shifting(0);
    station.expect_refusal(&[bad_uid(SOP_INSTANCE_UID), bad_date.clone()], 11, 0);
    station.expect_refusal(&[bad_date, bad_uid(STUDY_INSTANCE_UID)], 12, 0);
}

#[test]
fn r4_a_fault_in_an_item_comes_before_what_follows_the_sequence() {
    let bad_date = element(STUDY_DATE, "DA", "20200230");
    let data = [nest(2, bad_date), element(STUDY_INSTANCE_UID, "UI", "1..2")];
    Station::shifting(0).expect_refusal(&data, 12, 40);
}

#[test]
fn r5_values_in_hidden_places_are_never_judged() {
    let bad = item(&[element(SOP_INSTANCE_UID, "UI", "1..2"), element(STUDY_DATE, "DA", "20200230")]);
    for tag in [PRIVATE, ADMITTING_DIAGNOSES_SEQUENCE, CONTAINER_ISSUER_SEQUENCE, CONTENT_SEQUENCE] {
        let data = sequence(tag, &[item(&[nest(2, bad[8..].to_vec())])]);
        assert_eq!(Station::shifting(0).run(&data).report.refusal, 0);
    }
}

#[test]
fn r7_a_room_of_just_the_length_is_enough() {
    let data = join(&[nest(3, element(MODALITY, "CS", "MR")), element(PATIENT_NAME, "PN", "Doe^Jane")]);
    let need = usize::try_from(Station::default().run(&data).report.length).unwrap();
    let whole = Station::default().run(&data).export().to_vec();
    for room in 0..need {
        let station = Station { room: Some(room), ..Station::default() };
        assert_eq!(station.run(&data).report.refusal, 14, "{room}");
    }
    for room in [need, need + 1, need + 1_000] {
        let station = Station { room: Some(room), ..Station::default() };
        assert_eq!(station.run(&data).export(), whole);
    }
}

#[test]
fn r7_nothing_fits_in_less_than_140_bytes() {
    Station { room: Some(140), ..Station::default() }.expect_export(&[], &[]);
    Station { room: Some(139), ..Station::default() }.expect_refusal(&[], 14, 0);
    Station { room: Some(0), ..Station::default() }.expect_refusal(&[], 14, 0);
}

#[test]
fn r8_13_goes_before_14() {
    let station = Station { room: Some(0), ledger: vec![], ..Station::default() };
    station.expect_refusal(&[element(SOP_INSTANCE_UID, "UI", "1.2\0")], 13, 0);
    station.expect_refusal(&[element(SOP_INSTANCE_UID, "UI", "")], 14, 0);
}

#[test]
fn r4_11_and_12_go_before_13_and_14() {
    let station = Station { room: Some(0), ledger: vec![], ..Station::shifting(0) };
    let uid = element(SOP_INSTANCE_UID, "UI", "1.2\0");
    station.expect_refusal(&[uid.clone(), element(STUDY_DATE, "DA", "20200230")], 12, 12);
    station.expect_refusal(&[uid, element(STUDY_INSTANCE_UID, "UI", "1..2")], 11, 12);
}
