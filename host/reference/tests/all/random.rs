//! Damaged data sets and odd settings. What must hold for every run is checked by the station of the tests.

use std::collections::BTreeMap;

use reference::view;

use crate::content::{Maker, random_level};
use crate::pieces::*;
use crate::rng::Rng;
use crate::station::*;

/// A few bytes changed, bytes cut off, or bytes put in.
fn damage(data: &mut Bytes, rng: &mut Rng) {
    for _ in 0..1 + rng.below(3) {
        if data.is_empty() {
            return;
        }
        let place = rng.below(data.len());
        match rng.below(8) {
            0 => data.truncate(place),
            1 => data.insert(place, rng.byte()),
            2 => data.extend_from_slice(&[0; 5][..rng.below(5)]),
            3 => data[place] = rng.byte(),
            4 => data[place] ^= 1 << rng.below(8),
            _ => data[place] = rng.pick(&[0, 1, 2, 8, 0xFF, 0xFE, b'\\', b' ', b'0']),
        }
    }
}

fn random_station(rng: &mut Rng) -> Station {
    let options = rng.pick(&[0, 2, 2, 4, 8, 10, 16, 32, 62]);
    Station {
        options,
        shift: if options & 2 == 2 { rng.pick(&[0, 1, -1, 36_500]) } else { 0 },
        ledger: vec![0; rng.pick(&[0, 64, 200, 1_000])],
        site: entry(PATIENT_NAME, "SUBJ7"),
        room: if rng.one_in(4) { Some(rng.below(600)) } else { None },
        ..Station::default()
    }
}

#[test]
fn damaged_data_sets_are_exported_or_refused_and_both_entries_agree_on_their_shape() {
    let mut seen = BTreeMap::<u64, u32>::new();
    for seed in 0..20_000 {
        let mut rng = Rng::new(seed);
        let level = random_level(&mut rng, 2);
        let mut data = Maker::new(seed).data_set(&level);
        data.extend(element(0x7000_0001, "DA", "20200301"));
        if rng.one_in(8) {
            data = join(&[nest(7 + rng.below(3), vec![]), element(STUDY_INSTANCE_UID, "UI", "1.2.3\0")]);
        }
        if !rng.one_in(4) {
            damage(&mut data, &mut rng);
        }
        let report = random_station(&mut rng).run(&data).report;
        let shape = view(&data, 0);
        if shape.refusal != 0 {
            assert_eq!((report.refusal, report.offset), (shape.refusal, shape.offset));
            assert!(report.offset <= data.len() as u64);
        } else {
            assert!(matches!(report.refusal, 0 | 11..=14));
        }
        *seen.entry(report.refusal).or_default() += 1;
    }
    for number in [0, 6, 7, 8, 9, 10, 11, 13, 14] {
        assert!(seen.get(&number).is_some_and(|&times| times > 20), "{number} in {seen:?}");
    }
}

#[test]
fn an_export_goes_through_again_and_keeps_its_length() {
    // The second run has the same kept content but for the UIDs, which have as many digits, and the markers,
    // which are removed and written anew.
    for seed in 0..500 {
        let mut rng = Rng::new(seed);
        let data = Maker::new(seed).data_set(&random_level(&mut rng, 3));
        let station = Station::default();
        let once = station.run(&data);
        let twice = station.run(once.export());
        assert_eq!(twice.report.refusal, 0);
        assert_eq!(twice.report.removed, 3);
        assert_eq!(twice.export(), once.export());
    }
}

#[test]
fn bytes_without_any_order_are_refused_or_exported() {
    for seed in 0..20_000 {
        let mut rng = Rng::new(seed);
        let data: Bytes =
            (0..rng.below(40)).map(|_| rng.pick(&[0, 8, 16, b'S', b'Q', b'U', b'I', 0xFE])).collect();
        let refusal = random_station(&mut rng).run(&data).report.refusal;
        assert_eq!(refusal == 0 || refusal > 10, view(&data, 0).refusal == 0);
    }
}
