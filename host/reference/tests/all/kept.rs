//! The readings K: kept content, the four counts, and the customer's third demand.

use crate::content::{Maker, Node, alter, random_level};
use crate::pieces::*;
use crate::rng::Rng;
use crate::station::*;

/// Runs data sets made from a batch in order, from a ledger with no entries.
fn exports(batch: &[Vec<Node>], maker: &mut Maker) -> Vec<Outcome> {
    let mut station = Station { study: entry(PATIENT_NAME, "SUBJ7"), ..Station::default() };
    let mut outcomes = vec![];
    for level in batch {
        let outcome = station.run(&maker.data_set(level));
        assert_eq!(outcome.report.refusal, 0);
        station.ledger.clone_from(&outcome.ledger);
        station.used = outcome.report.used;
        outcomes.push(outcome);
    }
    outcomes
}

fn bytes(outcomes: &[Outcome]) -> Vec<&[u8]> {
    outcomes.iter().map(Outcome::export).collect()
}

fn random_batch(seed: u64) -> Vec<Vec<Node>> {
    let mut rng = Rng::new(seed);
    (0..3).map(|_| random_level(&mut rng, 3)).collect()
}

#[test]
fn k8_equal_kept_content_up_to_one_renaming_gives_equal_exports() {
    for seed in 0..300 {
        let batch = random_batch(seed);
        let first = exports(&batch, &mut Maker::new(2 * seed));
        let second = exports(&batch, &mut Maker::new(2 * seed + 1));
        assert_eq!(bytes(&first), bytes(&second), "{batch:?}");
    }
}

#[test]
fn k9_equal_kept_content_gives_equal_counts_but_for_the_removed() {
    for seed in 0..300 {
        let batch = random_batch(seed);
        let first = exports(&batch, &mut Maker::new(2 * seed));
        let second = exports(&batch, &mut Maker::new(2 * seed + 1));
        for (one, other) in first.iter().zip(&second) {
            assert_eq!(one.counts()[..3], other.counts()[..3]);
            assert_eq!(one.report.used, other.report.used);
        }
    }
}

#[test]
fn k8_different_kept_content_gives_different_exports() {
    for seed in 0..300 {
        let batch = random_batch(seed);
        let mut altered = batch.clone();
        let mut rng = Rng::new(seed + 1_000);
        alter(&mut altered[rng.below(3)], &mut rng);
        let first = exports(&batch, &mut Maker::new(seed));
        let second = exports(&altered, &mut Maker::new(seed));
        assert_ne!(bytes(&first), bytes(&second), "{batch:?} {altered:?}");
    }
}

#[test]
fn k8_a_renaming_that_is_not_one_to_one_shows() {
    let uids = |first: usize, second: usize| {
        vec![vec![
            Node::Renamed { tag: SOP_INSTANCE_UID, uids: vec![first] },
            Node::Renamed { tag: STUDY_INSTANCE_UID, uids: vec![second] },
        ]]
    };
    let export = |batch: Vec<Vec<Node>>| bytes(&exports(&batch, &mut Maker::new(1))).concat();
    assert_eq!(export(uids(1, 2)), export(uids(4, 3)));
    assert_ne!(export(uids(1, 2)), export(uids(1, 1)));
}

#[test]
fn k8_the_renaming_holds_for_the_whole_batch() {
    let one = |uid| vec![Node::Renamed { tag: SOP_INSTANCE_UID, uids: vec![uid] }];
    let export = |batch: [usize; 2]| bytes(&exports(&batch.map(one), &mut Maker::new(1))).concat();
    assert_eq!(export([1, 2]), export([2, 1]));
    assert_ne!(export([1, 1]), export([1, 2]));
}

#[test]
fn k8_a_kept_uid_must_be_equal_as_bytes() {
    let station = Station::with(RETAIN_UIDS);
    let export = |uid: &str| station.run(&element(SOP_INSTANCE_UID, "UI", uid)).export().to_vec();
    assert_ne!(export("1.23"), export("1.24"));
    assert_eq!(Station::default().run(&element(SOP_INSTANCE_UID, "UI", "1.23")).counts(), [0, 0, 1, 0]);
}

#[test]
fn k11_the_counts_add_up_to_the_elements_of_walked_levels() {
    for seed in 0..300 {
        let mut maker = Maker::new(seed);
        let outcomes = exports(&random_batch(seed), &mut maker);
        let total: u64 = outcomes.iter().flat_map(Outcome::counts).sum();
        let removed: u64 = outcomes.iter().map(|outcome| outcome.report.removed).sum();
        assert_eq!((total, removed), (maker.elements, maker.removed));
    }
}

#[test]
fn k5_k6_items_are_hidden_under_z_and_d_and_shown_in_walked_sequences() {
    let run = |tag, items: &[Bytes]| Station::default().run(&sequence(tag, items)).export().to_vec();
    for hidden in [CONTAINER_ISSUER_SEQUENCE, CONTENT_SEQUENCE] {
        assert_eq!(run(hidden, &[]), run(hidden, &[item(&[]), item(&[])]));
    }
    let walked = REFERENCED_SERIES_SEQUENCE;
    assert_ne!(run(walked, &[]), run(walked, &[item(&[])]));
    assert_ne!(run(walked, &[item(&[])]), run(walked, &[item(&[]), item(&[])]));
}

#[test]
fn k7_a_ledger_with_entries_tells_its_uids_from_others() {
    let station = Station::with_ledger(&[slot("1.1"), slot("")], 1);
    let export = |uid: &str| station.run(&element(SOP_INSTANCE_UID, "UI", uid)).export().to_vec();
    assert_ne!(export("1.1\0"), export("1.2\0"));
    assert_eq!(export("1.3\0"), export("1.2\0"));
}

#[test]
fn k11_k12_each_treatment_counts_once() {
    let data = [
        element(0x0008_0000, "UL", [0; 4]),                 // removed
        element(CHARACTER_SET, "CS", ""),                   // kept
        element(SOP_INSTANCE_UID, "UI", "1.2.3\0"),         // renamed
        element(STUDY_DATE, "DA", ""),                      // shifted: replaced
        element(ACQUISITION_DATETIME, "DT", ""),            // shifted: replaced
        element(STUDY_TIME, "TM", "12"),                    // kept under C
        element(ACCESSION_NUMBER, "SH", ""),                // emptied: replaced
        nest(2, element(PATIENT_NAME, "PN", "")),           // two kept, one replaced
        element(ACQUISITION_FIELD_OF_VIEW_LABEL, "LO", ""), // dummy: replaced
        nest_in(CONTENT_SEQUENCE), // one empty item: replaced, its contents not counted
        element(ANNOTATION_GROUP_UID, "UI", ""), // renamed
    ];
    assert_eq!(Station::shifting(3).run(&data.concat()).counts(), [4, 6, 2, 1]);
}

fn nest_in(tag: u32) -> Bytes {
    sequence(tag, &[item(&[element(PATIENT_NAME, "PN", "")]), item(&[])])
}
