//! Tests of what pairs of batches are made from.

use super::tree::{Contents, Node, bytes_of, tree_of};
use super::twins::{TASTE, Twin, alter};
use super::*;
use crate::view;

fn batch(random: &mut Random) -> Batch {
    (0..2).map(|_| tree_of(&DataSet::well_formed(random, TASTE))).collect()
}

#[test]
fn a_tree_is_well_formed_in_every_length_style() {
    for seed in 0..300 {
        let random = &mut Random::new(seed);
        for nodes in batch(random) {
            assert_eq!(view::expected(&bytes_of(&nodes, random), 0), view::Answer::ABSENT, "seed {seed}");
        }
    }
}

#[test]
fn altered_trees_have_rising_tags() {
    for seed in 0..300 {
        let random = &mut Random::new(seed);
        for mut nodes in batch(random) {
            (0..20).for_each(|_| alter(&mut nodes, random));
            let refusal = view::expected(&bytes_of(&nodes, random), 0).refusal;
            assert!(matches!(refusal, 0 | 10), "seed {seed}: {refusal}");
        }
    }
}

#[test]
fn a_twin_has_the_same_kept_content_and_other_bytes() {
    let mut others = 0;
    for seed in 0..300 {
        let random = &mut Random::new(seed);
        let (batch, fates) = (batch(random), &mut Fates::under(0));
        if run(&batch, &Settings::plain(), random, &mut |run| Some(run.expected())).is_none() {
            continue;
        }
        let twin = Twin::new(fates, random).batch(&batch);
        assert_eq!(kept::content(&batch, fates), kept::content(&twin, fates), "seed {seed}");
        others +=
            usize::from(bytes_of(&batch[0], &mut Random::new(0)) != bytes_of(&twin[0], &mut Random::new(0)));
    }
    assert!(others > 200, "{others}");
}

#[test]
fn kept_content_tells_a_renaming_that_is_not_one_to_one() {
    let uids = |one: &str, other: &str| {
        let node = |tag, uid: &str| Node { tag, vr: *b"UI", contents: Contents::Value(uid.into()) };
        vec![vec![node(0x0020_000D, one), node(0x0020_000E, other)]]
    };
    let content = |batch: Batch| kept::content(&batch, &mut Fates::under(0));
    assert_eq!(content(uids("1.2.30", "1.2.31")), content(uids("1.2.99", "1.2.30")));
    assert_ne!(content(uids("1.2.30", "1.2.31")), content(uids("1.2.30", "1.2.30")));
}

/// How many pairs fail on a station, of those of a hundred seeds.
fn failures(station: fn(&Run) -> Outcome) -> u64 {
    let mut pairs = Pairs::default();
    (0..100).for_each(|seed| pairs.seed_on(seed, &mut |run| Some(station(run))));
    assert!(!pairs.lacks_something());
    pairs.wrong
}

#[test]
fn the_second_program_meets_demand_3() {
    assert_eq!(failures(|run: &Run| run.expected()), 0);
}

#[test]
fn a_station_that_writes_the_markers_alone_fails() {
    let markers_alone = |run: &Run| {
        let nothing = Lent::among(&[], &[], 0);
        let Outcome { report, out, .. } = Run { data: &nothing, ..run.clone() }.expected();
        // Its counts and its ledger are right.
        let mut right = run.expected();
        (right.report.length, right.out) = (report.length, out);
        right
    };
    assert!(failures(markers_alone) > 50);
}

#[test]
fn a_station_that_copies_its_input_fails() {
    let copy = |run: &Run| {
        let mut right = run.expected();
        right.out = run.data.data().to_vec();
        right.report.length = right.out.len() as u64;
        right
    };
    assert!(failures(copy) > 50);
}

#[test]
fn a_station_that_renames_every_uid_to_one_uid_fails() {
    // Planted faults are planted for the whole program, so this one is made by hand.
    let all_one = |run: &Run| {
        let mut right = run.expected();
        let root = [&run.settings.root[..], b"."].concat();
        let places: Vec<usize> = (0..right.out.len().saturating_sub(root.len()))
            .filter(|&at| right.out[at..].starts_with(&root))
            .map(|at| at + root.len())
            .collect();
        places.into_iter().for_each(|at| right.out[at] = b'1');
        right
    };
    assert!(failures(all_one) > 5);
}
