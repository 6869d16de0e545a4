//! Tests of what the comparison is made from: the generator, the damage, the shrinker. The comparison itself
//! is run, not tested.

use std::collections::BTreeSet;

use crate::damage::{self, Damage};
use crate::generate::{DataSet, Kind, Taste};
use crate::lent::Lent;
use crate::pieces::*;
use crate::random::Random;
use crate::shrink::shrunk;
use crate::view::cases::Case;
use crate::view::{self, Answer, Comparison, Counts, edges, expected};

const SEEDS: u64 = 1_000;

fn well_formed(seed: u64) -> DataSet {
    DataSet::well_formed(&mut Random::new(seed), Taste::SHAPE)
}

#[test]
fn undamaged_data_sets_are_well_formed() {
    for seed in 0..SEEDS {
        assert_eq!(expected(&well_formed(seed).bytes, 0), Answer::ABSENT, "seed {seed}");
    }
}

#[test]
fn the_places_are_where_they_say() {
    for seed in 0..SEEDS / 10 {
        let set = well_formed(seed);
        let top = set.places.iter().filter(|place| place.container.is_none());
        for place in top {
            let tag = tag_at(&set.bytes, place.at).unwrap();
            let start = place.at + place.header;
            let part = Answer::found(start as u64, (place.end - start) as u64);
            assert_eq!(expected(&set.bytes, tag.into()), part, "seed {seed}");
        }
        for place in &set.places {
            let tag = match place.kind {
                Kind::Item => ITEM,
                Kind::ItemEnd => ITEM_END,
                Kind::SequenceEnd => SEQUENCE_END,
                Kind::Value | Kind::Sequence => continue,
            };
            assert_eq!(tag_at(&set.bytes, place.at), Some(tag));
        }
    }
}

#[test]
fn data_sets_that_are_too_deep_are_refused_for_that_alone() {
    for seed in 0..SEEDS {
        let set = DataSet::too_deep(&mut Random::new(seed), Taste::SHAPE);
        let item = set.first_too_deep().unwrap();
        assert_eq!(expected(&set.bytes, 0), Answer::refused(10, item.at as u64), "seed {seed}");
    }
}

#[test]
fn every_kind_of_thing_is_made() {
    let mut vrs = BTreeSet::new();
    let mut deepest = 0;
    let mut groups = BTreeSet::new();
    let mut largest_level = 0;
    let (mut empty_sets, mut empty_items, mut empty_sequences, mut empty_values) = (0, 0, 0, 0);
    let mut styles = BTreeSet::new();
    for set in (0..SEEDS).map(well_formed) {
        empty_sets += usize::from(set.bytes.is_empty());
        largest_level = largest_level.max(set.top_level_tags().len());
        for (index, place) in set.places.iter().enumerate() {
            let contents = place.end - place.at - place.header;
            match place.kind {
                Kind::Value => empty_values += usize::from(contents == 0),
                Kind::Sequence => empty_sequences += usize::from(contents == 0),
                Kind::Item => empty_items += usize::from(contents == 0),
                Kind::ItemEnd | Kind::SequenceEnd => continue,
            }
            if place.kind != Kind::Item {
                vrs.insert(vr_at(&set.bytes, place.at).unwrap());
                groups.insert(tag_at(&set.bytes, place.at).unwrap() >> 16);
            }
            if let Some(container) = place.container {
                styles.insert((place.undefined, set.places[container].undefined));
            }
            deepest = deepest.max(set.depth(index));
        }
    }
    assert_eq!(vrs.len(), 34);
    assert_eq!(deepest, 8);
    assert_eq!(styles.len(), 4);
    assert!(largest_level > 300, "{largest_level}");
    assert!(empty_sets > 0 && empty_items > 0 && empty_sequences > 0 && empty_values > 0);
    assert!(groups.range(0x5000..=0x50FF).count() > 50 && groups.range(0x6000..=0x60FF).count() > 50);
    assert!(groups.iter().filter(|&group| group % 2 == 1).count() > 100);
    assert_eq!((groups.first(), groups.last()), (Some(&0x0008), Some(&0xFFFD)));
}

/// The refusals that a damage leads to, over many data sets.
fn refusals(damage: Damage) -> BTreeSet<u64> {
    let strike = |seed| {
        let random = &mut Random::new(seed);
        let mut set = DataSet::well_formed(random, Taste::SHAPE);
        damage.strike(&mut set, random)?;
        Some(expected(&set.bytes, 0).refusal)
    };
    (0..SEEDS).filter_map(strike).collect()
}

#[track_caller]
fn leads_to(damage: Damage, wanted: &[u64]) {
    let got = refusals(damage);
    assert!(wanted.iter().all(|number| got.contains(number)), "{damage:?} leads to {got:?}");
}

#[test]
fn each_damage_leads_to_the_refusals_it_is_for() {
    leads_to(Damage::Cut, &[0, 6]);
    leads_to(Damage::CutToFit, &[0, 6, 9]);
    leads_to(Damage::Bits, &[0, 6, 7, 8, 9]);
    leads_to(Damage::Overwritten, &[0, 6, 7, 8, 9]);
    leads_to(Damage::PutIn, &[6, 7, 8, 9]);
    leads_to(Damage::TakenOut, &[6, 7, 8, 9]);
    leads_to(Damage::Length, &[6, 7, 9]);
    leads_to(Damage::ElementTag, &[0, 7]);
    leads_to(Damage::ItemTag, &[7]);
    leads_to(Damage::Vr, &[0, 6, 7, 8, 9]);
    leads_to(Damage::ZeroBytes, &[8]);
    leads_to(Damage::MarkSwapped, &[7]);
    leads_to(Damage::MarkRemoved, &[6, 7]);
    leads_to(Damage::MarkDoubled, &[7]);
    leads_to(Damage::MarkLength, &[9]);
    leads_to(Damage::MarkPutIn, &[6, 7]);
    leads_to(Damage::Leftover, &[6, 7, 8]);
    leads_to(Damage::Doubled, &[0, 7]);
    leads_to(Damage::Exchanged, &[7]);
}

#[test]
fn damage_at_the_ninth_item_shows_what_goes_before_its_depth() {
    let strike = |seed| {
        let random = &mut Random::new(seed);
        let mut set = DataSet::too_deep(random, Taste::SHAPE);
        let item = set.first_too_deep().unwrap();
        damage::at(&item, &mut set, random);
        let answer = expected(&set.bytes, 0);
        (answer.offset == item.at as u64).then_some(answer.refusal)
    };
    let got: BTreeSet<u64> = (0..SEEDS).filter_map(strike).collect();
    assert!([6, 7, 10].iter().all(|number| got.contains(number)), "{got:?}");
}

#[test]
fn some_damage_is_always_a_fault() {
    for damage in [Damage::ZeroBytes, Damage::MarkLength, Damage::MarkSwapped, Damage::Exchanged] {
        assert!(!refusals(damage).contains(&0), "{damage:?}");
    }
    assert_eq!(refusals(Damage::ZeroBytes).into_iter().collect::<Vec<_>>(), [8]);
    assert_eq!(refusals(Damage::MarkLength).into_iter().collect::<Vec<_>>(), [9]);
}

#[test]
fn damage_upon_damage_goes_well() {
    for seed in 0..SEEDS {
        let random = &mut Random::new(seed);
        let mut set = DataSet::well_formed(random, Taste::SHAPE);
        for _ in 0..20 {
            damage::any(&mut set, random);
        }
        expected(&set.bytes, 0);
    }
}

#[test]
fn a_seed_gives_the_same_case_again() {
    for seed in 0..100 {
        let (one, other) = (Case::of_seed(seed), Case::of_seed(seed));
        assert_eq!(one.lent.data_and_behind(), other.lent.data_and_behind());
        assert_eq!(one.tags, other.tags);
    }
}

#[test]
fn the_second_program_gives_the_answers_of_the_readings() {
    for edge in edges::all() {
        assert_eq!(expected(&edge.data, edge.tag), edge.answer, "{}", edge.name);
    }
}

#[test]
fn edges_have_names_of_their_own() {
    let edges = edges::all();
    assert_eq!(edges.iter().map(|edge| edge.name).collect::<BTreeSet<_>>().len(), edges.len());
}

#[test]
fn shrinking_leaves_what_is_wrong() {
    let data: Bytes = (0..=255).cycle().take(1_000).collect();
    let small =
        shrunk(&Lent::among(&data, &[], 3), |lent| lent.data().contains(&7) && lent.data().contains(&200));
    assert_eq!(small.data(), [7, 200]);
}

#[test]
fn a_run_in_which_an_answer_never_comes_up_is_told() {
    assert!(Counts::default().lacks_something());
    let mut comparison = Comparison::new(view::proved);
    comparison.edges();
    assert!(comparison.counts.lacks_something(), "5 comes up with the longest alone");
    comparison.longest();
    assert!(!comparison.counts.lacks_something());
}
