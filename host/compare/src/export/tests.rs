//! Tests of what the comparison of exports is made from.

use std::collections::BTreeSet;

use super::cases::Case;
use super::comparison::Comparison;
use super::{Ledger, Outcome, Run, Settings, edges, lists, second};
use crate::lent::Lent;
use crate::random::Random;

fn refusal_of(settings: &Settings) -> u64 {
    let data = Lent::among(&[], &[], 0);
    Run { settings, data: &data, ledger: &Ledger::empty(1), room: 1_000 }.expected().report.refusal
}

#[test]
fn accepted_settings_are_accepted() {
    for seed in 0..2_000 {
        let settings = Settings::accepted(&mut Random::new(seed), &[0x0010_0010]);
        assert_eq!(refusal_of(&settings), 0, "seed {seed}: {settings:?}");
    }
}

#[test]
fn spoilt_settings_are_refused() {
    let mut seen = BTreeSet::new();
    for seed in 0..2_000 {
        let random = &mut Random::new(seed);
        let mut settings = Settings::accepted(random, &[]);
        settings.spoil(random);
        seen.insert(refusal_of(&settings));
    }
    assert_eq!(seen.into_iter().collect::<Vec<_>>(), [1, 2, 4]);
}

#[test]
fn wrong_lists_are_refused_and_others_are_not() {
    for seed in 0..1_000 {
        let random = &mut Random::new(seed);
        let good = Settings { site: lists::any(random, &[1, 2, 3]), ..Settings::plain() };
        let bad = Settings { study: lists::wrong(random), ..Settings::plain() };
        assert_eq!((refusal_of(&good), refusal_of(&bad)), (0, 4), "seed {seed}");
    }
}

#[test]
fn the_entry_of_document_01_is_written() {
    assert_eq!(super::entry(0x0010_0010, "SUBJ7"), [0x90, 0x80, 0x40, 5, b'S', b'U', b'B', b'J', b'7']);
}

#[test]
fn a_count_that_is_overstated_is_above_the_slots() {
    for seed in 0..1_000 {
        let random = &mut Random::new(seed);
        let mut ledger = Ledger::in_use(random, &[]);
        ledger.add_free_slots(random, 3, &[]);
        ledger.overstate(random);
        let data = Lent::among(&[], &[], 0);
        let run = Run { settings: &Settings::plain(), data: &data, ledger: &ledger, room: 1_000 };
        let Outcome { report, ledger: after, .. } = run.expected();
        assert_eq!((report.refusal, report.used, after), (3, ledger.used, ledger.bytes), "seed {seed}");
    }
}

#[test]
fn a_seed_gives_the_same_case_again() {
    for seed in 0..200 {
        let (one, other) = (Case::of_seed(seed), Case::of_seed(seed));
        assert_eq!((one.settings, one.ledger, one.made), (other.settings, other.ledger, other.made));
        let bytes = |case: &[(Lent, usize)]| -> Vec<_> {
            case.iter().map(|(lent, room)| (lent.data_and_behind().to_vec(), *room)).collect()
        };
        assert_eq!(bytes(&one.sets), bytes(&other.sets));
    }
}

#[test]
fn the_second_program_does_what_document_01_says() {
    for edge in edges::all() {
        assert_eq!(edge.fault_of(&edge.run().expected()), None, "{}", edge.name);
    }
}

#[test]
fn edges_have_names_of_their_own() {
    let edges = edges::all();
    assert_eq!(edges.iter().map(|edge| edge.name).collect::<BTreeSet<_>>().len(), edges.len());
}

#[test]
fn a_run_in_which_a_refusal_never_comes_up_is_told() {
    let mut comparison = Comparison::new(second);
    assert!(comparison.counts.lacks_something());
    (0..3_000).for_each(|seed| comparison.seed(seed));
    assert!(comparison.counts.lacks_something(), "5 comes up with the longest alone");
    comparison.longest();
    assert!(!comparison.counts.lacks_something());
    assert_eq!(comparison.counts.differ, 0);
}

#[test]
fn lists_shifts_and_ledgers_make_a_difference() {
    let (mut by_list, mut by_shift, mut by_ledger) = (0, 0, 0);
    for seed in 0..1_000 {
        let Case { settings, ledger, sets, .. } = Case::of_seed(seed);
        let (data, room) = &sets[0];
        let export = |settings: &Settings, ledger: &Ledger| {
            let outcome = Run { settings, data, ledger, room: *room }.expected();
            (outcome.report.refusal == 0).then_some(outcome.out)
        };
        let Some(out) = export(&settings, &ledger) else { continue };
        let differs =
            |settings: &Settings, ledger: &Ledger| export(settings, ledger).is_some_and(|other| other != out);
        let unlisted = Settings { study: vec![], site: vec![], ..settings.clone() };
        let still = Settings { shift: 0, ..settings.clone() };
        by_list += usize::from(differs(&unlisted, &ledger));
        by_shift += usize::from(differs(&still, &ledger));
        by_ledger += usize::from(differs(&settings, &Ledger { used: 0, ..ledger.clone() }));
    }
    assert!(by_list > 50 && by_shift > 20 && by_ledger > 10, "{by_list} {by_shift} {by_ledger}");
}
