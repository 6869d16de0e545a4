//! Planted faults: views that are wrong in one thing (`view::planted`), and the second program with one fault in
//! it (`host/planted`). The comparison must see each of them.

use crate::export::{self, Report, Request, comparison};
use crate::view::planted::{ALL, Fault};
use crate::view::{self, View};

/// How many seeds a planted fault is tried with, at most.
const SEEDS: u64 = 20_000;

/// What is wrong: a view, or the second program with the fault of this number.
pub enum Wrong {
    View(View),
    Station(usize),
}

/// Every fault: its name, and what is wrong in words.
pub fn all() -> impl Iterator<Item = (&'static str, &'static str, Wrong)> {
    let views = ALL.into_iter().map(|Fault { name, what, view }| (name, what, Wrong::View(view)));
    let stations = planted::FAULTS.iter().enumerate();
    views.chain(stations.map(|(number, (name, what))| (*name, *what, Wrong::Station(number))))
}

/// The second program with the fault that was planted last.
pub fn station(request: &Request, ledger: &mut [u8], out: &mut [u8]) -> Report {
    let Request { data, options, shift, root, study, site, used } = *request;
    let planted::Report { refusal, offset, length, used, kept, replaced, renamed, removed } =
        planted::deidentify(data, options, shift, root, study, site, ledger, used, out);
    Report { refusal, offset, length, used, kept, replaced, renamed, removed }
}

/// Tries each fault twice, with the cases made by hand and with those of seeds, each up to the first
/// difference. True if all were seen.
pub fn try_all() -> bool {
    let (mut count, mut seen) = (0, 0);
    for (name, what, wrong) in all() {
        let (by_hand, by_seed) = match wrong {
            Wrong::View(view) => first_views(view),
            Wrong::Station(number) => {
                planted::plant(number);
                first_exports()
            }
        };
        count += 1;
        seen += usize::from(by_hand.is_some() || by_seed.is_some());
        println!("{name}: {what}");
        println!("    by hand: {}", by_hand.as_deref().unwrap_or("-"));
        println!("    by seed: {}", by_seed.as_deref().unwrap_or("-"));
    }
    println!("planted: {count} faults, {seen} seen");
    seen == count
}

/// Where the first difference was, if there was one.
type First = Option<String>;

fn first_views(view: View) -> (First, First) {
    let mut by_hand = view::Comparison::up_to_first(view);
    by_hand.edges();
    by_hand.longest();
    let mut by_seed = view::Comparison::up_to_first(view);
    let _ = (0..SEEDS).find(|&seed| {
        by_seed.seed(seed);
        by_seed.is_over()
    });
    (by_hand.first(), by_seed.first())
}

fn first_exports() -> (First, First) {
    let mut by_hand = comparison::Comparison::up_to_first(station);
    by_hand.edges();
    let mut by_seed = comparison::Comparison::up_to_first(station);
    let _ = (0..SEEDS).find(|&seed| {
        by_seed.seed(seed);
        by_seed.is_over()
    });
    (by_hand.first(), by_seed.first())
}

/// The view and the station that are compared with a fault of this name.
pub fn named(name: &str) -> Option<(View, export::Station)> {
    let (_, _, wrong) = all().find(|(other, _, _)| *other == name)?;
    Some(match wrong {
        Wrong::View(view) => (view, export::proved),
        Wrong::Station(number) => {
            planted::plant(number);
            (view::proved, station)
        }
    })
}
