//! Compares the proved library with the second program (`host/reference`) on inputs that are generated,
//! damaged and made by hand. Exit status 1 where they differ anywhere, or where an answer that must come up
//! never does; 2 for a wrong call.
//!
//! ```text
//! compare                   the gate's run
//! compare --long N [FROM]   the same with N seeds of each kind, from the seed FROM on, and all actions
//! compare --seed S          one seed, told in full
//! compare --planted NAME    the gate's run against a program with a planted fault: it must differ
//! compare --planted all     every planted fault, and what sees it; exit status 1 if one is not seen
//! ```
//!
//! | module | subject |
//! |---|---|
//! | `random`, `pieces`, `tags`, `values` | what data sets are made of |
//! | `generate` | data sets from seeds |
//! | `damage` | what can be wrong with them |
//! | `lent` | how they are lent |
//! | `view` | the comparison of view answers |
//! | `export` | the comparison of exports |
//! | `demand3` | pairs of batches with equal and with other kept content |
//! | `fates`, `action` | what is done with one element, and the comparison of the library's answers about it |
//! | `planted` | wrong programs, to see the comparison fail |
//! | `shrink` | a smaller data set with the same difference |
#![forbid(unsafe_code)]

mod action;
mod damage;
mod demand3;
mod export;
mod fates;
mod generate;
mod lent;
mod pieces;
mod planted;
mod random;
mod shrink;
mod tags;
mod values;
mod view;

use std::env;
use std::process::ExitCode;

/// How much one run compares.
struct Extent {
    /// The first seed.
    from: u64,
    /// How many seeds for views.
    views: u64,
    /// How many seeds for exports; each gives one run or a batch.
    exports: u64,
    /// How many seeds for demand 3; each gives up to four pairs of batches.
    pairs: u64,
    /// One in so many questions about actions is asked.
    every: usize,
}

/// What the gate compares.
const GATE: Extent = Extent { from: 0, views: 40_000, exports: 80_000, pairs: 4_000, every: 11 };

fn main() -> ExitCode {
    let words: Vec<String> = env::args().skip(1).collect();
    let words: Vec<&str> = words.iter().map(String::as_str).collect();
    match answer_to(&words) {
        Some(true) => ExitCode::SUCCESS,
        Some(false) => ExitCode::from(1),
        None => {
            eprintln!("usage: compare [--long N [FROM] | --seed S | --planted NAME | --planted all]");
            eprintln!(
                "planted faults: {}",
                planted::all().map(|fault| fault.0).collect::<Vec<_>>().join(" ")
            );
            ExitCode::from(2)
        }
    }
}

/// Does what the words ask for and says whether all was as it must be; none for words that ask for nothing.
fn answer_to(words: &[&str]) -> Option<bool> {
    let number = |word: &str| word.parse::<u64>().ok();
    let long = |count, from| Extent { from, views: count, exports: count, pairs: count / 10, every: 1 };
    let proved = (view::proved as view::View, export::proved as export::Station);
    Some(match *words {
        [] => run(proved, &GATE),
        ["--long", count] => run(proved, &long(number(count)?, 0)),
        ["--long", count, from] => run(proved, &long(number(count)?, number(from)?)),
        ["--seed", seed] => one_seed(number(seed)?),
        ["--planted", "all"] => planted::try_all(),
        ["--planted", name] => run(planted::named(name)?, &GATE),
        _ => return None,
    })
}

/// The edges, the longest data sets, those of seeds, pairs of batches, and actions. True if nothing differs and
/// everything came up that must.
fn run((view, station): (view::View, export::Station), extent: &Extent) -> bool {
    let seeds = |count: u64| (extent.from..extent.from.saturating_add(count)).inspect(|seed| tell(*seed));
    let mut views = view::Comparison::new(view);
    views.edges();
    views.longest();
    seeds(extent.views).for_each(|seed| views.seed(seed));
    views.print_differences();
    views.counts.print();

    let mut exports = export::comparison::Comparison::new(station);
    exports.edges();
    exports.longest();
    seeds(extent.exports).for_each(|seed| exports.seed(seed));
    let mut pairs = demand3::Pairs::default();
    seeds(extent.pairs).for_each(|seed| pairs.seed(seed, &mut exports));
    exports.print_differences();
    exports.counts.print();
    pairs.print();

    let actions = action::Actions::compare(library::action, extent.every);
    actions.print();

    let lacking = [
        views.counts.lacks_something(),
        exports.counts.lacks_something(),
        pairs.lacks_something(),
        actions.lacks_something(),
    ];
    let cases = views.counts.cases + exports.counts.runs + actions.cases;
    let differ = views.counts.differ + exports.counts.differ + pairs.wrong + actions.differ;
    println!("compare: {cases} cases, {differ} differ");
    differ == 0 && !lacking.contains(&true)
}

/// A sign of life in a long run.
fn tell(seed: u64) {
    if seed > 0 && seed.is_multiple_of(100_000) {
        eprintln!("compare: at seed {seed}");
    }
}

/// Everything about one seed.
fn one_seed(seed: u64) -> bool {
    view::print_seed(seed);
    export::comparison::print_seed(seed);
    let mut views = view::Comparison::new(view::proved);
    views.seed(seed);
    views.print_differences();
    let mut exports = export::comparison::Comparison::new(export::proved);
    exports.seed(seed);
    let mut pairs = demand3::Pairs::default();
    pairs.seed(seed, &mut exports);
    exports.print_differences();
    let cases = views.counts.cases + exports.counts.runs;
    let differ = views.counts.differ + exports.counts.differ + pairs.wrong;
    println!("compare: {cases} cases, {differ} differ");
    differ == 0
}
