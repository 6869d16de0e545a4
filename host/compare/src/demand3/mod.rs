//! Demand 3, tried on pairs of batches: outputs are equal byte for byte exactly if kept content is, up to one
//! one-to-one renaming of the batch's UIDs. What kept content is made of follows document 01. What is done with
//! a single element is asked of the second program (`fates`); the walk over a data set is this module's own.
//!
//! | module | subject |
//! |---|---|
//! | `tree` | data sets as trees, and back to bytes in any length style |
//! | `kept` | kept content, with UIDs as numbers |
//! | `twins` | batches with the same kept content, and batches with one thing changed |

mod kept;
#[cfg(test)]
mod tests;
mod tree;
mod twins;

use tree::{Node, bytes_of, tree_of};
use twins::{Twin, alter, alter_uid};

use crate::export::comparison::Comparison;
use crate::export::{Ledger, Outcome, Run, Settings, entry, most_room};
use crate::fates::Fates;
use crate::generate::DataSet;
use crate::lent::Lent;
use crate::random::Random;

/// How many failures are shown; the others are counted.
const SHOWN: u64 = 3;

/// How many pairs were tried, by whether their kept content is equal, and how many were not as demanded.
#[derive(Default)]
pub struct Pairs {
    equal: u64,
    different: u64,
    refused: u64,
    pub wrong: u64,
}

type Batch = Vec<Vec<Node>>;

/// Runs a station once; none if it is not to be looked at further.
pub type Runner<'r> = &'r mut dyn FnMut(&Run) -> Option<Outcome>;

impl Pairs {
    /// A batch of a seed with four others: a twin, a twin with one thing changed, itself with one thing changed,
    /// and itself with one UID changed. Every run is compared with the second program's too.
    pub fn seed(&mut self, seed: u64, comparison: &mut Comparison) {
        self.seed_on(seed, &mut |run| comparison.run(run, || format!("demand 3, seed {seed}")));
    }

    /// The same on any station.
    fn seed_on(&mut self, seed: u64, station: Runner) {
        let random = &mut Random::new(!seed);
        let batch: Batch =
            (0..1 + random.below(3)).map(|_| tree_of(&DataSet::well_formed(random, twins::TASTE))).collect();
        let settings = settings(random);
        let fates = &mut Fates::under(settings.options);
        let Some(first) = run(&batch, &settings, random, station) else {
            self.refused += 1;
            return;
        };
        let content = kept::content(&batch, fates);
        let twin = Twin::new(fates, random).batch(&batch);
        let mut altered_twin = twin.clone();
        alter_one(&mut altered_twin, random);
        let mut altered = batch.clone();
        alter_one(&mut altered, random);
        let mut uid_altered = batch.clone();
        alter_uid(&mut uid_altered, fates, random);
        let others = [
            ("twin", twin),
            ("altered twin", altered_twin),
            ("altered self", altered),
            ("self with one UID altered", uid_altered),
        ];
        for (what, other) in others {
            let Some(second) = run(&other, &settings, random, station) else {
                self.refused += 1;
                continue;
            };
            let equal_content = content == kept::content(&other, fates);
            let equal_outputs = first.iter().map(Outcome::export).eq(second.iter().map(Outcome::export));
            let fault = match (equal_content, equal_outputs) {
                (true, true) if !equal_counts(&first, &second) => Some("equal outputs, but other counts"),
                (true, false) => Some("equal kept content, but other outputs"),
                (false, true) => Some("other kept content, but equal outputs"),
                _ => None,
            };
            *(if equal_content { &mut self.equal } else { &mut self.different }) += 1;
            if let Some(fault) = fault {
                self.wrong += 1;
                if self.wrong <= SHOWN {
                    println!("DEMAND 3 fails for the batch of seed {seed} and its {what}: {fault}");
                }
            }
        }
    }

    pub fn print(&self) {
        println!("demand 3: {} pairs of batches", self.equal + self.different);
        println!("  {:<24}{:>10}", "equal kept content", self.equal);
        println!("  {:<24}{:>10}", "other kept content", self.different);
        println!("  {:<24}{:>10}", "refused, not tried", self.refused);
    }

    pub fn lacks_something(&self) -> bool {
        self.equal == 0 || self.different == 0
    }
}

fn settings(random: &mut Random) -> Settings {
    let settings = Settings::accepted(random, &[]);
    // A list that has the tags of document 01's sample and of a dummy.
    let study = [entry(0x0008_0050, "A7"), entry(0x0010_0010, "SUBJ7")].concat();
    Settings { study, ..settings }
}

fn alter_one(batch: &mut Batch, random: &mut Random) {
    let place = random.below(batch.len());
    alter(&mut batch[place], random);
}

/// Runs a batch in order, from a ledger with no entries; none if a data set is refused.
fn run(batch: &Batch, settings: &Settings, random: &mut Random, station: Runner) -> Option<Vec<Outcome>> {
    let mut ledger = Ledger::roomy();
    let mut outcomes = Vec::new();
    for nodes in batch {
        let data = Lent::among(&bytes_of(nodes, random), &[], random.below(8));
        let room = most_room(data.data().len());
        let outcome = station(&Run { settings, data: &data, ledger: &ledger, room })?;
        if outcome.report.refusal != 0 {
            return None;
        }
        ledger = outcome.ledger();
        outcomes.push(outcome);
    }
    Some(outcomes)
}

/// K9: all but the removed, and the ledger's count.
fn equal_counts(first: &[Outcome], second: &[Outcome]) -> bool {
    let counts = |outcome: &Outcome| {
        let report = outcome.report;
        (report.kept, report.replaced, report.renamed, report.used)
    };
    first.iter().map(counts).eq(second.iter().map(counts))
}
