//! Runs a station and the second program on the same inputs and says where they differ.

use super::cases::Case;
use super::edges::{self, Edge};
use super::{Ledger, Outcome, Run, Settings, Station, proved};
use crate::lent::Lent;
use crate::pieces::Bytes;
use crate::shrink::shrunk;
use crate::view::hex;

/// How often each outcome came up, by the second program.
#[derive(Default)]
pub struct Counts {
    pub runs: u64,
    pub batches: u64,
    refusals: [u64; 15],
    kept: u64,
    replaced: u64,
    renamed: u64,
    removed: u64,
    filled: u64,
    ledger_filled: u64,
    pub differ: u64,
}

impl Counts {
    fn add(&mut self, run: &Run, outcome: &Outcome) {
        let report = &outcome.report;
        self.runs += 1;
        self.refusals[report.refusal as usize] += 1;
        if report.refusal == 0 {
            self.kept += u64::from(report.kept > 0);
            self.replaced += u64::from(report.replaced > 0);
            self.renamed += u64::from(report.renamed > 0);
            self.removed += u64::from(report.removed > 0);
            self.filled += u64::from(report.length == run.room as u64);
            let slots = (outcome.ledger.len() as u64 / 64).min(1_024);
            self.ledger_filled += u64::from(report.used == slots && report.used > run.ledger.used);
        }
    }

    /// What a run of the comparison must have met, and how often it did.
    fn lines(&self) -> Vec<(String, u64)> {
        let mut lines: Vec<_> =
            (1..=14).map(|number| (format!("refusal {number}"), self.refusals[number])).collect();
        lines.push(("done".into(), self.refusals[0]));
        for (what, count) in [
            ("done, some kept", self.kept),
            ("done, some replaced", self.replaced),
            ("done, some renamed", self.renamed),
            ("done, some removed", self.removed),
            ("done, output just full", self.filled),
            ("done, ledger just full", self.ledger_filled),
            ("batches of several", self.batches),
        ] {
            lines.push((what.into(), count));
        }
        lines
    }

    pub fn print(&self) {
        println!("exports: {} cases", self.runs);
        for (what, count) in self.lines() {
            println!("  {what:<24}{count:>10}");
        }
    }

    /// Says what never came up; true if there is such a thing.
    pub fn lacks_something(&self) -> bool {
        let lacking = self.lines().into_iter().filter(|(_, count)| *count == 0);
        lacking.inspect(|(what, _)| println!("never came up: {what}")).count() > 0
    }
}

/// A run where a station and the second program differ.
struct Difference {
    from: String,
    settings: Settings,
    ledger: Ledger,
    room: usize,
    data: Lent,
    /// In words, what differs first.
    what: String,
}

/// How many differences are shown; the others are counted.
const SHOWN: usize = 3;
/// What the output buffer of the compared station is full of; the second program's has other dirt in it, so
/// that what both leave differs.
const DIRT: u8 = 0xA1;

/// A comparison of one station with the second program.
pub struct Comparison {
    station: Station,
    only_first: bool,
    pub counts: Counts,
    differences: Vec<Difference>,
}

impl Comparison {
    pub fn new(station: Station) -> Comparison {
        Comparison { station, only_first: false, counts: Counts::default(), differences: Vec::new() }
    }

    /// A comparison that is over with the first difference.
    pub fn up_to_first(station: Station) -> Comparison {
        Comparison { only_first: true, ..Comparison::new(station) }
    }

    pub fn is_over(&self) -> bool {
        self.only_first && self.counts.differ > 0
    }

    /// Where the first difference came from, and at which case.
    pub fn first(&self) -> Option<String> {
        self.differences.first().map(|first| format!("{} (case {})", first.from, self.counts.runs))
    }

    /// The case of a seed.
    pub fn seed(&mut self, seed: u64) {
        let Case { made, settings, ledger, sets } = Case::of_seed(seed);
        self.counts.batches += u64::from(sets.len() > 1);
        let mut ledger = ledger;
        for (place, (data, room)) in sets.iter().enumerate() {
            let run = Run { settings: &settings, data, ledger: &ledger, room: *room };
            match self.run(&run, || format!("seed {seed}, data set {} ({made})", place + 1)) {
                Some(outcome) => ledger = outcome.ledger(),
                None => return,
            }
        }
    }

    /// The edges, each with its outcome, and with each cut and some single bits turned.
    pub fn edges(&mut self) {
        for edge in edges::all() {
            if self.is_over() {
                return;
            }
            self.edge(&edge);
            let data = edge.data.data();
            for cut in (0..data.len()).take(400) {
                let lent = Lent::among(&data[..cut], &data[cut..], cut);
                self.run(&Run { data: &lent, ..edge.run() }, || format!("{}, cut to {cut} bytes", edge.name));
            }
            let mut turned = data.to_vec();
            for bit in (0..8 * data.len()).take(1_600) {
                turned[bit / 8] ^= 1 << (bit % 8);
                let lent = Lent::among(&turned, &[], bit);
                self.run(&Run { data: &lent, ..edge.run() }, || format!("{}, bit {bit} turned", edge.name));
                turned[bit / 8] ^= 1 << (bit % 8);
            }
        }
    }

    /// Data sets of 268,435,456 bytes and one byte more.
    pub fn longest(&mut self) {
        edges::longest(|edge| self.edge(edge));
    }

    /// Both programs must do what document 01 says.
    fn edge(&mut self, edge: &Edge) {
        let run = edge.run();
        self.run(&run, || edge.name.into());
        if let Some(fault) = edge.fault_of(&run.expected()) {
            let from = format!("{}: the second program against document 01", edge.name);
            self.differs(from, &run, fault);
        }
    }

    /// Runs both; what the second one left, or none if the comparison is over or they differ.
    pub fn run(&mut self, run: &Run, from: impl Fn() -> String) -> Option<Outcome> {
        if self.is_over() {
            return None;
        }
        let expected = run.expected();
        self.counts.add(run, &expected);
        let given = run.on(self.station, DIRT);
        if given == expected {
            return Some(expected);
        }
        self.differs(from(), run, first_difference(&given, &expected));
        None
    }

    fn differs(&mut self, from: String, run: &Run, what: String) {
        self.counts.differ += 1;
        if self.differences.len() < SHOWN {
            let Run { settings, data, ledger, room } = run.clone();
            let (settings, ledger, data) = (settings.clone(), ledger.clone(), data.clone());
            self.differences.push(Difference { from, settings, ledger, room, data, what });
        }
    }

    /// Shows the first differences, with bytes of the data set dropped as long as the two programs differ.
    pub fn print_differences(&self) {
        for Difference { from, settings, ledger, room, data, what } in &self.differences {
            println!("DIFFERENCE at {from}: {what}");
            let run = Run { settings, data, ledger, room: *room };
            let differs = |data: &Lent| {
                let run = Run { data, ..run.clone() };
                run.on(self.station, DIRT) != run.expected()
            };
            let small =
                if data.data().len() < 1_000_000 && differs(data) { &shrunk(data, differs) } else { data };
            println!("  shrunk from {} to {} bytes", data.data().len(), small.data().len());
            print_run(&Run { data: small, ..run.clone() }, self.station);
        }
    }
}

/// Everything about a run, and what both programs do with it.
pub fn print_run(run: &Run, station: Station) {
    let Settings { options, shift, root, study, site } = run.settings;
    println!("  options {options} shift {shift} root {:?} room {}", String::from_utf8_lossy(root), run.room);
    println!("  study list {}", hex(study));
    println!("  site list  {}", hex(site));
    println!(
        "  ledger of {} bytes, {} in use: {}",
        run.ledger.bytes.len(),
        run.ledger.used,
        in_use(run.ledger)
    );
    println!("  data set of {} bytes: {}", run.data.data().len(), hex(run.data.data()));
    let (given, expected) = (run.on(station, DIRT), run.expected());
    println!("  given    {}", given.report);
    println!("  expected {}", expected.report);
    println!("  {}", first_difference(&given, &expected));
}

/// The proved station's, for one seed.
pub fn print_seed(seed: u64) {
    let Case { made, settings, mut ledger, sets } = Case::of_seed(seed);
    println!("export of seed {seed}: {made}");
    for (data, room) in &sets {
        let run = Run { settings: &settings, data, ledger: &ledger, room: *room };
        print_run(&run, proved);
        ledger = run.expected().ledger();
    }
}

fn in_use(ledger: &Ledger) -> String {
    let slots = ledger.bytes.chunks_exact(64).take(ledger.used.min(16) as usize);
    let texts = slots.map(|slot| String::from_utf8_lossy(slot).trim_end_matches('\0').to_string());
    texts.collect::<Vec<_>>().join(" ")
}

/// What differs first: the report, then the output, then the ledger.
fn first_difference(given: &Outcome, expected: &Outcome) -> String {
    if given.report != expected.report {
        return format!("report: {}; expected: {}", given.report, expected.report);
    }
    let first = |what: &str, given: &Bytes, expected: &Bytes| {
        let place = given.iter().zip(expected).position(|(one, other)| one != other)?;
        Some(format!("{what} byte {place}: {:02X}, expected {:02X}", given[place], expected[place]))
    };
    let out = first("output", &given.out, &expected.out);
    out.or_else(|| first("ledger", &given.ledger, &expected.ledger)).unwrap_or("nothing differs".into())
}
