//! The comparison of view answers: all five numbers, on every data set and tag.

pub mod cases;
pub mod edges;
pub mod planted;
#[cfg(test)]
mod tests;

use cases::Case;
use edges::Edge;
pub use library::numbers::Answer;

use crate::lent::Lent;
use crate::shrink::shrunk;

/// A view that is compared with the second program's: the library's, or one with a planted fault.
pub type View = fn(&Lent, u64) -> Answer;

/// The proved library's.
pub fn proved(lent: &Lent, tag: u64) -> Answer {
    library::numbers::view(lent.data(), tag)
}

/// The second program's.
pub fn expected(data: &[u8], tag: u64) -> Answer {
    let reference::View { refusal, offset, found, start, len } = reference::view(data, tag);
    Answer { refusal, offset, found: found.into(), start: start as u64, length: len as u64 }
}

/// How often each answer came up, by the second program.
#[derive(Default)]
pub struct Counts {
    pub data_sets: u64,
    pub cases: u64,
    refusals: [u64; 11],
    found: u64,
    found_empty: u64,
    absent: u64,
    pub differ: u64,
}

impl Counts {
    fn add(&mut self, answer: &Answer) {
        self.cases += 1;
        match answer {
            Answer { refusal: 0, found: 0, .. } => self.absent += 1,
            Answer { refusal: 0, length, .. } => {
                self.found += 1;
                self.found_empty += u64::from(*length == 0);
            }
            Answer { refusal, .. } => self.refusals[*refusal as usize] += 1,
        }
    }

    /// What a run must have met, and how often it did.
    fn lines(&self) -> Vec<(String, u64)> {
        let mut lines: Vec<_> =
            (5..=10).map(|number| (format!("refusal {number}"), self.refusals[number])).collect();
        lines.push(("found".into(), self.found));
        lines.push(("found, empty part".into(), self.found_empty));
        lines.push(("absent".into(), self.absent));
        lines
    }

    pub fn print(&self) {
        println!("view: {} data sets, {} cases", self.data_sets, self.cases);
        for (what, count) in self.lines() {
            println!("  {what:<18}{count:>10}");
        }
    }

    /// Says what never came up; true if there is such a thing.
    pub fn lacks_something(&self) -> bool {
        let lacking = self.lines().into_iter().filter(|(_, count)| *count == 0);
        lacking.inspect(|(what, _)| println!("never came up: {what}")).count() > 0
    }
}

/// A case where a view and the second program differ.
struct Difference {
    /// The seed or the edge that it comes from, and how.
    from: String,
    /// The data set, unless it is too long to keep.
    lent: Option<Lent>,
    tag: u64,
    given: Answer,
    expected: Answer,
}

/// How many differences are shown; the others are counted.
const SHOWN: usize = 3;
/// The longest data set that is kept to be shown.
const KEPT: usize = 1_000_000;

/// A comparison of one view with the second program.
pub struct Comparison {
    view: View,
    only_first: bool,
    pub counts: Counts,
    /// The first few, in order.
    differences: Vec<Difference>,
}

impl Comparison {
    pub fn new(view: View) -> Comparison {
        Comparison { view, only_first: false, counts: Counts::default(), differences: Vec::new() }
    }

    /// A comparison that is over with the first difference.
    pub fn up_to_first(view: View) -> Comparison {
        Comparison { only_first: true, ..Comparison::new(view) }
    }

    pub fn is_over(&self) -> bool {
        self.only_first && self.counts.differ > 0
    }

    /// Where the first difference came from, and at which case.
    pub fn first(&self) -> Option<String> {
        self.differences.first().map(|first| format!("{} (case {})", first.from, self.counts.cases))
    }

    /// The data set of a seed, with each of its tags.
    pub fn seed(&mut self, seed: u64) {
        let Case { made, lent, tags } = Case::of_seed(seed);
        self.data_set(&lent, &tags, || format!("seed {seed} ({made})"));
    }

    /// The edges, each with its answer, and with each cut and each single bit turned.
    pub fn edges(&mut self) {
        for edge in edges::all() {
            if self.is_over() {
                return;
            }
            self.edge(&edge, &Lent::among(&edge.data, &[], 0));
            let tags = [edge.tag, 0x0008_1115];
            for cut in 0..edge.data.len() {
                let lent = Lent::among(&edge.data[..cut], &edge.data[cut..], cut);
                self.data_set(&lent, &tags, || format!("{}, cut to {cut} bytes", edge.name));
            }
            let mut data = edge.data.clone();
            for bit in 0..8 * data.len() {
                data[bit / 8] ^= 1 << (bit % 8);
                let lent = Lent::among(&data, &[], bit);
                self.data_set(&lent, &tags, || format!("{}, bit {bit} turned", edge.name));
                data[bit / 8] ^= 1 << (bit % 8);
            }
        }
    }

    /// Data sets of 268,435,456 bytes and one byte more.
    pub fn longest(&mut self) {
        for mut edge in edges::longest() {
            let lent = Lent::whole(std::mem::take(&mut edge.data));
            self.edge(&edge, &lent);
        }
    }

    /// Both programs must give the answer that the readings give.
    fn edge(&mut self, edge: &Edge, lent: &Lent) {
        self.data_set(lent, &[edge.tag], || edge.name.into());
        let second = expected(lent.data(), edge.tag);
        if second != edge.answer {
            let from = format!("{}: the second program against the readings", edge.name);
            self.differs(from, lent, edge.tag, second, edge.answer);
        }
    }

    fn data_set(&mut self, lent: &Lent, tags: &[u64], from: impl Fn() -> String) {
        if self.is_over() {
            return;
        }
        self.counts.data_sets += 1;
        for &tag in tags {
            let expected = expected(lent.data(), tag);
            self.counts.add(&expected);
            let given = (self.view)(lent, tag);
            if given != expected {
                self.differs(from(), lent, tag, given, expected);
            }
        }
        assert!(lent.is_untouched(), "{}: the data set was written to", from());
    }

    fn differs(&mut self, from: String, lent: &Lent, tag: u64, given: Answer, expected: Answer) {
        self.counts.differ += 1;
        if self.differences.len() < SHOWN {
            let lent = (lent.data().len() <= KEPT).then(|| lent.clone());
            self.differences.push(Difference { from, lent, tag, given, expected });
        }
    }

    /// Shows the first differences, with bytes dropped as long as the two programs differ.
    pub fn print_differences(&self) {
        for Difference { from, lent, tag, given, expected: wanted } in &self.differences {
            println!("DIFFERENCE at {from}, tag {tag:08X}");
            println!("  given    {given}");
            println!("  expected {wanted}");
            let differs = |lent: &Lent| (self.view)(lent, *tag) != expected(lent.data(), *tag);
            let Some(lent) = lent else { continue };
            let small = if differs(lent) { &shrunk(lent, differs) } else { lent };
            println!("  shrunk from {} to {} bytes", lent.data().len(), small.data().len());
            println!("    {}", hex(small.data()));
            println!("    with behind it: {}", hex(small.behind()));
            println!("    given    {}", (self.view)(small, *tag));
            println!("    expected {}", expected(small.data(), *tag));
        }
    }
}

/// The data set of a seed, and both answers to each of its tags.
pub fn print_seed(seed: u64) {
    let case = Case::of_seed(seed);
    println!("view of seed {seed}: {}, {} bytes", case.made, case.lent.data().len());
    println!("  {}", hex(case.lent.data()));
    println!("  behind it: {}", hex(case.lent.behind()));
    for tag in case.tags {
        println!("  tag {tag:08X}");
        println!("    proved   {}", proved(&case.lent, tag));
        println!("    expected {}", expected(case.lent.data(), tag));
    }
}

/// Bytes in hex; only the front of many.
pub fn hex(bytes: &[u8]) -> String {
    const MOST: usize = 4_096;
    let shown: Vec<String> = bytes.iter().take(MOST).map(|byte| format!("{byte:02X}")).collect();
    shown.join(" ") + if bytes.len() > MOST { " ..." } else { "" }
}
