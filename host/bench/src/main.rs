//! Times the proved library and the second program side by side in one run. Ratios come first; medians of seven.
//!
//! ```text
//! bench          all of it, in some seconds
//! ```
//!
//! (a) 1,000 data sets of 200 elements with 10 UIDs each, the ledger handed on while it has room; (b) one data set
//! with a value of 64 MB, also against what no export can do without: copying it and clearing the rest of the
//! room; (c) growth, from a thousand elements to a million.
#![forbid(unsafe_code)]

mod measure;
mod sets;

use std::hint::black_box;
use std::time::Duration;

use measure::{medians, run, run_batch};
use stations::{proved, second};

const SLOTS: usize = 1_024;
const LEDGER: usize = SLOTS * 64;

/// A line of the report: what was timed, and both times.
struct Line {
    what: String,
    proved: Duration,
    other: Duration,
    /// In words, what the times are for.
    per: String,
}

impl Line {
    fn ratio(&self) -> f64 {
        self.proved.as_secs_f64() / self.other.as_secs_f64()
    }
}

fn main() {
    let mut lines = vec![many()];
    lines.extend(long());
    lines.extend([1_000, 10_000, 100_000, 1_000_000].map(growth));
    println!("ratios, proved / other:");
    for line in &lines {
        println!("  {:<56} {:>6.2}", line.what, line.ratio());
    }
    println!("medians in ms, proved and other:");
    for line in &lines {
        let ms = |time: Duration| time.as_secs_f64() * 1e3;
        println!("  {:<56} {:>9.3} {:>9.3}   {}", line.what, ms(line.proved), ms(line.other), line.per);
    }
}

/// (a)
fn many() -> Line {
    let sets: Vec<Vec<u8>> = (0..1_000).map(sets::of_200).collect();
    let bytes: usize = sets.iter().map(Vec::len).sum();
    let (mut ledger, mut out) = (vec![0; LEDGER], vec![0; 2 * sets[0].len()]);
    let (mut ledger2, mut out2) = (ledger.clone(), out.clone());
    let [one, other] = medians([&mut || run_batch(proved, &sets, &mut ledger, &mut out, 10), &mut || {
        run_batch(second, &sets, &mut ledger2, &mut out2, 10);
    }]);
    assert!(ledger == ledger2 && out == out2, "the two programs differ");
    let per =
        format!("{} bytes, {:.0} and {:.0} ns an element", bytes, nanos(one, 200_000), nanos(other, 200_000));
    Line { what: "(a) 1,000 data sets of 200 elements, 10 UIDs each".into(), proved: one, other, per }
}

/// (b)
fn long() -> [Line; 2] {
    const SIZE: usize = 64 << 20;
    let data = sets::of_pixels(SIZE);
    // What the command gives a data set of this size.
    let room = data.len() + data.len() / 4 + 4_096;
    let (mut ledger, mut out, mut out2, mut copy) =
        (vec![0; LEDGER], vec![0; room], vec![0; room], vec![0; room]);
    let mut ledger2 = ledger.clone();
    let [one, other, least] = medians([
        &mut || run(proved, &data, &mut ledger, &mut out),
        &mut || run(second, &data, &mut ledger2, &mut out2),
        &mut || {
            let (front, rest) = copy.split_at_mut(data.len());
            front.copy_from_slice(black_box(&data));
            rest.fill(0);
            black_box(&copy);
        },
    ]);
    assert!(out == out2, "the two programs differ");
    let rate = |time: Duration| format!("{:.1} GB/s", room as f64 / time.as_secs_f64() / 1e9);
    let per = |other| format!("{} and {} of the room", rate(one), rate(other));
    let line = |what: &str, other| Line { what: what.into(), proved: one, other, per: per(other) };
    [line("(b) a value of 64 MB, kept", other), line("(b) the same, against copying and clearing", least)]
}

/// (c)
fn growth(elements: usize) -> Line {
    let data = sets::of_items(elements);
    let times = (100_000 / elements).max(1);
    let room = 2 * data.len() + 4_096;
    let (mut ledger, mut out) = (vec![0; LEDGER], vec![0; room]);
    let (mut ledger2, mut out2) = (ledger.clone(), out.clone());
    let [one, other] =
        medians([&mut || (0..times).for_each(|_| run(proved, &data, &mut ledger, &mut out)), &mut || {
            (0..times).for_each(|_| run(second, &data, &mut ledger2, &mut out2));
        }])
        .map(|time| time / times as u32);
    assert!(out == out2 && ledger == ledger2, "the two programs differ");
    let per = format!("{:.0} and {:.0} ns an element", nanos(one, elements), nanos(other, elements));
    Line { what: format!("(c) {elements} elements in items"), proved: one, other, per }
}

fn nanos(time: Duration, count: usize) -> f64 {
    time.as_nanos() as f64 / count as f64
}
