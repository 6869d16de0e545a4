//! Stations, and how long they take.

use std::hint::black_box;
use std::time::{Duration, Instant};

use library::Request;
use stations::Station;

/// How often each thing is timed; the median counts.
const TIMES: usize = 7;

/// A request without options and lists.
pub fn request(data: &[u8], used: u64) -> Request<'_> {
    Request { data, options: 0, shift: 0, root: b"1.2.826.0.1.3680043.10.544", study: &[], site: &[], used }
}

/// Times several things in turn, so that they share whatever else the machine does, and gives the median of
/// each. Each is done once before.
pub fn medians<const N: usize>(mut things: [&mut dyn FnMut(); N]) -> [Duration; N] {
    let mut times: [Vec<Duration>; N] = std::array::from_fn(|_| Vec::new());
    things.iter_mut().for_each(|thing| thing());
    for _ in 0..TIMES {
        for (thing, times) in things.iter_mut().zip(&mut times) {
            let begin = Instant::now();
            thing();
            times.push(begin.elapsed());
        }
    }
    times.map(|mut times| {
        times.sort();
        times[TIMES / 2]
    })
}

/// One run with a ledger of its own.
pub fn run(station: Station, data: &[u8], ledger: &mut [u8], out: &mut [u8]) {
    let report = station(&request(black_box(data), 0), ledger, out);
    assert_eq!(report.refusal, 0, "{report}");
    black_box(&out);
}

/// All data sets in order, the ledger handed on while it has room for `more` new UIDs, then a new one.
pub fn run_batch(station: Station, sets: &[Vec<u8>], ledger: &mut [u8], out: &mut [u8], more: u64) {
    let slots = ledger.len() as u64 / 64;
    let mut used = 0;
    for data in sets {
        if used + more > slots {
            used = 0;
        }
        let report = station(&request(black_box(data), used), ledger, out);
        assert_eq!(report.refusal, 0, "{report}");
        used = report.used;
    }
    black_box(&out);
}
