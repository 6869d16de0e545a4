//! A simple shrinker: drops bytes of a data set as long as what is wrong with it stays.

use crate::lent::Lent;

/// How many bytes may be looked at, so that a long data set takes no more than some seconds.
const WORK: usize = 1_000_000_000;

/// The data set with as many bytes dropped as could be, half of it first, then ever smaller runs, down to
/// single bytes.
pub fn shrunk(lent: &Lent, wrong: impl Fn(&Lent) -> bool) -> Lent {
    let mut small = lent.clone();
    let mut work = 0;
    let mut run = small.data().len().div_ceil(2);
    while run > 0 {
        let mut dropped_any = false;
        let mut at = 0;
        while at < small.data().len() {
            work += small.data().len();
            if work > WORK {
                return small;
            }
            let (front, rest) = small.data().split_at(at);
            let without = [front, &rest[run.min(rest.len())..]].concat();
            let smaller = Lent::among(&without, small.behind(), 0);
            if wrong(&smaller) {
                small = smaller;
                dropped_any = true;
            } else {
                at += run;
            }
        }
        if !(run == 1 && dropped_any) {
            run /= 2;
        }
    }
    small
}
