//! Option numbers, shifts and roots, right and wrong.

use super::lists;
use crate::pieces::*;
use crate::random::Random;

/// What one person sets for a batch of exports.
#[derive(Clone, Debug, PartialEq, Eq)]
pub struct Settings {
    pub options: u64,
    pub shift: i64,
    pub root: Bytes,
    pub study: Bytes,
    pub site: Bytes,
}

pub const FULL_DATES: u64 = 1;
pub const MODIFIED_DATES: u64 = 2;
/// Every set of options that may be chosen: all but those with both date options.
const OPTIONS: u64 = 64;
const LONGEST_SHIFT: i64 = 36_500;

impl Settings {
    /// No options, a short root, no lists.
    pub fn plain() -> Settings {
        Settings { options: 0, shift: 0, root: b"1.9".into(), study: Bytes::new(), site: Bytes::new() }
    }

    /// Settings that are accepted. `tags` are those that the lists should have.
    pub fn accepted(random: &mut Random, tags: &[u32]) -> Settings {
        let options = accepted_options(random);
        let shift = if options & MODIFIED_DATES == 0 { 0 } else { accepted_shift(random) };
        let root = accepted_root(random);
        Settings { options, shift, root, study: lists::any(random, tags), site: lists::any(random, tags) }
    }

    /// Puts one wrong setting in the place of a right one, and says which.
    pub fn spoil(&mut self, random: &mut Random) -> &'static str {
        match random.below(6) {
            0 => {
                self.options = wrong_options(self.options, random);
                "options"
            }
            1 => {
                self.shift = wrong_shift(self.options, random);
                "shift"
            }
            2 | 3 => {
                self.root = wrong_root(random);
                "root"
            }
            4 => {
                self.study = lists::wrong(random);
                "study list"
            }
            _ => {
                self.site = lists::wrong(random);
                "site list"
            }
        }
    }
}

fn accepted_options(random: &mut Random) -> u64 {
    let options = match random.below(4) {
        0 => 0,
        1 => 1 << random.below(6),
        _ => random.below(OPTIONS as usize) as u64,
    };
    let both = FULL_DATES | MODIFIED_DATES;
    if options & both == both { options & !FULL_DATES } else { options }
}

fn accepted_shift(random: &mut Random) -> i64 {
    let any = random.below(2 * LONGEST_SHIFT as usize + 1) as i64 - LONGEST_SHIFT;
    random.pick(&[0, 1, -1, 30, 365, -365, LONGEST_SHIFT, -LONGEST_SHIFT, any, any])
}

fn wrong_options(options: u64, random: &mut Random) -> u64 {
    random.pick(&[
        options | FULL_DATES | MODIFIED_DATES,
        options | OPTIONS,
        options | 1 << 32,
        options | 1 << 63,
        1 << 8,
        OPTIONS,
        u64::MAX,
    ])
}

/// Out of range, or not zero without Modified Dates.
fn wrong_shift(options: u64, random: &mut Random) -> i64 {
    if options & MODIFIED_DATES == 0 && random.one_in(2) {
        return random.pick(&[1, -1, LONGEST_SHIFT, -LONGEST_SHIFT]);
    }
    random.pick(&[
        LONGEST_SHIFT + 1,
        -LONGEST_SHIFT - 1,
        i64::MAX,
        i64::MIN,
        1 << 32,
        -(1 << 32),
        (1 << 32) + 1,
        65_536,
        -65_536,
    ])
}

fn accepted_root(random: &mut Random) -> Bytes {
    let long = |size: usize| Bytes::from("1".repeat(size));
    let dotted = |size: usize| b"1.".repeat(32)[..size].to_vec();
    let roots: [Bytes; 9] = [
        b"1.9".into(),
        b"1.2.826.0.1.3680043.10.543".into(),
        b"2.25".into(),
        b"0".into(),
        b"1".into(),
        b"0.0.0".into(),
        long(59),
        dotted(59),
        long(58),
    ];
    roots[random.below(roots.len())].clone()
}

fn wrong_root(random: &mut Random) -> Bytes {
    let long = |size: usize| Bytes::from("1".repeat(size));
    let roots: [Bytes; 18] = [
        Bytes::new(),
        b".".into(),
        b"1.".into(),
        b".1".into(),
        b"1..9".into(),
        b"01".into(),
        b"1.00".into(),
        b"1.09".into(),
        b"1.a".into(),
        b"1.9 ".into(),
        b" 1.9".into(),
        b"1.9\0".into(),
        b"1.9/".into(),
        b"1:9".into(),
        b"1\\9".into(),
        long(60),
        long(64),
        long(200),
    ];
    roots[random.below(roots.len())].clone()
}
