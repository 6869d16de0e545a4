//! The comparison of exports: the report, every byte of the output and every byte of the ledger.
//!
//! | module | subject |
//! |---|---|
//! | `settings`, `lists`, `ledgers` | what a run is given beside its data set |
//! | `cases` | what a seed gives: settings, a ledger, and one or several data sets |
//! | `edges` | runs made by hand, with the outcome that document 01 gives |
//! | `comparison` | runs both programs and says where they differ |

pub mod cases;
pub mod comparison;
pub mod edges;
mod ledgers;
mod lists;
mod settings;
#[cfg(test)]
mod tests;

pub use ledgers::Ledger;
pub use library::Request;
pub use library::numbers::Report;
pub use lists::entry;
pub use settings::Settings;
pub use stations::{Station, proved, second};

use crate::lent::{Lent, Room};
use crate::pieces::Bytes;

/// One run: everything that a station is lent, but for the bytes that it finds in its output buffer.
#[derive(Clone)]
pub struct Run<'r> {
    pub settings: &'r Settings,
    pub data: &'r Lent,
    pub ledger: &'r Ledger,
    /// Bytes of the output buffer.
    pub room: usize,
}

/// What a run hands back and leaves.
#[derive(Clone, PartialEq, Eq)]
pub struct Outcome {
    pub report: Report,
    pub out: Bytes,
    pub ledger: Bytes,
}

impl Outcome {
    /// The data set that was written.
    pub fn export(&self) -> &[u8] {
        &self.out[..self.report.length as usize]
    }

    /// The ledger as the next run of a batch finds it.
    pub fn ledger(&self) -> Ledger {
        Ledger { bytes: self.ledger.clone(), used: self.report.used }
    }
}

impl Run<'_> {
    /// Runs a station. Its output buffer is full of `dirt` before, and so is what lies beside the buffer and
    /// beside the ledger, which must not be touched.
    pub fn on(&self, station: Station, dirt: u8) -> Outcome {
        let mut out = Room::with(&vec![dirt; self.room], dirt, self.room);
        let mut ledger = Room::with(&self.ledger.bytes, dirt, self.ledger.bytes.len() + self.room / 8);
        let settings = self.settings.clone();
        let request = Request {
            data: self.data.data(),
            options: settings.options,
            shift: settings.shift,
            root: &settings.root,
            study: &settings.study,
            site: &settings.site,
            used: self.ledger.used,
        };
        let report = station(&request, ledger.lend(), out.lend());
        assert!(settings == *self.settings, "the settings were written to");
        assert!(self.data.is_untouched(), "the data set was written to");
        Outcome { report, out: out.contents(), ledger: ledger.contents() }
    }

    /// What the second program does.
    pub fn expected(&self) -> Outcome {
        self.on(second, 0x5E)
    }
}

/// Room for every export of so many bytes: the UID of one character that becomes one of 64 grows most.
pub fn most_room(size: usize) -> usize {
    33 * size + 1_024
}
