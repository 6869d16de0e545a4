//! Runs made by hand at the edges of document 01's rules, each with its outcome beside it, so that the two
//! programs are held to the paper and not only to each other.
//!
//! | module | subject |
//! |---|---|
//! | `samples` | document 01's sample exports |
//! | `written` | which action, and what it writes (readings A and W) |
//! | `uids` | UIDs and the ledger (readings U) |
//! | `dates` | dates that are shifted (readings D) |
//! | `lists` | the replacement lists (readings L) |
//! | `refused` | each refusal, its order, and what it leaves (readings R) |

mod dates;
mod lists;
mod refused;
mod samples;
mod uids;
mod written;

use super::ledgers::slot_of;
use super::{Ledger, Outcome, Report, Run, Settings};
use crate::lent::Lent;
use crate::pieces::*;

pub use refused::longest;

/// A run, and what document 01 says of it.
pub struct Edge {
    /// The reading or the sample.
    pub name: &'static str,
    pub settings: Settings,
    pub ledger: Ledger,
    pub data: Lent,
    pub room: usize,
    outcome: Expected,
}

enum Expected {
    /// A number and an offset.
    Refused(u64, u64),
    /// The export; kept, replaced, renamed and removed; the new entries of the ledger.
    Done { export: Bytes, counts: [u64; 4], new: Vec<Bytes> },
}

pub fn all() -> Vec<Edge> {
    let all = [samples::all(), written::all(), uids::all(), dates::all(), lists::all(), refused::all()];
    all.into_iter().flatten().collect()
}

impl Edge {
    /// A run with plain settings, a ledger of eight slots and room enough, that removes nothing and writes the
    /// markers alone.
    fn new(name: &'static str, pieces: &[Bytes]) -> Edge {
        let data = Lent::among(&pieces.concat(), &[], name.len());
        let outcome = Expected::Done { export: exported(0, &[]), counts: [0; 4], new: Vec::new() };
        Edge { name, settings: Settings::plain(), ledger: Ledger::empty(8), data, room: 2_000, outcome }
    }

    fn options(mut self, options: u64) -> Edge {
        self.settings.options = options;
        self
    }

    /// Modified Dates with a shift.
    fn shift(mut self, days: i64) -> Edge {
        self.settings.options |= 2;
        self.settings.shift = days;
        self
    }

    fn root(mut self, root: impl AsRef<[u8]>) -> Edge {
        self.settings.root = root.as_ref().to_vec();
        self
    }

    fn study(mut self, list: Bytes) -> Edge {
        self.settings.study = list;
        self
    }

    fn site(mut self, list: Bytes) -> Edge {
        self.settings.site = list;
        self
    }

    fn ledger(mut self, bytes: Bytes, used: u64) -> Edge {
        self.ledger = Ledger { bytes, used };
        self
    }

    fn room(mut self, room: usize) -> Edge {
        self.room = room;
        self
    }

    /// Is refused, with this number and offset.
    fn refused(mut self, number: u64, offset: u64) -> Edge {
        self.outcome = Expected::Refused(number, offset);
        self
    }

    /// Writes these elements, with the markers between them in tag order; kept, replaced, renamed and removed.
    fn writes(mut self, elements: &[Bytes], counts: [u64; 4]) -> Edge {
        let export = exported(self.settings.options, elements);
        self.outcome = Expected::Done { export, counts, new: Vec::new() };
        self
    }

    /// Enters these UIDs in the ledger.
    fn enters(mut self, uids: &[&str]) -> Edge {
        if let Expected::Done { new, .. } = &mut self.outcome {
            *new = uids.iter().map(|uid| Bytes::from(*uid)).collect();
        }
        self
    }

    pub fn run(&self) -> Run<'_> {
        Run { settings: &self.settings, data: &self.data, ledger: &self.ledger, room: self.room }
    }

    /// In words, where an outcome is not the one that it has to be.
    pub fn fault_of(&self, outcome: &Outcome) -> Option<String> {
        let expected = self.expected();
        let of_report = outcome.report != expected.report;
        let of_out = outcome.out != expected.out;
        let of_ledger = outcome.ledger != expected.ledger;
        (of_report || of_out || of_ledger).then(|| {
            let report = format!("report {}, expected {}", outcome.report, expected.report);
            format!("{report}; output wrong: {of_out}; ledger wrong: {of_ledger}")
        })
    }

    fn expected(&self) -> Outcome {
        let used = self.ledger.used;
        let mut ledger = self.ledger.bytes.clone();
        let slots = (ledger.len() / 64).min(1_024) as u64;
        let mut out = vec![0; self.room];
        if used <= slots {
            ledger[64 * used as usize..].fill(0);
        }
        let report = match &self.outcome {
            Expected::Refused(refusal, offset) => {
                Report { refusal: *refusal, offset: *offset, used, ..Report::default() }
            }
            Expected::Done { export, counts, new } => {
                out[..export.len()].copy_from_slice(export);
                for (slot, uid) in ledger.chunks_exact_mut(64).skip(used as usize).zip(new) {
                    slot.copy_from_slice(&slot_of(uid));
                }
                let [kept, replaced, renamed, removed] = *counts;
                let (length, used) = (export.len() as u64, used + new.len() as u64);
                Report { refusal: 0, offset: 0, length, used, kept, replaced, renamed, removed }
            }
        };
        Outcome { report, out, ledger }
    }
}

/// The codes of CID 7050, the basic profile's first, then the options' by bit (document 01; W16).
const CODES: [(&str, &str); 7] = [
    ("113100", "Basic Application Confidentiality Profile"),
    ("113106", "Retain Longitudinal Temporal Information Full Dates Option"),
    ("113107", "Retain Longitudinal Temporal Information Modified Dates Option"),
    ("113108", "Retain Patient Characteristics Option"),
    ("113109", "Retain Device Identity Option"),
    ("113110", "Retain UIDs Option"),
    ("113112", "Retain Institution Identity Option"),
];

/// Elements of the top level with the three that it gains, in tag order.
pub fn exported(options: u64, elements: &[Bytes]) -> Bytes {
    let chosen = CODES.iter().zip(0..).filter(|(_, place)| *place == 0 || options >> (place - 1) & 1 == 1);
    let items: Vec<Bytes> = chosen
        .map(|((value, meaning), _)| {
            undefined_item(&[
                text(0x0008_0100, "SH", value),
                text(0x0008_0102, "SH", "DCM"),
                text(0x0008_0104, "LO", meaning),
            ])
        })
        .collect();
    let dates = ["REMOVED", "UNMODIFIED", "MODIFIED"][(options & 3) as usize];
    let mut all = elements.to_vec();
    all.push(text(0x0012_0062, "CS", "YES"));
    all.push(undefined_sequence(0x0012_0064, &items));
    all.push(text(0x0028_0303, "CS", dates));
    all.sort_by_key(|element| tag_at(element, 0));
    all.concat()
}

/// An element of text, with a space behind it if its length is odd.
fn text(tag: u32, vr: &str, value: &str) -> Bytes {
    element(tag, vr, crate::values::padded(value.into(), b' '))
}

/// A UI element, with a zero byte behind its text if its length is odd.
fn uids(tag: u32, value: &str) -> Bytes {
    element(tag, "UI", crate::values::padded(value.into(), 0))
}

/// Slots as they stand in a ledger.
fn slots(uids: &[&str]) -> Bytes {
    uids.iter().flat_map(|uid| slot_of(uid.as_bytes())).collect()
}

// No row: kept.
const CHARACTER_SET: u32 = 0x0008_0005;
const MODALITY: u32 = 0x0008_0060;
const SERIES: u32 = 0x0008_1115;
const PIXELS: u32 = 0x7FE0_0010;
// X
const PRIVATE: u32 = 0x0009_0010;
const ADMITTING_DIAGNOSES: u32 = 0x0008_1084;
// Z
const ACCESSION: u32 = 0x0008_0050;
const NAME: u32 = 0x0010_0010;
const BIRTH_DATE: u32 = 0x0010_0030;
// D
const CONTENT: u32 = 0x0040_A730;
const FIELD_OF_VIEW_LABEL: u32 = 0x0018_11BB;
const ANNOTATION_UID: u32 = 0x006A_0003;
// U
const SOP_INSTANCE: u32 = 0x0008_0018;
const IMAGES: u32 = 0x0008_1140;
const STUDY: u32 = 0x0020_000D;
const SERIES_UID: u32 = 0x0020_000E;
// Z, C under Modified Dates, K under Full Dates
const STUDY_DATE: u32 = 0x0008_0020;
const STUDY_TIME: u32 = 0x0008_0030;
// X/Z/D, the same
const ACQUISITION: u32 = 0x0008_002A;
