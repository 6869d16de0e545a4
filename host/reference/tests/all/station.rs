//! A station with its settings, and what comes out of it. Every run is made on a dirty output buffer and a dirty
//! ledger, and every outcome is checked for what document 01 says of all runs.

use reference::{Report, deidentify};

use crate::pieces::{Bytes, export};

pub const FULL_DATES: u64 = 1;
pub const MODIFIED_DATES: u64 = 2;
pub const PATIENT: u64 = 4;
pub const DEVICE: u64 = 8;
pub const RETAIN_UIDS: u64 = 16;
pub const INSTITUTION: u64 = 32;

/// Settings for runs; the default has no options, no lists, an empty ledger of 1,024 slots and ample room.
#[derive(Clone)]
pub struct Station {
    pub options: u64,
    pub shift: i64,
    pub root: Bytes,
    pub study: Bytes,
    pub site: Bytes,
    pub ledger: Bytes,
    pub used: u64,
    /// Bytes of output buffer; ample if `None`.
    pub room: Option<usize>,
}

impl Default for Station {
    fn default() -> Station {
        Station {
            options: 0,
            shift: 0,
            root: b"1.9".to_vec(),
            study: Bytes::new(),
            site: Bytes::new(),
            ledger: vec![0; 1_024 * 64],
            used: 0,
            room: None,
        }
    }
}

pub struct Outcome {
    pub report: Report,
    pub out: Bytes,
    pub ledger: Bytes,
}

impl Station {
    pub fn with(options: u64) -> Station {
        Station { options, ..Station::default() }
    }

    /// A station that shifts dates.
    pub fn shifting(days: i64) -> Station {
        Station { options: MODIFIED_DATES, shift: days, ..Station::default() }
    }

    /// A station whose ledger has these slots, the first `used` of them in use.
    pub fn with_ledger(slots: &[Bytes], used: u64) -> Station {
        Station { ledger: slots.concat(), used, ..Station::default() }
    }

    pub fn slots(&self) -> u64 {
        (self.ledger.len() as u64 / 64).min(1_024)
    }

    pub fn run(&self, data: &[u8]) -> Outcome {
        let mut out = vec![0xA5; self.room.unwrap_or(2 * data.len() + 4_096)];
        let mut ledger = self.ledger.clone();
        let in_use = usize::try_from(self.used.min(self.slots())).unwrap() * 64;
        ledger[in_use..].fill(0x5A);
        let before = ledger.clone();
        let report = deidentify(
            data,
            self.options,
            self.shift,
            &self.root,
            &self.study,
            &self.site,
            &mut ledger,
            self.used,
            &mut out,
        );
        let outcome = Outcome { report, out, ledger };
        self.check_what_always_holds(&before, in_use, &outcome);
        outcome
    }

    fn check_what_always_holds(&self, ledger_before: &[u8], in_use: usize, outcome: &Outcome) {
        let Outcome { report, out, ledger } = outcome;
        assert!(report.refusal <= 14);
        if self.used > self.slots() {
            assert!((1..=3).contains(&report.refusal));
            assert_eq!(ledger, ledger_before, "the ledger is untouched");
        } else {
            assert_eq!(ledger[..in_use], ledger_before[..in_use], "slots in use stay");
            let new_end = usize::try_from(report.used).unwrap() * 64;
            assert!(is_zero(&ledger[new_end..]), "the rest of the ledger is zero");
        }
        assert!(is_zero(&out[usize::try_from(report.length).unwrap()..]), "the rest of the output is zero");
        if report.refusal != 0 {
            let refused = Report {
                refusal: report.refusal,
                offset: report.offset,
                used: self.used,
                ..Report::default()
            };
            assert_eq!(*report, refused);
            if matches!(report.refusal, 1..=5 | 13 | 14) {
                assert_eq!(report.offset, 0);
            }
        } else {
            assert_eq!(report.offset, 0);
        }
    }

    /// Runs and expects an export with these elements besides the markers.
    #[track_caller]
    pub fn expect_export(&self, data: &[Bytes], elements: &[Bytes]) -> Outcome {
        let outcome = self.run(&data.concat());
        assert_eq!((outcome.report.refusal, outcome.report.offset), (0, 0));
        let expected = export(self.options, elements);
        assert_eq!(outcome.report.length, expected.len() as u64);
        assert_eq!(outcome.export(), expected);
        outcome
    }

    /// Runs and expects a refusal with its offset.
    #[track_caller]
    pub fn expect_refusal(&self, data: &[Bytes], number: u64, offset: usize) -> Outcome {
        let outcome = self.run(&data.concat());
        assert_eq!((outcome.report.refusal, outcome.report.offset), (number, offset as u64));
        outcome
    }
}

impl Outcome {
    /// What was written.
    pub fn export(&self) -> &[u8] {
        &self.out[..usize::try_from(self.report.length).unwrap()]
    }

    /// Kept, replaced, renamed, removed.
    pub fn counts(&self) -> [u64; 4] {
        let Report { kept, replaced, renamed, removed, .. } = self.report;
        [kept, replaced, renamed, removed]
    }

    /// The slots in use.
    pub fn slots(&self) -> Vec<Bytes> {
        let in_use = usize::try_from(self.report.used).unwrap();
        self.ledger.chunks_exact(64).take(in_use).map(<[u8]>::to_vec).collect()
    }
}

fn is_zero(bytes: &[u8]) -> bool {
    bytes == vec![0; bytes.len()]
}
