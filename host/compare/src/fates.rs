//! What is done with an element: found out from what the second program does with a data set that holds it
//! alone. It hangs on options, level, tag and VR alone (K4), so this says what is done with it anywhere.

use std::collections::HashMap;

use crate::export::{Ledger, Outcome, Run, Settings};
use crate::lent::Lent;
use crate::pieces::*;

/// By the numbers of the C interface.
#[derive(Clone, Copy, Debug, PartialEq, Eq)]
pub enum Fate {
    Removed = 0,
    Kept = 1,
    Walked = 2,
    Emptied = 3,
    Dummied = 4,
    Renamed = 5,
    Shifted = 6,
    Refused = 7,
}

/// A sequence that is walked into under all settings.
const AROUND: u32 = 0x0008_1115;
const MODIFIED_DATES: u64 = 2;
/// A value for DA and DT that is no dummy, and the day after.
const DAY: &[u8] = b"20200103";
const NEXT_DAY: &[u8] = b"20200104";

/// Asks the second program. The options must be ones that it accepts, the tag one that an element may have.
pub fn fate(options: u64, top: bool, tag: u32, vr: [u8; 2]) -> Fate {
    let vr_text = std::str::from_utf8(&vr).expect("two letters");
    let value: Bytes = match &vr {
        b"SQ" => item(&[]),
        b"UI" => b"1.7\0".into(),
        b"DA" | b"DT" => DAY.into(),
        _ => b"\x01\x01".into(),
    };
    let alone = element(tag, vr_text, value);
    let base = if top { Bytes::new() } else { around(&[]) };
    let data = if top { alone } else { around(&[alone]) };
    let (with, without) = (export(options, &data), export(options, &base));
    if with.report.refusal != 0 {
        return Fate::Refused;
    }
    let written = with.report.length - without.report.length;
    match (with.report.removed, with.report.renamed, with.report.replaced) {
        (1, 0, 0) => Fate::Removed,
        (0, 1, 0) => Fate::Renamed,
        (0, 0, 0) if vr == *b"SQ" => Fate::Walked,
        (0, 0, 0) => Fate::Kept,
        _ if written == header_size(vr) as u64 => Fate::Emptied,
        _ if with.export().windows(8).any(|part| part == NEXT_DAY) => Fate::Shifted,
        _ => Fate::Dummied,
    }
}

fn around(elements: &[Bytes]) -> Bytes {
    sequence(AROUND, &[item(elements)])
}

fn export(options: u64, data: &[u8]) -> Outcome {
    let shift = i64::from(options & MODIFIED_DATES != 0);
    let settings = Settings { options, shift, ..Settings::plain() };
    let data = Lent::among(data, &[], 0);
    Run { settings: &settings, data: &data, ledger: &Ledger::empty(1), room: 1_000 }.expected()
}

/// The fates under one option number, asked for once each.
pub struct Fates {
    options: u64,
    known: HashMap<(bool, u32, [u8; 2]), Fate>,
}

impl Fates {
    pub fn under(options: u64) -> Fates {
        Fates { options, known: HashMap::new() }
    }

    pub fn of(&mut self, top: bool, tag: u32, vr: [u8; 2]) -> Fate {
        *self.known.entry((top, tag, vr)).or_insert_with(|| fate(self.options, top, tag, vr))
    }
}

#[cfg(test)]
mod tests {
    use super::*;

    #[test]
    fn fates_are_those_of_document_01() {
        let top = |options, tag, vr: &str| fate(options, true, tag, vr.as_bytes().try_into().unwrap());
        assert_eq!(top(0, 0x0010_0010, "PN"), Fate::Emptied);
        assert_eq!(top(0, 0x0010_0010, "SQ"), Fate::Emptied);
        assert_eq!(top(0, 0x0009_0010, "LO"), Fate::Removed);
        assert_eq!(top(0, 0x0008_0060, "CS"), Fate::Kept);
        assert_eq!(top(0, 0x0020_000D, "UI"), Fate::Renamed);
        assert_eq!(top(0, 0x0020_000D, "LO"), Fate::Refused);
        assert_eq!(top(0, 0x0008_1140, "SQ"), Fate::Walked);
        assert_eq!(top(0, 0x0040_A730, "SQ"), Fate::Dummied);
        assert_eq!(top(2, 0x0008_0020, "DA"), Fate::Shifted);
        assert_eq!(top(2, 0x0008_002A, "DT"), Fate::Shifted);
        assert_eq!(top(2, 0x0008_0030, "TM"), Fate::Kept);
        assert_eq!(top(0, 0x0012_0064, "SQ"), Fate::Removed);
        assert_eq!(fate(0, false, 0x0012_0064, *b"SQ"), Fate::Walked);
    }
}
