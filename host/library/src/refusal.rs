//! Refusals: document 01's numbers, and their conditions in words.

use std::error::Error;
use std::fmt;

/// The library's no to a run.
#[derive(Clone, Copy, Debug, PartialEq, Eq)]
pub struct Refusal {
    /// Document 01's number.
    pub number: u64,
    /// Where the element, item or mark at fault begins; 0 where the refusal is about no place in the data set.
    pub offset: usize,
}

impl Refusal {
    /// Its condition, as document 01 has it.
    #[must_use]
    pub fn condition(self) -> &'static str {
        match self.number {
            1 => {
                "full-dates and modified-dates both chosen, or a shift below -36500 or above 36500 days, \
                 or a shift other than 0 without modified-dates"
            }
            2 => "the root is not a UID of at most 59 characters",
            3 => "the ledger has more entries in use than slots",
            4 => "a replacement list breaks its rule",
            5 => "the data set is longer than 268435456 bytes",
            6 => "the bytes end before a header, value, item or end mark is whole",
            7 => "a tag that is not allowed or does not rise, or no item or end mark where one must stand",
            8 => "an unknown VR, or two bytes after it that must be zero and are not",
            9 => {
                "an odd length, an undefined length where none is allowed, or an end mark whose length is not 0"
            }
            10 => "an item nested 9 deep",
            11 => "an element to be renamed that is neither UI nor SQ, or whose value breaks the UID rule",
            12 => "a date to be shifted that is malformed, is no real day, or leaves the years 0001 to 9999",
            13 => "more new UIDs than free slots in the ledger",
            14 => "the output is longer than its buffer",
            _ => "a number that document 01 does not have",
        }
    }

    /// Whether the offset is a place in the data set.
    #[must_use]
    pub fn has_place(self) -> bool {
        matches!(self.number, 6..=12)
    }
}

/// `No. 6 at offset 14: the bytes end before ..`, and without an offset where there is no place.
impl fmt::Display for Refusal {
    fn fmt(&self, to: &mut fmt::Formatter) -> fmt::Result {
        let Refusal { number, offset } = self;
        write!(to, "No. {number}")?;
        if self.has_place() {
            write!(to, " at offset {offset}")?;
        }
        write!(to, ": {}", self.condition())
    }
}

impl Error for Refusal {}
