//! The fourteen reasons to say no (document 01, "When the station says no").

/// Why the station refuses; the discriminant is document 01's number.
#[derive(Clone, Copy, Debug, PartialEq, Eq)]
pub enum Reason {
    /// The option number and the shift do not go together, or are out of range.
    Settings = 1,
    /// The root is no UID, or too long to carry a number behind it.
    Root = 2,
    /// More ledger entries are said to be in use than there are slots.
    LedgerCount = 3,
    /// One of the two lists is malformed.
    List = 4,
    /// The data set is too long.
    TooLong = 5,
    /// The bytes run out inside a header, value, item or end mark.
    CutShort = 6,
    /// A tag that may not stand where it stands.
    Tag = 7,
    /// An unknown VR, or bytes between VR and length that are not zero.
    Vr = 8,
    /// A length that is odd, undefined where it may not be, or not zero at an end mark.
    Length = 9,
    /// An item too deep.
    Depth = 10,
    /// An element that should be renamed and cannot be.
    Uid = 11,
    /// A date that should be shifted and cannot be.
    Date = 12,
    /// The new UIDs do not find slots.
    NoFreeSlot = 13,
    /// The output does not find room.
    NoRoom = 14,
}

/// A reason with its place in the data set.
#[derive(Clone, Copy, Debug, PartialEq, Eq)]
pub struct Refusal {
    pub reason: Reason,
    pub offset: usize,
}

impl Refusal {
    /// A refusal that points at an element, item or mark.
    pub fn at(reason: Reason, offset: usize) -> Refusal {
        Refusal { reason, offset }
    }

    /// A refusal that has no place in the data set (1 to 5, 13, 14): its offset is 0.
    pub fn without_place(reason: Reason) -> Refusal {
        Refusal { reason, offset: 0 }
    }

    /// Document 01's number.
    pub fn number(self) -> u64 {
        self.reason as u64
    }
}
