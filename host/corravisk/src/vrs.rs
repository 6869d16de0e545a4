//! The VRs, as far as a listing needs to know them.

/// All of them, in the order of their letters.
pub const ALL: [[u8; 2]; 34] = [
    *b"AE", *b"AS", *b"AT", *b"CS", *b"DA", *b"DS", *b"DT", *b"FD", *b"FL", *b"IS", *b"LO", *b"LT", *b"OB",
    *b"OD", *b"OF", *b"OL", *b"OV", *b"OW", *b"PN", *b"SH", *b"SL", *b"SQ", *b"SS", *b"ST", *b"SV", *b"TM",
    *b"UC", *b"UI", *b"UL", *b"UN", *b"UR", *b"US", *b"UT", *b"UV",
];

/// How the values of a VR are shown.
#[derive(Clone, Copy, Debug, PartialEq, Eq)]
pub enum Form {
    Text,
    /// Whole numbers of so many bytes, with a sign or without.
    Whole {
        bytes: usize,
        signed: bool,
    },
    Float {
        bytes: usize,
    },
    Tag,
    Bytes,
}

/// Whether two zero bytes and a length of four bytes follow the letters.
pub fn has_long_header(vr: [u8; 2]) -> bool {
    let long = [b"OB", b"OD", b"OF", b"OL", b"OV", b"OW", b"SQ", b"SV", b"UC", b"UN", b"UR", b"UT", b"UV"];
    long.contains(&&vr)
}

pub fn form(vr: [u8; 2]) -> Form {
    let whole = |bytes, signed| Form::Whole { bytes, signed };
    match &vr {
        b"US" => whole(2, false),
        b"SS" => whole(2, true),
        b"UL" => whole(4, false),
        b"SL" => whole(4, true),
        b"UV" => whole(8, false),
        b"SV" => whole(8, true),
        b"FL" => Form::Float { bytes: 4 },
        b"FD" => Form::Float { bytes: 8 },
        b"AT" => Form::Tag,
        b"OB" | b"OD" | b"OF" | b"OL" | b"OV" | b"OW" | b"UN" => Form::Bytes,
        _ => Form::Text,
    }
}

/// The two letters, for printing.
pub fn letters(vr: [u8; 2]) -> String {
    vr.iter().map(|&letter| letter as char).collect()
}

/// The number that the library takes for a VR.
pub fn number(vr: [u8; 2]) -> u64 {
    u16::from_le_bytes(vr).into()
}
