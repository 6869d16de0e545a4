//! Value representations: the two letters between a tag and its length.

/// A VR that document 01 knows ("Layout of a data set"); its number is its spelling.
#[derive(Clone, Copy, Debug, PartialEq, Eq)]
#[repr(u16)]
pub enum Vr {
    AE = spelled(b"AE"),
    AS = spelled(b"AS"),
    AT = spelled(b"AT"),
    CS = spelled(b"CS"),
    DA = spelled(b"DA"),
    DS = spelled(b"DS"),
    DT = spelled(b"DT"),
    FD = spelled(b"FD"),
    FL = spelled(b"FL"),
    IS = spelled(b"IS"),
    LO = spelled(b"LO"),
    LT = spelled(b"LT"),
    OB = spelled(b"OB"),
    OD = spelled(b"OD"),
    OF = spelled(b"OF"),
    OL = spelled(b"OL"),
    OV = spelled(b"OV"),
    OW = spelled(b"OW"),
    PN = spelled(b"PN"),
    SH = spelled(b"SH"),
    SL = spelled(b"SL"),
    SQ = spelled(b"SQ"),
    SS = spelled(b"SS"),
    ST = spelled(b"ST"),
    SV = spelled(b"SV"),
    TM = spelled(b"TM"),
    UC = spelled(b"UC"),
    UI = spelled(b"UI"),
    UL = spelled(b"UL"),
    UN = spelled(b"UN"),
    UR = spelled(b"UR"),
    US = spelled(b"US"),
    UT = spelled(b"UT"),
    UV = spelled(b"UV"),
}

const fn spelled(letters: &[u8; 2]) -> u16 {
    u16::from_le_bytes(*letters)
}

/// What stands in for a value that may not be shown, where no list has one.
const TEXT_DUMMY: &[u8] = b"ANON";

impl Vr {
    /// Reads the two letters of a header; `None` for any other pair, lower case included (F16).
    pub fn from_letters(letters: [u8; 2]) -> Option<Vr> {
        Some(match &letters {
            b"AE" => Vr::AE,
            b"AS" => Vr::AS,
            b"AT" => Vr::AT,
            b"CS" => Vr::CS,
            b"DA" => Vr::DA,
            b"DS" => Vr::DS,
            b"DT" => Vr::DT,
            b"FD" => Vr::FD,
            b"FL" => Vr::FL,
            b"IS" => Vr::IS,
            b"LO" => Vr::LO,
            b"LT" => Vr::LT,
            b"OB" => Vr::OB,
            b"OD" => Vr::OD,
            b"OF" => Vr::OF,
            b"OL" => Vr::OL,
            b"OV" => Vr::OV,
            b"OW" => Vr::OW,
            b"PN" => Vr::PN,
            b"SH" => Vr::SH,
            b"SL" => Vr::SL,
            b"SQ" => Vr::SQ,
            b"SS" => Vr::SS,
            b"ST" => Vr::ST,
            b"SV" => Vr::SV,
            b"TM" => Vr::TM,
            b"UC" => Vr::UC,
            b"UI" => Vr::UI,
            b"UL" => Vr::UL,
            b"UN" => Vr::UN,
            b"UR" => Vr::UR,
            b"US" => Vr::US,
            b"UT" => Vr::UT,
            b"UV" => Vr::UV,
            _ => return None,
        })
    }

    /// The two letters as they stand in a header.
    pub fn letters(self) -> [u8; 2] {
        (self as u16).to_le_bytes()
    }

    /// Whether two zero bytes and a length of four bytes follow the letters (else a length of two bytes does).
    pub fn has_long_header(self) -> bool {
        use Vr::*;
        matches!(self, OB | OD | OF | OL | OV | OW | SQ | SV | UC | UN | UR | UT | UV)
    }

    /// Whether a replacement list may give a value for elements of this VR ("What each action writes").
    pub fn is_served_by_lists(self) -> bool {
        use Vr::*;
        matches!(self, AE | AS | CS | DA | DS | DT | IS | LO | LT | PN | SH | ST | TM | UC | UR | UT)
    }

    /// The dummy that action D writes, before padding. UI and SQ have none: D renames the one and empties the
    /// other, so they never come here.
    pub fn dummy(self) -> &'static [u8] {
        use Vr::*;
        match self {
            AE | CS | LO | LT | PN | SH | ST | UC | UR | UT => TEXT_DUMMY,
            AS => b"000Y",
            DA => b"19000101",
            DT => b"19000101000000",
            TM => b"000000",
            DS | IS => b"0",
            OB | OW | UN | US | SS => &[0; 2],
            AT | FL | OF | OL | SL | UL => &[0; 4],
            FD | OD | OV | SV | UV => &[0; 8],
            UI | SQ => &[],
        }
    }

    /// The byte that makes a value of odd length even: a zero byte for a UID, a space for text (W13). Values of
    /// the other VRs are even by themselves.
    pub fn padding(self) -> u8 {
        if self == Vr::UI { 0 } else { b' ' }
    }
}

#[cfg(test)]
mod tests {
    use super::*;

    fn all() -> Vec<Vr> {
        (0..=u16::MAX).filter_map(|pair| Vr::from_letters(pair.to_be_bytes())).collect()
    }

    #[test]
    fn of_all_pairs_of_bytes_thirty_four_are_vrs() {
        assert_eq!(all().len(), 34);
    }

    #[test]
    fn every_vr_is_read_from_its_own_letters() {
        for vr in all() {
            assert_eq!(Vr::from_letters(vr.letters()), Some(vr));
        }
    }

    #[test]
    fn f16_lower_case_is_no_vr() {
        assert_eq!(Vr::from_letters(*b"pn"), None);
    }

    #[test]
    fn thirteen_vrs_have_the_long_header() {
        assert_eq!(all().iter().filter(|vr| vr.has_long_header()).count(), 13);
    }

    #[test]
    fn lists_serve_exactly_the_vrs_whose_dummy_is_text() {
        for vr in all() {
            let text = vr.dummy().first().is_some_and(|&byte| byte != 0);
            assert_eq!(vr.is_served_by_lists(), text, "{vr:?}");
        }
    }
}
