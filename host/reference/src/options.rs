//! The option number, and what each option is called in CID 7050.

use crate::refusal::{Reason, Refusal};

/// The furthest a date may be shifted, either way ("UIDs, dates, lists").
const LONGEST_SHIFT: i64 = 36_500;

/// One of the six options ("Which action an element gets"). The order is that of their bits, which is also that of
/// their codes (W17).
#[derive(Clone, Copy, Debug, PartialEq, Eq)]
pub enum Choice {
    FullDates,
    ModifiedDates,
    PatientCharacteristics,
    DeviceIdentity,
    RetainUids,
    InstitutionIdentity,
}

/// A code of CID 7050 with its meaning (document 001, W16).
#[derive(Clone, Copy, Debug, PartialEq, Eq)]
pub struct Code {
    pub value: &'static str,
    pub meaning: &'static str,
}

/// The code of the basic profile, which every export names first.
pub const BASIC_PROFILE: Code =
    Code { value: "113100", meaning: "Basic Application Confidentiality Profile" };

impl Choice {
    pub const ALL: [Choice; 6] = [
        Choice::FullDates,
        Choice::ModifiedDates,
        Choice::PatientCharacteristics,
        Choice::DeviceIdentity,
        Choice::RetainUids,
        Choice::InstitutionIdentity,
    ];

    /// The option's own bit of the option number.
    pub fn bit(self) -> u8 {
        1 << self as u8
    }

    /// The option's own code value and meaning.
    pub fn code(self) -> Code {
        let (value, meaning) = match self {
            Choice::FullDates => ("113106", "Retain Longitudinal Temporal Information Full Dates Option"),
            Choice::ModifiedDates => {
                ("113107", "Retain Longitudinal Temporal Information Modified Dates Option")
            }
            Choice::PatientCharacteristics => ("113108", "Retain Patient Characteristics Option"),
            Choice::DeviceIdentity => ("113109", "Retain Device Identity Option"),
            Choice::RetainUids => ("113110", "Retain UIDs Option"),
            Choice::InstitutionIdentity => ("113112", "Retain Institution Identity Option"),
        };
        Code { value, meaning }
    }

    /// The heading of the option's column in Table E.1-1 as printed.
    pub fn column(self) -> &'static str {
        match self {
            Choice::FullDates => "Rtn. Long. Full Dates Opt.",
            Choice::ModifiedDates => "Rtn. Long. Modif. Dates Opt.",
            Choice::PatientCharacteristics => "Rtn. Pat. Chars. Opt.",
            Choice::DeviceIdentity => "Rtn. Dev. Id. Opt.",
            Choice::RetainUids => "Rtn. UIDs Opt.",
            Choice::InstitutionIdentity => "Rtn. Inst. Id. Opt.",
        }
    }
}

/// A set of options, as bits.
#[derive(Clone, Copy, Debug, Default, PartialEq, Eq)]
pub struct Options(u8);

impl Options {
    pub fn with(self, choice: Choice) -> Options {
        Options(self.0 | choice.bit())
    }

    pub fn has(self, choice: Choice) -> bool {
        self.0 & choice.bit() != 0
    }

    pub fn has_any(self) -> bool {
        self.0 != 0
    }

    pub fn and(self, other: Options) -> Options {
        Options(self.0 & other.0)
    }

    pub fn or(self, other: Options) -> Options {
        Options(self.0 | other.0)
    }

    /// The options of the set in bit order.
    pub fn choices(self) -> impl Iterator<Item = Choice> {
        Choice::ALL.into_iter().filter(move |&choice| self.has(choice))
    }

    /// What (0028,0303) says of the dates ("What each action writes", last paragraph).
    pub fn dates_word(self) -> &'static str {
        if self.has(Choice::FullDates) {
            "UNMODIFIED"
        } else if self.has(Choice::ModifiedDates) {
            "MODIFIED"
        } else {
            "REMOVED"
        }
    }
}

/// Reads an option number together with its shift. Refusal 1 if a bit is set that is no option's, if both date
/// options are, if the shift is too long, or if dates would be shifted without Modified Dates (R6).
pub fn checked(number: u64, shift: i64) -> Result<Options, Refusal> {
    let refusal = Refusal::without_place(Reason::Settings);
    let options = u8::try_from(number).ok().filter(|&bits| bits < 1 << Choice::ALL.len());
    let options = Options(options.ok_or(refusal)?);
    let modified_dates = options.has(Choice::ModifiedDates);
    let both_date_options = options.has(Choice::FullDates) && modified_dates;
    let shift_in_range = (-LONGEST_SHIFT..=LONGEST_SHIFT).contains(&shift);
    if both_date_options || !shift_in_range || (shift != 0 && !modified_dates) {
        return Err(refusal);
    }
    Ok(options)
}
