//! What the library does with an attribute, by VR, in words. Nothing here knows a rule: the library is asked
//! for each VR, and the answers are put together.

use library::Refusal;

use crate::vrs;

/// What is done with an attribute, for each VR in the order of `vrs::ALL`.
#[derive(Clone, Debug, PartialEq, Eq)]
pub struct Actions(Vec<Action>);

/// The library's answer.
#[derive(Clone, Copy, Debug, PartialEq, Eq)]
pub enum Action {
    Removed,
    Kept,
    WalkedInto,
    Emptied,
    Dummy,
    Renamed,
    Shifted,
    Refused,
    /// No data set may have an element with this tag.
    Barred,
    /// A number that the interface does not have.
    Unknown(u64),
}

impl Action {
    /// Asks the library.
    pub fn of(options: u64, top: bool, tag: u32, vr: [u8; 2]) -> Action {
        match library::action(options, top, tag.into(), vrs::number(vr)) {
            0 => Action::Removed,
            1 => Action::Kept,
            2 => Action::WalkedInto,
            3 => Action::Emptied,
            4 => Action::Dummy,
            5 => Action::Renamed,
            6 => Action::Shifted,
            7 => Action::Refused,
            number => Action::Unknown(number),
        }
    }

    pub fn words(self) -> String {
        match self {
            Action::Removed => "removed",
            Action::Kept => "kept",
            Action::WalkedInto => "walked into",
            Action::Emptied => "emptied",
            Action::Dummy => "replaced by a dummy",
            Action::Renamed => "UIDs renamed",
            Action::Shifted => "dates shifted",
            Action::Refused => "refused (No. 11)",
            Action::Barred => "refused (No. 7): no data set may have such an element",
            Action::Unknown(number) => return format!("unknown ({number})"),
        }
        .into()
    }
}

impl Actions {
    /// Asks the library for every VR.
    pub fn of(options: u64, top: bool, tag: u32) -> Actions {
        if is_barred(tag) {
            return Actions(vec![Action::Barred; vrs::ALL.len()]);
        }
        Actions(vrs::ALL.into_iter().map(|vr| Action::of(options, top, tag, vr)).collect())
    }

    /// Whether some VR's value goes out as it came in.
    pub fn keeps_something(&self) -> bool {
        self.0.contains(&Action::Kept)
    }

    /// Whether dates are shifted and times are kept beside them.
    pub fn shifts_dates_alone(&self) -> bool {
        let has = |vr, action| self.0.iter().zip(vrs::ALL).any(|(is, of)| of == vr && *is == action);
        has(*b"DA", Action::Shifted) && has(*b"TM", Action::Kept)
    }

    /// What holds for most VRs.
    fn most(&self) -> Action {
        let count = |action: &Action| self.0.iter().filter(|other| *other == action).count();
        *self.0.iter().max_by_key(|action| count(action)).expect("there are VRs")
    }

    /// What the attribute is there for: dates to be shifted, UIDs to be renamed where all else is refused, and
    /// else what holds for most VRs.
    pub fn main(&self) -> Action {
        let has = |action| self.0.contains(&action);
        match self.most() {
            _ if has(Action::Shifted) => Action::Shifted,
            Action::Refused if has(Action::Renamed) => Action::Renamed,
            most => most,
        }
    }

    /// The main thing, and for which VRs it is otherwise: `kept; SQ: walked into`.
    pub fn words(&self) -> String {
        let (main, most) = (self.main(), self.most());
        let mut groups: Vec<(Action, Vec<String>)> = Vec::new();
        for (action, vr) in self.0.iter().zip(vrs::ALL) {
            let letters = vrs::letters(vr);
            match groups.iter_mut().find(|(other, _)| other == action) {
                Some((_, vrs)) => vrs.push(letters),
                None => groups.push((*action, vec![letters])),
            }
        }
        let mut words = main.words();
        if let Some((_, vrs)) = groups.iter().find(|(action, _)| *action == main && main != most) {
            words += &format!(" ({})", vrs.join(", "));
        }
        for (action, vrs) in groups.iter().filter(|(action, _)| *action != main && *action != most) {
            words += &format!("; {}: {}", vrs.join(", "), action.words());
        }
        if main != most {
            words += &format!("; others: {}", most.words());
        }
        words
    }
}

/// Whether the library refuses a data set for holding an element with this tag (No. 7).
fn is_barred(tag: u32) -> bool {
    let element = [&tag.rotate_left(16).to_le_bytes()[..], b"LO\0\0"].concat();
    matches!(library::view(&element, tag.into()), Err(Refusal { number: 7, .. }))
}

#[cfg(test)]
mod tests {
    use super::*;

    #[test]
    fn actions_are_told_in_words() {
        let words = |options, tag| Actions::of(options, true, tag).words();
        assert_eq!(words(0, 0x0010_0010), "emptied");
        assert_eq!(words(0, 0x0009_0010), "removed");
        assert_eq!(words(0, 0x0028_0010), "kept; SQ: walked into");
        assert_eq!(words(0, 0x0002_0003), "refused (No. 7): no data set may have such an element");
        assert_eq!(words(0, 0x0018_11BB), "replaced by a dummy; UI: UIDs renamed");
        assert_eq!(words(0, 0x0020_000D), "UIDs renamed (UI); SQ: walked into; others: refused (No. 11)");
        assert_eq!(
            words(2, 0x0008_0020),
            "dates shifted (DA, DT); SQ: walked into; TM: kept; UI: UIDs renamed; others: replaced by a dummy"
        );
    }
}
