//! From a tag to its action, and from an action and a VR to what is done (document 01, "Which action an element
//! gets" and "What each action writes").

use crate::layout::Element;
use crate::options::{Choice, Options};
use crate::table::{Basic, Row, Table};
use crate::vr::Vr;

/// Top-level elements that go because the export says the same things anew, or, for (0012,0063), not at all (A5).
const REMOVED_AT_TOP_LEVEL: [u32; 4] = [0x0012_0062, 0x0012_0063, 0x0012_0064, 0x0028_0303];

/// What the table and the rules order for a tag.
#[derive(Clone, Copy, Debug, PartialEq, Eq)]
enum Action {
    /// X
    Remove,
    /// K
    Keep,
    /// Z
    Empty,
    /// D
    Dummy,
    /// U
    Rename,
    /// C; `shifts_dates` if it is Modified Dates' own column that has the C (A7).
    Clean { shifts_dates: bool },
}

/// What is done with an element that is no sequence.
#[derive(Clone, Copy, Debug, PartialEq, Eq)]
pub enum ValueTreatment {
    /// Nothing is written.
    Remove,
    /// The element is written unchanged.
    Copy,
    /// A list value, else nothing, takes the place of the value.
    Empty,
    /// A list value, else the dummy, takes the place of the value.
    Dummy,
    /// The dates of a DA or DT are moved.
    Shift,
    /// The UIDs of a UI give way to new UIDs.
    Rename,
    /// UIDs would give way to new UIDs, but the element is no UI: refusal 11 (W9).
    CannotRename,
}

/// What is done with a sequence.
#[derive(Clone, Copy, Debug, PartialEq, Eq)]
pub enum SequenceTreatment {
    /// Nothing is written.
    Remove,
    /// The elements of its items are treated by all the rules in their turn.
    Walk,
    /// A sequence without items takes its place.
    Empty,
    /// A sequence of one item without elements takes its place.
    OneEmptyItem,
}

/// The rules of one run. What they say hangs on tag, VR and top level or not alone (K4).
pub struct Rules {
    table: &'static Table,
    options: Options,
}

impl Rules {
    pub fn new(options: Options) -> Rules {
        Rules { table: Table::edition_2023b(), options }
    }

    /// The treatment of an element that is no sequence, by the VR that stands in the data (A12).
    pub fn value_treatment(&self, element: &Element) -> ValueTreatment {
        let vr = element.vr;
        match self.action(element) {
            Action::Remove => ValueTreatment::Remove,
            Action::Keep => ValueTreatment::Copy,
            Action::Empty => ValueTreatment::Empty,
            Action::Dummy => dummy_treatment(vr),
            Action::Rename if vr == Vr::UI => ValueTreatment::Rename,
            Action::Rename => ValueTreatment::CannotRename,
            Action::Clean { shifts_dates: true } if matches!(vr, Vr::DA | Vr::DT) => ValueTreatment::Shift,
            Action::Clean { shifts_dates: true } if vr == Vr::TM => ValueTreatment::Copy,
            Action::Clean { .. } => dummy_treatment(vr),
        }
    }

    /// The treatment of a sequence.
    pub fn sequence_treatment(&self, element: &Element) -> SequenceTreatment {
        match self.action(element) {
            Action::Remove => SequenceTreatment::Remove,
            Action::Keep | Action::Rename | Action::Clean { .. } => SequenceTreatment::Walk,
            Action::Empty => SequenceTreatment::Empty,
            Action::Dummy => SequenceTreatment::OneEmptyItem,
        }
    }

    fn action(&self, element: &Element) -> Action {
        let is_group_length = element.tag & 0xFFFF == 0;
        let is_written_anew = element.depth == 0 && REMOVED_AT_TOP_LEVEL.contains(&element.tag);
        if is_group_length || is_written_anew {
            return Action::Remove;
        }
        match self.table.row(element.tag) {
            Some(row) => row_action(row, self.options),
            None => Action::Keep,
        }
    }
}

/// The letter of a row: C of any chosen option, else K of any chosen option, else the basic one (A6).
fn row_action(row: Row, options: Options) -> Action {
    let cleaning = row.cleaning.and(options);
    if cleaning.has_any() {
        return Action::Clean { shifts_dates: cleaning.has(Choice::ModifiedDates) };
    }
    if row.keeping.and(options).has_any() {
        return Action::Keep;
    }
    match row.basic {
        Basic::Remove => Action::Remove,
        Basic::Empty => Action::Empty,
        Basic::Dummy => Action::Dummy,
        Basic::Rename => Action::Rename,
    }
}

/// D, also for a C that cleans nothing in particular: a UI is renamed (W5, W6), all else gets a dummy (W7).
fn dummy_treatment(vr: Vr) -> ValueTreatment {
    if vr == Vr::UI { ValueTreatment::Rename } else { ValueTreatment::Dummy }
}
