//! The two entries: one that takes the patient out of a data set, one that shows an element of it.

use std::io::Write;
use std::ops::Range;

use crate::actions::{Rules, SequenceTreatment, ValueTreatment};
use crate::dates;
use crate::layout::{self, Contents, Element, Visitor};
use crate::ledger::{self, Numbers};
use crate::lists::Lists;
use crate::options::{self, Options};
use crate::refusal::{Reason, Refusal};
use crate::uid;
use crate::vr::Vr;
use crate::writing::{Marker, Output};

/// What a run hands back. After a success `refusal` and `offset` are 0 (R9).
#[derive(Clone, Copy, Debug, Default, PartialEq, Eq)]
pub struct Report {
    /// Document 01's number of the refusal, 1 to 14, or 0.
    pub refusal: u64,
    /// Where the element, item or mark at fault begins.
    pub offset: u64,
    /// Bytes of the output written.
    pub length: u64,
    /// Ledger entries in use now.
    pub used: u64,
    /// Elements kept, walked sequences included.
    pub kept: u64,
    /// Elements emptied, given a stand-in, or shifted.
    pub replaced: u64,
    /// Elements whose UIDs were renamed.
    pub renamed: u64,
    /// Elements removed.
    pub removed: u64,
}

/// What the second entry answers.
#[derive(Clone, Copy, Debug, Default, PartialEq, Eq)]
pub struct View {
    /// Document 01's number of the refusal, 5 to 10, or 0.
    pub refusal: u64,
    /// Where the element, item or mark at fault begins.
    pub offset: u64,
    /// Whether the top level has the tag.
    pub found: bool,
    /// Where the part after the element's length field begins in the data set; 0 if nothing is found.
    pub start: usize,
    /// The length of that part, end mark included; 0 if nothing is found.
    pub len: usize,
}

/// Takes the patient out of `data`. Every byte of `out` is written; of `ledger` every byte after the entries in use
/// is, unless more entries are said to be in use than there are slots, in which case the ledger is left alone.
#[allow(clippy::too_many_arguments)]
pub fn deidentify(
    data: &[u8],
    options: u64,
    shift: i64,
    root: &[u8],
    study: &[u8],
    site: &[u8],
    ledger: &mut [u8],
    used: u64,
    out: &mut [u8],
) -> Report {
    let request = Request { data, options, shift, root, study, site, used };
    run(&request, ledger, out).unwrap_or_else(|refusal| {
        out.fill(0);
        ledger::clear_after_refusal(ledger, used);
        Report { refusal: refusal.number(), offset: refusal.offset as u64, used, ..Report::default() }
    })
}

/// What a run is given to read.
struct Request<'r> {
    data: &'r [u8],
    options: u64,
    shift: i64,
    root: &'r [u8],
    study: &'r [u8],
    site: &'r [u8],
    used: u64,
}

/// The run up to its first refusal, in document 01's order. The walk judges shape and writes at once: a fault of
/// shape ends it, while the first fault of a value is kept in mind, as a fault of shape further on goes before it
/// (F20). What was written until then is of no account, since any refusal zeroes it.
fn run(request: &Request, ledger: &mut [u8], out: &mut [u8]) -> Result<Report, Refusal> {
    let options = options::checked(request.options, request.shift)?;
    if !uid::is_root(request.root) {
        return Err(Refusal::without_place(Reason::Root));
    }
    let (in_use, rest) = ledger::split(ledger, request.used)?;
    let lists = Lists::read(request.study, request.site)?;

    let mut export = Export {
        rules: Rules::new(options),
        options,
        shift: request.shift,
        root: request.root,
        lists,
        numbers: Numbers::new(in_use, rest.len()),
        output: Output::new(out),
        markers_to_write: Marker::ALL,
        counts: Counts::default(),
        value_fault: None,
        scratch: Vec::new(),
    };
    layout::walk(request.data, &mut export)?;
    if let Some(fault) = export.value_fault {
        return Err(fault);
    }
    export.write_markers_below(u32::MAX);

    let new_uids = export.numbers.into_new_uids()?;
    let length = export.output.finish()?;
    ledger::enter(&new_uids, rest);
    let Counts { kept, replaced, renamed, removed } = export.counts;
    let used = request.used + new_uids.len() as u64;
    Ok(Report { refusal: 0, offset: 0, length: length as u64, used, kept, replaced, renamed, removed })
}

/// The four counts ("Kept content and the four counts"): each element of the top level and of walked items once.
#[derive(Default)]
struct Counts {
    kept: u64,
    replaced: u64,
    renamed: u64,
    removed: u64,
}

/// The visitor that writes the export.
struct Export<'r> {
    rules: Rules,
    options: Options,
    shift: i64,
    root: &'r [u8],
    lists: Lists<'r>,
    numbers: Numbers<'r>,
    output: Output<'r>,
    /// Those not written yet, in tag order.
    markers_to_write: &'static [Marker],
    counts: Counts,
    /// The first value that could not be renamed or shifted (R4).
    value_fault: Option<Refusal>,
    /// Room for one new value, kept from element to element.
    scratch: Vec<u8>,
}

impl<'r> Visitor<'r> for Export<'r> {
    fn value(&mut self, element: &Element, whole: &'r [u8], value: &'r [u8]) {
        self.write_markers_before(element);
        match self.rules.value_treatment(element) {
            ValueTreatment::Remove => self.counts.removed += 1,
            ValueTreatment::Copy => {
                self.counts.kept += 1;
                self.output.put(whole);
            }
            ValueTreatment::Empty => self.replace(element, &[]),
            ValueTreatment::Dummy => self.replace(element, element.vr.dummy()),
            ValueTreatment::Shift => self.shift(element, value),
            ValueTreatment::Rename => self.rename(element, value),
            ValueTreatment::CannotRename => self.note_fault(Reason::Uid, element),
        }
    }

    fn sequence(&mut self, element: &Element) -> Contents {
        self.write_markers_before(element);
        match self.rules.sequence_treatment(element) {
            SequenceTreatment::Remove => self.counts.removed += 1,
            SequenceTreatment::Walk => {
                self.counts.kept += 1;
                return Contents::Shown;
            }
            SequenceTreatment::Empty => {
                self.counts.replaced += 1;
                self.output.empty_sequence(element.tag);
            }
            SequenceTreatment::OneEmptyItem => {
                self.counts.replaced += 1;
                self.output.open_sequence(element.tag);
                self.output.open_item();
                self.output.close_item();
                self.output.close_sequence();
            }
        }
        Contents::Hidden
    }

    // A walked sequence is written once it is known whether it has items, whatever its length said (W14).
    fn item(&mut self, sequence: &Element, first: bool) {
        if first {
            self.output.open_sequence(sequence.tag);
        }
        self.output.open_item();
    }

    fn item_end(&mut self) {
        self.output.close_item();
    }

    fn sequence_end(&mut self, sequence: &Element, has_items: bool, _end: usize) {
        if has_items {
            self.output.close_sequence();
        } else {
            self.output.empty_sequence(sequence.tag);
        }
    }
}

impl<'r> Export<'r> {
    /// Writes the markers that come before a top-level element (W15).
    fn write_markers_before(&mut self, element: &Element) {
        if element.depth == 0 {
            self.write_markers_below(element.tag);
        }
    }

    fn write_markers_below(&mut self, tag: u32) {
        while let [marker, later @ ..] = self.markers_to_write
            && marker.tag() < tag
        {
            self.output.marker(*marker, self.options);
            self.markers_to_write = later;
        }
    }

    /// Writes the list's value for the tag if the VR is one that lists serve and there is a value, else
    /// `otherwise`.
    fn replace(&mut self, element: &Element, otherwise: &[u8]) {
        let served = element.vr.is_served_by_lists();
        let listed = if served { self.lists.find(element.tag) } else { None };
        self.counts.replaced += 1;
        self.output.element(element.tag, element.vr, listed.unwrap_or(otherwise));
    }

    /// Writes the element with its dates shifted. Its length stays, padding included.
    fn shift(&mut self, element: &Element, value: &[u8]) {
        self.scratch.clear();
        self.scratch.extend_from_slice(value);
        if dates::shift_value(element.vr, &mut self.scratch, self.shift).is_none() {
            return self.note_fault(Reason::Date, element);
        }
        self.counts.replaced += 1;
        self.output.element(element.tag, element.vr, &self.scratch);
    }

    /// Writes the element with each UID replaced by the root, a dot and its number.
    fn rename(&mut self, element: &Element, value: &'r [u8]) {
        let Some(uids) = uid::uids_of(value) else {
            return self.note_fault(Reason::Uid, element);
        };
        self.scratch.clear();
        for uid in uids {
            if !self.scratch.is_empty() {
                self.scratch.push(b'\\');
            }
            let number = self.numbers.number(uid);
            self.scratch.extend_from_slice(self.root);
            write!(self.scratch, ".{number}").expect("a vector takes all bytes");
        }
        self.counts.renamed += 1;
        self.output.element(element.tag, Vr::UI, &self.scratch);
    }

    fn note_fault(&mut self, reason: Reason, element: &Element) {
        self.value_fault.get_or_insert(Refusal::at(reason, element.at));
    }
}

/// Shows the top-level element with this tag, once the whole shape is known to be sound (V1). Any number may be asked
/// for; one that is no tag of an element is absent (V2).
#[must_use]
pub fn view(data: &[u8], tag: u64) -> View {
    let mut finder = Finder { tag, part: None };
    if let Err(refusal) = layout::walk(data, &mut finder) {
        return View { refusal: refusal.number(), offset: refusal.offset as u64, ..View::default() };
    }
    match finder.part {
        Some(part) => View { found: true, start: part.start, len: part.len(), ..View::default() },
        None => View::default(),
    }
}

/// The visitor that looks for one top-level element.
struct Finder {
    tag: u64,
    /// What follows the element's length field, once found.
    part: Option<Range<usize>>,
}

impl Finder {
    fn compare(&mut self, element: &Element, end: usize) {
        if element.depth == 0 && u64::from(element.tag) == self.tag {
            self.part = Some(element.value_at..end);
        }
    }
}

impl<'d> Visitor<'d> for Finder {
    fn value(&mut self, element: &Element, whole: &'d [u8], _: &'d [u8]) {
        self.compare(element, element.at + whole.len());
    }

    fn sequence(&mut self, _: &Element) -> Contents {
        Contents::Shown
    }

    fn item(&mut self, _: &Element, _: bool) {}

    fn item_end(&mut self) {}

    fn sequence_end(&mut self, sequence: &Element, _: bool, end: usize) {
        self.compare(sequence, end);
    }
}
