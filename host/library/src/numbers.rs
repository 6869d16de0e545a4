//! The C interface as it is: its three functions, and the numbers that they write. A comparison with another
//! program is about these, all of them; whoever only uses the library takes the functions of the crate's root.
//!
//! Nothing checks the declarations below against the library's source, nor the archive that is linked against
//! the proof. So this is what is trusted, and what `host/compare` is for:
//!
//! - that a declaration has the arguments of the header: their number, order and widths;
//! - that `host/link-library` linked what was proved, the kit's archive;
//! - the compiler's back end, which the proof does not cover.
//!
//! What the library is lent it is lent truly: pointers and lengths are those of slices, and what it may write
//! overlaps nothing else. Whether it writes what it says it does, and nothing beside it, is not trusted but
//! looked at by the comparison.
#![expect(unsafe_code, reason = "this module alone calls C")]

use std::fmt;

use crate::Request;

const _: () = assert!(size_of::<usize>() == 8, "every size_t has 64 bits");

unsafe extern "C" {
    fn corravisk_view(data: *const u8, data_len: usize, tag: u64, answer: *mut [u64; 5]);
    fn corravisk_deidentify(
        data: *const u8,
        data_len: usize,
        options: u64,
        shift: i64,
        root: *const u8,
        root_len: usize,
        study: *const u8,
        study_len: usize,
        site: *const u8,
        site_len: usize,
        ledger: *mut u8,
        ledger_len: usize,
        used: u64,
        out: *mut u8,
        out_len: usize,
        report: *mut [u64; 8],
    );
    fn corravisk_action(options: u64, top: u64, tag: u64, vr: u64, answer: *mut [u64; 1]);
}

/// A number that the library finds where it is to write. One that it leaves there shows in every comparison.
const UNWRITTEN: u64 = 0xA5C3_96E1_5A3C_691E;

/// What the view answers, in the order of the C interface.
#[derive(Clone, Copy, Debug, PartialEq, Eq)]
pub struct Answer {
    /// Document 01's number of the refusal, 5 to 10, or 0.
    pub refusal: u64,
    /// Where the element, item or mark at fault begins.
    pub offset: u64,
    /// 1 if the top level has the tag, else 0.
    pub found: u64,
    /// Where the part after the element's length field begins; 0 if nothing is found.
    pub start: u64,
    /// The length of that part, an end mark included; 0 if nothing is found.
    pub length: u64,
}

impl Answer {
    /// No fault, and no such element.
    pub const ABSENT: Answer = Answer { refusal: 0, offset: 0, found: 0, start: 0, length: 0 };

    /// A fault at an offset.
    #[must_use]
    pub fn refused(refusal: u64, offset: u64) -> Answer {
        Answer { refusal, offset, ..Answer::ABSENT }
    }

    /// The part of an element that is there.
    #[must_use]
    pub fn found(start: u64, length: u64) -> Answer {
        Answer { found: 1, start, length, ..Answer::ABSENT }
    }
}

impl fmt::Display for Answer {
    fn fmt(&self, to: &mut fmt::Formatter) -> fmt::Result {
        let Answer { refusal, offset, found, start, length } = self;
        write!(to, "refusal {refusal} offset {offset} found {found} start {start} length {length}")
    }
}

/// The attribute with this tag (group × 65,536 + element) of the data set's top level.
///
/// # Panics
///
/// If the library wrote beside its answer.
#[inline]
#[must_use]
pub fn view(data: &[u8], tag: u64) -> Answer {
    let mut room = [UNWRITTEN; 7];
    // From the whole room, so that what is written beside the answer is seen too.
    let answer = room.as_mut_ptr().wrapping_add(1).cast();
    // SAFETY: the slice's own pointer and length, and room for five numbers, one number into the room of
    // seven.
    unsafe { corravisk_view(data.as_ptr(), data.len(), tag, answer) };
    let [before, refusal, offset, found, start, length, after] = room;
    assert!(before == UNWRITTEN && after == UNWRITTEN, "corravisk_view wrote beside its answer");
    Answer { refusal, offset, found, start, length }
}

/// What an export hands back, in the order of the C interface.
#[derive(Clone, Copy, Debug, Default, PartialEq, Eq)]
pub struct Report {
    /// Document 01's number of the refusal, 1 to 14, or 0: done.
    pub refusal: u64,
    /// Where the element, item or mark at fault begins.
    pub offset: u64,
    /// Bytes of the output written.
    pub length: u64,
    /// Ledger slots in use now.
    pub used: u64,
    /// Elements kept, walked sequences included.
    pub kept: u64,
    /// Elements emptied, given a stand-in, or shifted.
    pub replaced: u64,
    /// Elements whose UIDs were renamed.
    pub renamed: u64,
    /// Elements removed.
    pub removed: u64,
}

impl fmt::Display for Report {
    fn fmt(&self, to: &mut fmt::Formatter) -> fmt::Result {
        let Report { refusal, offset, length, used, kept, replaced, renamed, removed } = self;
        write!(to, "refusal {refusal} offset {offset} length {length} in use {used} ")?;
        write!(to, "kept {kept} replaced {replaced} renamed {renamed} removed {removed}")
    }
}

/// Takes the patient out of a data set: writes every byte of `out`, and of `ledger` what follows the slots in
/// use.
///
/// # Panics
///
/// If the library wrote beside its report.
#[inline]
pub fn deidentify(request: &Request, ledger: &mut [u8], out: &mut [u8]) -> Report {
    let Request { data, options, shift, root, study, site, used } = *request;
    let mut room = [UNWRITTEN; 10];
    let report = room.as_mut_ptr().wrapping_add(1).cast();
    // SAFETY: the slices' own pointers and lengths; the two that may be written are borrowed as such, and room
    // for eight numbers is ours, one number into the room of ten.
    unsafe {
        corravisk_deidentify(
            data.as_ptr(),
            data.len(),
            options,
            shift,
            root.as_ptr(),
            root.len(),
            study.as_ptr(),
            study.len(),
            site.as_ptr(),
            site.len(),
            ledger.as_mut_ptr(),
            ledger.len(),
            used,
            out.as_mut_ptr(),
            out.len(),
            report,
        );
    }
    let [before, refusal, offset, length, used, kept, replaced, renamed, removed, after] = room;
    assert!(before == UNWRITTEN && after == UNWRITTEN, "corravisk_deidentify wrote beside its report");
    Report { refusal, offset, length, used, kept, replaced, renamed, removed }
}

/// The number of what is done with an element that has this tag and this VR (its two letters, lowest byte
/// first), at the top level or in an item: 0 removed, 1 kept, 2 walked into, 3 emptied, 4 given a dummy, 5
/// renamed, 6 dates shifted, 7 refused (11).
///
/// # Panics
///
/// If the library wrote beside its answer.
#[inline]
#[must_use]
pub fn action(options: u64, top: bool, tag: u64, vr: u64) -> u64 {
    let mut room = [UNWRITTEN; 3];
    let answer = room.as_mut_ptr().wrapping_add(1).cast();
    // SAFETY: room for one number, one number into the room of three.
    unsafe { corravisk_action(options, u64::from(top), tag, vr, answer) };
    let [before, answer, after] = room;
    assert!(before == UNWRITTEN && after == UNWRITTEN, "corravisk_action wrote beside its answer");
    answer
}
