//! The proved library behind its C interface (include/corravisk.h), in safe functions. A run is accepted or
//! refused, and that is a `Result`.
//!
//! | module | subject |
//! |---|---|
//! | `numbers` | the C interface as it is, and what is trusted about it |
//! | `refusal` | the refusals, and their conditions in words |

pub mod numbers;
mod refusal;

use std::ops::Range;

pub use numbers::action;
pub use refusal::Refusal;

/// What an export is given to read.
#[derive(Clone, Copy, Debug)]
pub struct Request<'r> {
    /// The data set, in Explicit VR Little Endian.
    pub data: &'r [u8],
    /// The option number.
    pub options: u64,
    /// By how many days dates are shifted.
    pub shift: i64,
    /// The root of new UIDs.
    pub root: &'r [u8],
    /// The study's replacement list.
    pub study: &'r [u8],
    /// The site's.
    pub site: &'r [u8],
    /// How many slots of the ledger are in use.
    pub used: u64,
}

/// What an export that was accepted hands back.
#[derive(Clone, Copy, Debug, PartialEq, Eq)]
pub struct Accepted {
    /// Bytes of the output written.
    pub length: usize,
    /// Ledger slots in use now.
    pub used: u64,
    /// Elements kept, walked sequences included.
    pub kept: u64,
    /// Elements emptied, given a stand-in, or shifted.
    pub replaced: u64,
    /// Elements whose UIDs were renamed.
    pub renamed: u64,
    /// Elements removed.
    pub removed: u64,
}

/// Takes the patient out of a data set: writes every byte of `out`, and of `ledger` what follows the slots in
/// use.
///
/// # Errors
///
/// The refusal whose condition is the first to hold in document 01's order. Then `out` is all zeros.
#[inline]
pub fn deidentify(request: &Request, ledger: &mut [u8], out: &mut [u8]) -> Result<Accepted, Refusal> {
    let report = numbers::deidentify(request, ledger, out);
    accepted(report.refusal, report.offset)?;
    let numbers::Report { length, used, kept, replaced, renamed, removed, .. } = report;
    Ok(Accepted { length: size(length), used, kept, replaced, renamed, removed })
}

/// Where the part of the attribute with this tag (group × 65,536 + element) stands in the data set: what follows
/// its length field, an end mark included. None if the top level has no such attribute.
///
/// # Errors
///
/// Refusals 5 to 10: the whole shape is judged, whatever the tag.
#[inline]
pub fn view(data: &[u8], tag: u64) -> Result<Option<Range<usize>>, Refusal> {
    let answer = numbers::view(data, tag);
    accepted(answer.refusal, answer.offset)?;
    let start = size(answer.start);
    Ok((answer.found == 1).then(|| start..start + size(answer.length)))
}

/// The number 0 is no refusal.
fn accepted(number: u64, offset: u64) -> Result<(), Refusal> {
    if number == 0 { Ok(()) } else { Err(Refusal { number, offset: size(offset) }) }
}

/// A length or an offset of something in memory.
#[expect(clippy::cast_possible_truncation, reason = "numbers asserts that a usize has 64 bits")]
fn size(number: u64) -> usize {
    number as usize
}
