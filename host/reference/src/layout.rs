//! The walk over a data set, and every rule about its shape (document 01, "Layout of a data set", refusals 5 to
//! 10).
//!
//! There is one walk. Whoever wants to know what stands in a data set is a [`Visitor`]: the station that writes
//! the export, the second entry that looks for one element, and [`ShapeOnly`], which wants nothing and goes into
//! the sequences the others do not care for, as their shape is checked too.

use crate::refusal::{Reason, Refusal};
use crate::vr::Vr;

/// The longest data set that is looked at (F22).
pub const LONGEST_DATA_SET: usize = 268_435_456;
/// Items of a top-level sequence are 1 deep (F11).
const DEEPEST_ITEM: usize = 8;

pub const ITEM: u32 = 0xFFFE_E000;
pub const ITEM_END: u32 = 0xFFFE_E00D;
pub const SEQUENCE_END: u32 = 0xFFFE_E0DD;
pub const UNDEFINED_LENGTH: u32 = 0xFFFF_FFFF;

/// Bytes of an item header, an end mark, and an element header with a short length.
const SHORT_HEADER: usize = 8;
/// Bytes of an element header with a long length.
const LONG_HEADER: usize = 12;

const LOWEST_GROUP: u32 = 0x0008;
const HIGHEST_GROUP: u32 = 0xFFFD;

/// What a visitor is told of an element.
#[derive(Clone, Copy, Debug)]
pub struct Element {
    /// Offset of the tag in the data set.
    pub at: usize,
    /// Group × 65,536 + element.
    pub tag: u32,
    pub vr: Vr,
    /// How many items the element stands in; 0 at the top level.
    pub depth: usize,
    /// Offset of what follows the length field.
    pub value_at: usize,
}

/// Whether a visitor wants to be told of what a sequence holds.
#[derive(Clone, Copy, Debug, PartialEq, Eq)]
pub enum Contents {
    Shown,
    Hidden,
}

/// What the walk meets, front to back. The walk goes on after each call: only a fault in the shape ends it.
pub trait Visitor<'d> {
    /// An element that is no sequence; `whole` is its bytes with the header, `value` those without.
    fn value(&mut self, element: &Element, whole: &'d [u8], value: &'d [u8]);

    /// A sequence begins. If its contents are to be hidden, the three calls below are left out for it.
    fn sequence(&mut self, element: &Element) -> Contents;

    /// An item of a shown sequence begins.
    fn item(&mut self, sequence: &Element, first: bool);

    /// That item is over.
    fn item_end(&mut self);

    /// A shown sequence is over; `end` is the offset after it, its end mark included.
    fn sequence_end(&mut self, sequence: &Element, has_items: bool, end: usize);
}

/// The visitor that wants to know nothing.
pub struct ShapeOnly;

impl<'d> Visitor<'d> for ShapeOnly {
    fn value(&mut self, _: &Element, _: &'d [u8], _: &'d [u8]) {}

    fn sequence(&mut self, _: &Element) -> Contents {
        Contents::Shown
    }

    fn item(&mut self, _: &Element, _: bool) {}

    fn item_end(&mut self) {}

    fn sequence_end(&mut self, _: &Element, _: bool, _: usize) {}
}

/// Walks over the whole data set. Fails with the first fault of shape, 5 to 10.
pub fn walk<'d>(data: &'d [u8], visitor: &mut impl Visitor<'d>) -> Result<(), Refusal> {
    if data.len() > LONGEST_DATA_SET {
        return Err(Refusal::without_place(Reason::TooLong));
    }
    let top = Extent { limit: data.len(), ends_with_mark: false };
    Walk { data }.elements(0, top, 0, visitor)?;
    Ok(())
}

/// How far the contents of the data set, a sequence or an item go.
#[derive(Clone, Copy)]
struct Extent {
    /// No byte at or past this offset belongs to the container: its own stated end, or that of the nearest
    /// container around it that states one (F3).
    limit: usize,
    /// Undefined length: an end mark closes it. Otherwise it is filled exactly up to the limit.
    ends_with_mark: bool,
}

impl Extent {
    fn is_filled_at(self, offset: usize) -> bool {
        !self.ends_with_mark && offset == self.limit
    }
}

struct Walk<'d> {
    data: &'d [u8],
}

// The walkers call each other in a circle, elements, sequence, items and again elements, one item deeper each round.
// Siblings are gone over in loops, so the call depth hangs on DEEPEST_ITEM alone.
impl<'d> Walk<'d> {
    /// The elements of the top level or of one item, from `at` on. Returns the offset after them and their mark.
    fn elements<V: Visitor<'d>>(
        &self,
        mut at: usize,
        extent: Extent,
        depth: usize,
        visitor: &mut V,
    ) -> Result<usize, Refusal> {
        let mut previous_tag = 0;
        while !extent.is_filled_at(at) {
            let tag = self.tag(at, extent.limit)?;
            if extent.ends_with_mark && tag == ITEM_END {
                return self.end_mark(at);
            }
            check_element_tag(at, tag, previous_tag)?;
            previous_tag = tag;
            let (element, value) = self.element_header(at, tag, depth, extent.limit)?;
            at = if element.vr == Vr::SQ {
                self.sequence(&element, value, visitor)?
            } else {
                let end = value.limit;
                visitor.value(&element, &self.data[at..end], &self.data[element.value_at..end]);
                end
            };
        }
        Ok(at)
    }

    /// The items of one sequence, shown to the visitor if it wants them. Returns the offset after the sequence.
    fn sequence<V: Visitor<'d>>(
        &self,
        sequence: &Element,
        extent: Extent,
        visitor: &mut V,
    ) -> Result<usize, Refusal> {
        match visitor.sequence(sequence) {
            Contents::Shown => self.items(sequence, extent, visitor),
            Contents::Hidden => self.items(sequence, extent, &mut ShapeOnly),
        }
    }

    fn items<V: Visitor<'d>>(
        &self,
        sequence: &Element,
        extent: Extent,
        visitor: &mut V,
    ) -> Result<usize, Refusal> {
        let depth = sequence.depth + 1;
        let mut at = sequence.value_at;
        let mut first = true;
        while !extent.is_filled_at(at) {
            let tag = self.tag(at, extent.limit)?;
            if extent.ends_with_mark && tag == SEQUENCE_END {
                at = self.end_mark(at)?;
                break;
            }
            let contents = self.item_header(at, tag, depth, extent.limit)?;
            visitor.item(sequence, first);
            at = self.elements(at + SHORT_HEADER, contents, depth, visitor)?;
            visitor.item_end();
            first = false;
        }
        visitor.sequence_end(sequence, !first, at);
        Ok(at)
    }

    /// The tag at `at`, once it is known that the eight bytes are there that every element, item and mark has.
    fn tag(&self, at: usize, limit: usize) -> Result<u32, Refusal> {
        require(at, SHORT_HEADER, limit)?;
        Ok(u32::from(self.u16(at)) << 16 | u32::from(self.u16(at + 2)))
    }

    /// What is left to judge at an element once its tag is: VR, whole header, zero bytes, length, value.
    fn element_header(
        &self,
        at: usize,
        tag: u32,
        depth: usize,
        limit: usize,
    ) -> Result<(Element, Extent), Refusal> {
        let vr =
            Vr::from_letters([self.data[at + 4], self.data[at + 5]]).ok_or(Refusal::at(Reason::Vr, at))?;
        let (header, length) = if vr.has_long_header() {
            require(at, LONG_HEADER, limit)?;
            if self.u16(at + 6) != 0 {
                return Err(Refusal::at(Reason::Vr, at));
            }
            (LONG_HEADER, self.u32(at + 8))
        } else {
            (SHORT_HEADER, u32::from(self.u16(at + 6)))
        };
        let value_at = at + header;
        let extent = extent_of(at, value_at, length, limit, vr == Vr::SQ)?;
        Ok((Element { at, tag, vr, depth, value_at }, extent))
    }

    /// What is to judge where an item must stand: tag, depth, length, end. The depth is judged before the length
    /// (F9), and only for an item (F8).
    fn item_header(&self, at: usize, tag: u32, depth: usize, limit: usize) -> Result<Extent, Refusal> {
        if tag != ITEM {
            return Err(Refusal::at(Reason::Tag, at));
        }
        if depth > DEEPEST_ITEM {
            return Err(Refusal::at(Reason::Depth, at));
        }
        extent_of(at, at + SHORT_HEADER, self.u32(at + 4), limit, true)
    }

    /// An end mark whose tag is right: its length must be 0. Returns the offset after it.
    fn end_mark(&self, at: usize) -> Result<usize, Refusal> {
        if self.u32(at + 4) != 0 {
            return Err(Refusal::at(Reason::Length, at));
        }
        Ok(at + SHORT_HEADER)
    }

    fn u16(&self, at: usize) -> u16 {
        u16::from_le_bytes([self.data[at], self.data[at + 1]])
    }

    fn u32(&self, at: usize) -> u32 {
        u32::from(self.u16(at)) | u32::from(self.u16(at + 2)) << 16
    }
}

/// Refusal 6 at `at` unless `count` bytes are there before the limit (F1, F2).
fn require(at: usize, count: usize, limit: usize) -> Result<(), Refusal> {
    if limit - at < count { Err(Refusal::at(Reason::CutShort, at)) } else { Ok(()) }
}

/// Which tags may head an element, and that they rise within their level (F14, F15). End marks and items where
/// none may stand fall under the groups that are not allowed (F5, F6).
fn check_element_tag(at: usize, tag: u32, previous: u32) -> Result<(), Refusal> {
    let allowed = (LOWEST_GROUP..=HIGHEST_GROUP).contains(&(tag >> 16));
    if allowed && tag > previous { Ok(()) } else { Err(Refusal::at(Reason::Tag, at)) }
}

/// Turns a length field into an extent, the same way for elements and items: odd is judged before the end
/// (F19), and FFFFFFFF is odd where it does not mean undefined (F18).
fn extent_of(
    at: usize,
    contents_at: usize,
    length: u32,
    limit: usize,
    may_be_undefined: bool,
) -> Result<Extent, Refusal> {
    if may_be_undefined && length == UNDEFINED_LENGTH {
        return Ok(Extent { limit, ends_with_mark: true });
    }
    if !length.is_multiple_of(2) {
        return Err(Refusal::at(Reason::Length, at));
    }
    let length = length as usize;
    if length > limit - contents_at {
        return Err(Refusal::at(Reason::CutShort, at));
    }
    Ok(Extent { limit: contents_at + length, ends_with_mark: false })
}
