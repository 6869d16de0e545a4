//! A walk over a data set whose shape the library has judged, up to where it found the first fault. It never
//! judges by itself: where bytes are not as expected, it just ends.

use crate::vrs::has_long_header;

const ITEM: u32 = 0xFFFE_E000;
const ITEM_END: u32 = 0xFFFE_E00D;
const SEQUENCE_END: u32 = 0xFFFE_E0DD;
const UNDEFINED: u32 = 0xFFFF_FFFF;

/// What the walk meets, front to back.
pub enum Met<'d> {
    Element {
        tag: u32,
        vr: [u8; 2],
        value: &'d [u8],
    },
    Sequence {
        tag: u32,
    },
    /// The how-manieth item of its sequence.
    Item(usize),
}

/// Walks over `data`, looking at nothing that begins at `limit` or behind it, and tells `to` what it meets and
/// how many sequences it stands in.
pub fn walk<'d, E>(
    data: &'d [u8],
    limit: usize,
    to: &mut impl FnMut(usize, Met<'d>) -> Result<(), E>,
) -> Result<(), E> {
    let walk = Walk { data, limit };
    walk.elements(0, Some(data.len()), 0, to).map(|_| ())
}

struct Walk<'d> {
    data: &'d [u8],
    limit: usize,
}

impl<'d> Walk<'d> {
    /// The elements of one level, up to a stated end or to their mark. The offset behind them, or none where
    /// the walk is over.
    fn elements<E>(
        &self,
        mut at: usize,
        end: Option<usize>,
        depth: usize,
        to: &mut impl FnMut(usize, Met<'d>) -> Result<(), E>,
    ) -> Result<Option<usize>, E> {
        while end != Some(at) {
            let Some(tag) = self.tag(at) else { return Ok(None) };
            if tag == ITEM_END {
                return Ok(Some(at + 8));
            }
            let Some((vr, start, length)) = self.header(at) else { return Ok(None) };
            if vr == *b"SQ" {
                to(depth, Met::Sequence { tag })?;
                let end = (length != UNDEFINED).then(|| start + length as usize);
                match self.items(start, end, depth + 1, to)? {
                    Some(next) => at = next,
                    None => return Ok(None),
                }
            } else {
                let Some(value) = self.data.get(start..start + length as usize) else { return Ok(None) };
                to(depth, Met::Element { tag, vr, value })?;
                at = start + value.len();
            }
        }
        Ok(Some(at))
    }

    /// The items of one sequence.
    fn items<E>(
        &self,
        mut at: usize,
        end: Option<usize>,
        depth: usize,
        to: &mut impl FnMut(usize, Met<'d>) -> Result<(), E>,
    ) -> Result<Option<usize>, E> {
        let mut count = 0;
        while end != Some(at) {
            match self.tag(at) {
                Some(SEQUENCE_END) => return Ok(Some(at + 8)),
                Some(ITEM) => {}
                _ => return Ok(None),
            }
            let Some(length) = self.number(at + 4) else { return Ok(None) };
            count += 1;
            to(depth, Met::Item(count))?;
            let end = (length != UNDEFINED).then(|| at + 8 + length as usize);
            match self.elements(at + 8, end, depth, to)? {
                Some(next) => at = next,
                None => return Ok(None),
            }
        }
        Ok(Some(at))
    }

    /// The tag at an offset before the limit.
    fn tag(&self, at: usize) -> Option<u32> {
        if at >= self.limit { None } else { Some(self.number(at)?.rotate_left(16)) }
    }

    /// VR, where the value begins, and its length.
    fn header(&self, at: usize) -> Option<([u8; 2], usize, u32)> {
        let vr = *self.data.get(at + 4..)?.first_chunk()?;
        if has_long_header(vr) {
            return Some((vr, at + 12, self.number(at + 8)?));
        }
        let length = self.data.get(at + 6..)?.first_chunk()?;
        Some((vr, at + 8, u16::from_le_bytes(*length).into()))
    }

    fn number(&self, at: usize) -> Option<u32> {
        Some(u32::from_le_bytes(*self.data.get(at..)?.first_chunk()?))
    }
}
