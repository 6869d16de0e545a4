//! Damage to a data set, at every kind of place where document 01 has a rule for its shape.
//!
//! Some damage leaves the lengths around it stale, as a broken file would; some keeps the stated lengths of
//! all containers around it true, so that the fault lies where it was put and not in the first length on the
//! way there (F2, F3, F5).

mod odd;
mod places;

use odd::{leftover, odd_bytes, odd_length, odd_tag, odd_vr};
use places::*;

use crate::generate::{DataSet, Kind, Place};
use crate::pieces::*;
use crate::random::Random;
use crate::tags;
use crate::values::odd_value;

#[derive(Clone, Copy, Debug, PartialEq, Eq)]
pub enum Damage {
    /// Bytes missing at the end, from any byte on.
    Cut,
    /// The same, but the stated lengths of all containers that are cut end there too.
    CutToFit,
    /// Single bits turned.
    Bits,
    /// Some bytes overwritten.
    Overwritten,
    /// Some bytes put in between.
    PutIn,
    /// Some bytes taken away, lengths around them kept true.
    TakenOut,
    /// A length that is odd, undefined, too long, too short, or just fills its container.
    Length,
    /// An element's tag that is equal, falling or never allowed; or still fine.
    ElementTag,
    /// Another tag where an item stands.
    ItemTag,
    /// VR letters that are unknown, or known but others.
    Vr,
    /// The two zero bytes of a long header not zero.
    ZeroBytes,
    /// An end mark of the other kind, or an item in its place.
    MarkSwapped,
    /// An end mark or item header gone.
    MarkRemoved,
    /// An end mark or item header twice.
    MarkDoubled,
    /// An end mark whose length is not 0.
    MarkLength,
    /// An end mark or item header where none belongs.
    MarkPutIn,
    /// A few bytes more at the end of the data set or of a container.
    Leftover,
    /// A whole element or item twice.
    Doubled,
    /// Two neighbours of one level in the other order.
    Exchanged,
    /// UIDs or dates at an edge of their rule or past it; no fault of shape.
    Value,
}

pub const ALL: [Damage; 20] = [
    Damage::Cut,
    Damage::CutToFit,
    Damage::Bits,
    Damage::Overwritten,
    Damage::PutIn,
    Damage::TakenOut,
    Damage::Length,
    Damage::ElementTag,
    Damage::ItemTag,
    Damage::Vr,
    Damage::ZeroBytes,
    Damage::MarkSwapped,
    Damage::MarkRemoved,
    Damage::MarkDoubled,
    Damage::MarkLength,
    Damage::MarkPutIn,
    Damage::Leftover,
    Damage::Doubled,
    Damage::Exchanged,
    Damage::Value,
];

/// Does one damage of any kind that the data set has a place for.
pub fn any(set: &mut DataSet, random: &mut Random) -> Option<Damage> {
    let tries = (0..20).map(|_| random.pick(&ALL)).collect::<Vec<_>>();
    tries.into_iter().find(|damage| damage.strike(set, random).is_some())
}

/// Damages the header or mark at one place: its length, its tag, a bit of it, or the data set ends in it.
pub fn at(place: &Place, set: &mut DataSet, random: &mut Random) {
    match random.below(4) {
        0 => {
            let length = odd_length(set, place, random);
            write_length(set, place, length);
        }
        1 => {
            let tag = odd_tag(set, place, random);
            write(set, place.at, &tag_bytes(tag));
        }
        2 => set.bytes[place.at + random.below(place.header)] ^= 1 << random.below(8),
        _ => cut_to_fit(set, place.at + random.below(place.header)),
    }
}

impl Damage {
    /// Damages the data set; none if it has no place for this. The places behind stay right, but where the
    /// damage has changed what they are: whoever strikes again strikes by the old plan, and never past the
    /// end.
    pub fn strike(self, set: &mut DataSet, random: &mut Random) -> Option<()> {
        match self {
            Damage::Cut => {
                let at = any_offset(set, random)?;
                set.bytes.truncate(at);
            }
            Damage::CutToFit => {
                let at = any_offset(set, random)?;
                cut_to_fit(set, at);
            }
            Damage::Bits => {
                for _ in 0..1 + random.below(2) {
                    let at = any_offset(set, random)?;
                    set.bytes[at] ^= 1 << random.below(8);
                }
            }
            Damage::Overwritten => {
                let at = any_offset(set, random)?;
                let size = 1 + random.below(4);
                let new = odd_bytes(random, size);
                write(set, at, &new);
            }
            Damage::PutIn => {
                let at = any_offset(set, random)?;
                let size = 1 + random.below(9);
                let new = odd_bytes(random, size);
                replace(set, at..at, &new);
            }
            Damage::TakenOut => {
                let place = any_place(set, random, |_| true)?;
                let end = place.end.min(set.bytes.len());
                let from = end.saturating_sub(1 + random.below(12)).max(place.at);
                keep_lengths_true(set, place.container, from as i64 - end as i64);
                replace(set, from..end, &[]);
            }
            Damage::Length => {
                let place = any_place(set, random, |place| !place.is_end_mark())?;
                let length = odd_length(set, &place, random);
                write_length(set, &place, length);
            }
            Damage::ElementTag => {
                let place = any_place(set, random, Place::is_element)?;
                let tag = odd_tag(set, &place, random);
                write(set, place.at, &tag_bytes(tag));
            }
            Damage::ItemTag => {
                let place = any_place(set, random, |place| place.kind == Kind::Item)?;
                let others = [ITEM_END, SEQUENCE_END, ITEM + 1, 0xFFFE_0000, 0xFFFF_E000, tags::any(random)];
                write(set, place.at, &tag_bytes(random.pick(&others)));
            }
            Damage::Vr => {
                let place = any_place(set, random, Place::is_element)?;
                let old = vr_at(&set.bytes, place.at)?;
                write(set, place.at + 4, &odd_vr(old, random));
            }
            Damage::ZeroBytes => {
                let place = any_place(set, random, |place| place.header == 12)?;
                let new = random.pick(&[[1, 0], [0, 1], [0, 0x80], [0xFF, 0xFF], [2, 0], [b'S', b'Q']]);
                write(set, place.at + 6, &new);
            }
            Damage::MarkSwapped => {
                let place = any_place(set, random, Place::is_end_mark)?;
                let old = tag_at(&set.bytes, place.at)?;
                let others = [ITEM, ITEM_END, SEQUENCE_END].into_iter().filter(|&tag| tag != old);
                write(set, place.at, &tag_bytes(random.pick(&others.collect::<Vec<_>>())));
            }
            Damage::MarkRemoved => {
                let place = any_place(set, random, |place| place.is_end_mark() || place.kind == Kind::Item)?;
                if random.one_in(2) {
                    keep_lengths_true(set, place.container, -(MARK_SIZE as i64));
                }
                replace(set, place.at..place.at + MARK_SIZE, &[]);
            }
            Damage::MarkDoubled => {
                let place = any_place(set, random, |place| place.is_end_mark() || place.kind == Kind::Item)?;
                let copy = set.bytes[place.at..place.at + MARK_SIZE].to_vec();
                put_at(set, place.at, place.container, &copy, random);
            }
            Damage::MarkLength => {
                let place = any_place(set, random, Place::is_end_mark)?;
                let length = random.pick(&[1, 2, 8, 0x0100_0000, 0x0001_0000, 0x0000_0100, UNDEFINED]);
                write_length(set, &place, length);
            }
            Damage::MarkPutIn => {
                let tag = random.pick(&[ITEM, ITEM_END, SEQUENCE_END]);
                let new = mark(tag, random.pick(&[0, 0, 0, 2, UNDEFINED]));
                let (at, container) = any_boundary(set, random)?;
                put_at(set, at, container, &new, random);
            }
            Damage::Leftover => {
                let (at, container) = any_end(set, random);
                let new = leftover(random);
                put_at(set, at, container, &new, random);
            }
            Damage::Doubled => {
                let place = any_place(set, random, |place| !place.is_end_mark())?;
                let copy = set.bytes.get(place.at..place.end)?.to_vec();
                put_at(set, place.at, place.container, &copy, random);
            }
            Damage::Exchanged => {
                let first = any_place(set, random, Place::is_element)?;
                let second =
                    sibling(set, |place| place.at == first.end && place.container == first.container)?;
                set.bytes.get_mut(first.at..second.end)?.rotate_left(first.end - first.at);
            }
            Damage::Value => {
                let is_judged = |bytes: &[u8], place: &Place| {
                    let vr = vr_at(bytes, place.at);
                    place.kind == Kind::Value && vr.is_some_and(|vr| matches!(&vr, b"UI" | b"DA" | b"DT"))
                };
                let place = any_place(set, random, |place| is_judged(&set.bytes, place))?;
                let old = place.at + place.header..place.end;
                let vr = vr_at(&set.bytes, place.at)?;
                let new = odd_value(vr, set.bytes.get(old.clone())?, random);
                keep_lengths_true(set, place.container, new.len() as i64 - old.len() as i64);
                write_length(set, &place, new.len() as u32);
                replace(set, old, &new);
            }
        }
        Some(())
    }
}
