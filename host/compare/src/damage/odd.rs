//! Lengths, tags, VRs and bytes that are wrong, or just right.

use super::places::sibling;
use crate::generate::{DataSet, Place};
use crate::pieces::*;
use crate::random::Random;
use crate::tags;

pub fn odd_length(set: &DataSet, place: &Place, random: &mut Random) -> u32 {
    let contents = place.at + place.header;
    let true_length = place.end.saturating_sub(contents) as u32;
    let container = place.container.map_or(set.bytes.len(), |container| set.places[container].end);
    let to_the_end = container.saturating_sub(contents) as u32;
    let small = random.below(100) as u32;
    random.pick(&[
        true_length | 1,
        true_length.wrapping_sub(1),
        true_length.wrapping_add(2),
        true_length.wrapping_sub(2),
        true_length.wrapping_add(8),
        true_length.wrapping_sub(8),
        to_the_end,
        to_the_end.wrapping_add(2),
        to_the_end | 1,
        (set.bytes.len() - contents) as u32,
        UNDEFINED,
        UNDEFINED,
        UNDEFINED - 1,
        0x8000_0000,
        0,
        small,
    ])
}

/// A tag for an element that has one: equal to its neighbour's, falling, never allowed, or at the edge of
/// that.
pub fn odd_tag(set: &DataSet, place: &Place, random: &mut Random) -> u32 {
    let own = tag_at(&set.bytes, place.at).unwrap_or(0);
    let before = sibling(set, |other| other.end == place.at && other.container == place.container);
    let after = sibling(set, |other| other.at == place.end && other.container == place.container);
    let tag_of = |place: Option<Place>| place.and_then(|place| tag_at(&set.bytes, place.at)).unwrap_or(own);
    let (before, after) = (tag_of(before), tag_of(after));
    let element = own & 0xFFFF;
    let other = tags::any(random);
    random.pick(&[
        before,
        before,
        before.wrapping_sub(1),
        before.wrapping_add(1),
        after,
        after.wrapping_add(1),
        after.wrapping_sub(1),
        0,
        element,
        0x0002_0000 | element,
        0x0007_0000 | element,
        FIRST_TAG - 1,
        FIRST_TAG,
        LAST_TAG,
        LAST_TAG + 1,
        0xFFFE_0000 | element,
        ITEM,
        ITEM_END,
        SEQUENCE_END,
        0xFFFF_0000 | element,
        u32::MAX,
        own.rotate_left(16),
        other,
    ])
}

pub fn odd_vr(old: [u8; 2], random: &mut Random) -> [u8; 2] {
    let [first, second] = old;
    let noise = [random.byte(), random.byte()];
    let letters = [b'A' + random.below(26) as u8, b'A' + random.below(26) as u8];
    let known = random.pick(&["SQ", "SQ", "UN", "OB", "UT", "CS", "US", "UI"]).as_bytes();
    random.pick(&[
        old.map(|letter| letter.to_ascii_lowercase()),
        [first.to_ascii_lowercase(), second],
        [second, first],
        [first, first],
        [first, 0],
        [0, 0],
        noise,
        letters,
        *b"OX",
        [known[0], known[1]],
        [known[0], known[1]],
    ])
}

pub fn odd_bytes(random: &mut Random, count: usize) -> Bytes {
    match random.below(4) {
        0 => vec![0; count],
        1 => vec![0xFF; count],
        _ => random.bytes(count),
    }
}

/// The front of something, or bytes that are nothing.
pub fn leftover(random: &mut Random) -> Bytes {
    let wholes = [
        head(LAST_TAG, "OB", 0),
        head(LAST_TAG, "SQ", UNDEFINED),
        head(LAST_TAG, "CS", 2),
        head(LAST_TAG, "OX", 0),
        [&tag_bytes(LAST_TAG)[..], b"OB\x01\0", &[0; 4]].concat(),
        [&tag_bytes(LAST_TAG)[..], b"UT\0\x01", &[1; 4]].concat(),
        item_end(),
        sequence_end(),
        item(&[]),
        vec![0; 12],
        vec![0xFF; 12],
    ];
    let whole = &wholes[random.below(wholes.len())];
    whole[..1 + random.below(whole.len())].to_vec()
}
