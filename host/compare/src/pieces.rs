//! Named pieces that data sets are put together from (document 01, "Layout of a data set"). Nothing here is
//! shared with the second program or with the proved one.

pub type Bytes = Vec<u8>;

/// A length field that says undefined.
pub const UNDEFINED: u32 = 0xFFFF_FFFF;

pub const ITEM: u32 = 0xFFFE_E000;
pub const ITEM_END: u32 = 0xFFFE_E00D;
pub const SEQUENCE_END: u32 = 0xFFFE_E0DD;

/// The first and the last tag that an element may have (F15).
pub const FIRST_TAG: u32 = 0x0008_0000;
pub const LAST_TAG: u32 = 0xFFFD_FFFF;

/// The VRs with a two-byte length.
pub const SHORT_VRS: [&str; 21] = [
    "AE", "AS", "AT", "CS", "DA", "DS", "DT", "FD", "FL", "IS", "LO", "LT", "PN", "SH", "SL", "SS", "ST",
    "TM", "UI", "UL", "US",
];
/// The VRs with two zero bytes and a four-byte length, but for SQ.
pub const LONG_VRS: [&str; 12] = ["OB", "OD", "OF", "OL", "OV", "OW", "SV", "UC", "UN", "UR", "UT", "UV"];

/// Bytes of an item header, an end mark, or an element's header by its VR, known or not.
pub const MARK_SIZE: usize = 8;
pub fn header_size(vr: [u8; 2]) -> usize {
    if vr == *b"SQ" || LONG_VRS.iter().any(|long| long.as_bytes() == vr) { 12 } else { 8 }
}

pub fn is_known(vr: [u8; 2]) -> bool {
    header_size(vr) == 12 || SHORT_VRS.iter().any(|short| short.as_bytes() == vr)
}

pub fn tag_bytes(tag: u32) -> [u8; 4] {
    tag.rotate_left(16).to_le_bytes()
}

/// The tag that stands at an offset, if its four bytes are there.
pub fn tag_at(data: &[u8], at: usize) -> Option<u32> {
    let bytes = data.get(at..)?.first_chunk()?;
    Some(u32::from_le_bytes(*bytes).rotate_left(16))
}

/// The two bytes where an element at this offset has its VR, if they are there.
pub fn vr_at(data: &[u8], at: usize) -> Option<[u8; 2]> {
    data.get(at + 4..)?.first_chunk().copied()
}

/// An element header with any letters and any length; a two-byte length is cut to its lower half.
pub fn head(tag: u32, vr: &str, length: u32) -> Bytes {
    let mut bytes = tag_bytes(tag).to_vec();
    bytes.extend(vr.bytes());
    if header_size([bytes[4], bytes[5]]) == 12 {
        bytes.extend([0, 0]);
        bytes.extend(length.to_le_bytes());
    } else {
        bytes.extend((length as u16).to_le_bytes());
    }
    bytes
}

/// An element whose length is that of its value.
pub fn element(tag: u32, vr: &str, value: impl AsRef<[u8]>) -> Bytes {
    let value = value.as_ref();
    let mut bytes = head(tag, vr, value.len() as u32);
    bytes.extend(value);
    bytes
}

/// A sequence of stated length.
pub fn sequence(tag: u32, contents: &[Bytes]) -> Bytes {
    element(tag, "SQ", contents.concat())
}

/// A sequence of undefined length, with its end mark.
pub fn undefined_sequence(tag: u32, contents: &[Bytes]) -> Bytes {
    [head(tag, "SQ", UNDEFINED), contents.concat(), sequence_end()].concat()
}

/// An item header or an end mark, with any length.
pub fn mark(tag: u32, length: u32) -> Bytes {
    [tag_bytes(tag), length.to_le_bytes()].concat()
}

/// An item of stated length.
pub fn item(contents: &[Bytes]) -> Bytes {
    let contents = contents.concat();
    [mark(ITEM, contents.len() as u32), contents].concat()
}

/// An item of undefined length, with its end mark.
pub fn undefined_item(contents: &[Bytes]) -> Bytes {
    [mark(ITEM, UNDEFINED), contents.concat(), item_end()].concat()
}

pub fn item_end() -> Bytes {
    mark(ITEM_END, 0)
}

pub fn sequence_end() -> Bytes {
    mark(SEQUENCE_END, 0)
}

/// Sequences of one item each, one in the other, so many items deep, with something in the innermost item.
pub fn nest(depth: usize, tag: u32, innermost: Bytes) -> Bytes {
    (0..depth).fold(innermost, |inner, _| sequence(tag, &[item(&[inner])]))
}

/// The same in undefined lengths.
pub fn undefined_nest(depth: usize, tag: u32, innermost: Bytes) -> Bytes {
    (0..depth).fold(innermost, |inner, _| undefined_sequence(tag, &[undefined_item(&[inner])]))
}
