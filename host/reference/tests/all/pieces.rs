//! Named pieces that data sets, exports, lists and ledgers are built from.

pub type Bytes = Vec<u8>;

/// A length field that says undefined.
pub const UNDEFINED: u32 = 0xFFFF_FFFF;

pub const ITEM: u32 = 0xFFFE_E000;
pub const ITEM_END: u32 = 0xFFFE_E00D;
pub const SEQUENCE_END: u32 = 0xFFFE_E0DD;

// Kept: no row of the table has these tags.
pub const CHARACTER_SET: u32 = 0x0008_0005;
pub const MODALITY: u32 = 0x0008_0060;
pub const REFERENCED_SERIES_SEQUENCE: u32 = 0x0008_1115;
pub const REFERENCED_SOP_CLASS_UID: u32 = 0x0008_1150;
pub const PHOTOMETRIC_INTERPRETATION: u32 = 0x0028_0004;
pub const PIXEL_DATA: u32 = 0x7FE0_0010;
// X
pub const ADMITTING_DIAGNOSES_SEQUENCE: u32 = 0x0008_1084;
pub const PRIVATE: u32 = 0x0009_0010;
// Z
pub const ACCESSION_NUMBER: u32 = 0x0008_0050;
pub const PATIENT_NAME: u32 = 0x0010_0010;
pub const PATIENT_ID: u32 = 0x0010_0020;
pub const BIRTH_DATE: u32 = 0x0010_0030;
pub const CONTAINER_ISSUER_SEQUENCE: u32 = 0x0040_0513;
// D
pub const ACQUISITION_FIELD_OF_VIEW_LABEL: u32 = 0x0018_11BB;
pub const CONTENT_SEQUENCE: u32 = 0x0040_A730;
pub const ANNOTATION_GROUP_UID: u32 = 0x006A_0003;
// U
pub const SOP_INSTANCE_UID: u32 = 0x0008_0018;
pub const REFERENCED_IMAGE_SEQUENCE: u32 = 0x0008_1140;
pub const REFERENCED_SOP_INSTANCE_UID: u32 = 0x0008_1155;
pub const STUDY_INSTANCE_UID: u32 = 0x0020_000D;
pub const SERIES_INSTANCE_UID: u32 = 0x0020_000E;
// Z, C under Modified Dates, K under Full Dates
pub const STUDY_DATE: u32 = 0x0008_0020;
pub const STUDY_TIME: u32 = 0x0008_0030;
// D, the same
pub const ACQUISITION_DATETIME: u32 = 0x0008_002A;

const LONG_HEADERS: [&str; 13] =
    ["OB", "OD", "OF", "OL", "OV", "OW", "SQ", "SV", "UC", "UN", "UR", "UT", "UV"];

pub fn join(pieces: &[Bytes]) -> Bytes {
    pieces.concat()
}

pub fn tag_bytes(tag: u32) -> Bytes {
    let [group_high, group_low, element_high, element_low] = tag.to_be_bytes();
    vec![group_low, group_high, element_low, element_high]
}

/// An element header with any length.
pub fn head(tag: u32, vr: &str, length: u32) -> Bytes {
    let mut bytes = tag_bytes(tag);
    bytes.extend(vr.bytes());
    if LONG_HEADERS.contains(&vr) {
        bytes.extend([0, 0]);
        bytes.extend(length.to_le_bytes());
    } else {
        bytes.extend(u16::try_from(length).expect("a short length").to_le_bytes());
    }
    bytes
}

/// An element whose length is that of its value, which is even.
#[track_caller]
pub fn element(tag: u32, vr: &str, value: impl AsRef<[u8]>) -> Bytes {
    let value = value.as_ref();
    assert!(value.len().is_multiple_of(2));
    let mut bytes = head(tag, vr, value.len() as u32);
    bytes.extend(value);
    bytes
}

/// A sequence of stated length.
pub fn sequence(tag: u32, contents: &[Bytes]) -> Bytes {
    element(tag, "SQ", join(contents))
}

/// A sequence of undefined length, with its end mark.
pub fn undefined_sequence(tag: u32, contents: &[Bytes]) -> Bytes {
    join(&[head(tag, "SQ", UNDEFINED), join(contents), sequence_end()])
}

/// An item header or an end mark, with any length.
pub fn mark(tag: u32, length: u32) -> Bytes {
    join(&[tag_bytes(tag), length.to_le_bytes().to_vec()])
}

/// An item of stated length.
pub fn item(contents: &[Bytes]) -> Bytes {
    let contents = join(contents);
    join(&[mark(ITEM, contents.len() as u32), contents])
}

/// An item of undefined length, with its end mark.
pub fn undefined_item(contents: &[Bytes]) -> Bytes {
    join(&[mark(ITEM, UNDEFINED), join(contents), item_end()])
}

pub fn item_end() -> Bytes {
    mark(ITEM_END, 0)
}

pub fn sequence_end() -> Bytes {
    mark(SEQUENCE_END, 0)
}

/// Sequences of one item each, one in the other, so many items deep, with something in the innermost item.
pub fn nest(depth: usize, innermost: Bytes) -> Bytes {
    (0..depth).fold(innermost, |inner, _| sequence(REFERENCED_SERIES_SEQUENCE, &[item(&[inner])]))
}

/// The same in undefined lengths, which is also how an export has it.
pub fn undefined_nest(depth: usize, innermost: Bytes) -> Bytes {
    (0..depth).fold(innermost, |inner, _| {
        undefined_sequence(REFERENCED_SERIES_SEQUENCE, &[undefined_item(&[inner])])
    })
}

/// A number as the lists have it.
pub fn list_number(mut number: u64) -> Bytes {
    let mut bytes = Bytes::new();
    while number >= 0x80 {
        bytes.push(number as u8 | 0x80);
        number >>= 7;
    }
    bytes.push(number as u8);
    bytes
}

/// An entry of a list.
pub fn entry(tag: u32, value: impl AsRef<[u8]>) -> Bytes {
    let value = value.as_ref();
    join(&[list_number(tag.into()), list_number(value.len() as u64), value.to_vec()])
}

/// A ledger slot with something at its front.
pub fn slot(front: &str) -> Bytes {
    let mut bytes = front.as_bytes().to_vec();
    assert!(bytes.len() <= 64);
    bytes.resize(64, 0);
    bytes
}

pub const BASIC_PROFILE: (&str, &str) = ("113100", "Basic Application Confidentiality Profile ");
/// Code and meaning of each option, padded, by its bit.
pub const OPTION_CODES: [(&str, &str); 6] = [
    ("113106", "Retain Longitudinal Temporal Information Full Dates Option"),
    ("113107", "Retain Longitudinal Temporal Information Modified Dates Option"),
    ("113108", "Retain Patient Characteristics Option "),
    ("113109", "Retain Device Identity Option "),
    ("113110", "Retain UIDs Option"),
    ("113112", "Retain Institution Identity Option"),
];

fn code_item((value, meaning): (&str, &str)) -> Bytes {
    undefined_item(&[
        element(0x0008_0100, "SH", value),
        element(0x0008_0102, "SH", "DCM "),
        element(0x0008_0104, "LO", meaning),
    ])
}

/// The elements that an export gains at its top level.
pub fn markers(options: u64) -> [Bytes; 3] {
    let mut codes = vec![code_item(BASIC_PROFILE)];
    for (bit, code) in OPTION_CODES.into_iter().enumerate() {
        if options >> bit & 1 == 1 {
            codes.push(code_item(code));
        }
    }
    let dates = match options & 3 {
        1 => "UNMODIFIED",
        2 => "MODIFIED",
        _ => "REMOVED ",
    };
    [
        element(0x0012_0062, "CS", "YES "),
        undefined_sequence(0x0012_0064, &codes),
        element(0x0028_0303, "CS", dates),
    ]
}

/// A whole export: the given elements, in tag order, with the markers among them.
pub fn export(options: u64, elements: &[Bytes]) -> Bytes {
    let sort_key = |element: &Bytes| [element[1], element[0], element[3], element[2]];
    let mut all = markers(options).to_vec();
    all.extend_from_slice(elements);
    all.sort_by_key(sort_key);
    join(&all)
}
