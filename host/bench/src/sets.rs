//! Data sets to be timed on. Everything in them is made up.

/// An element; VRs with a long length are those that are used here.
fn element(tag: u32, vr: &str, value: &[u8]) -> Vec<u8> {
    let mut bytes = tag.rotate_left(16).to_le_bytes().to_vec();
    bytes.extend(vr.bytes());
    if matches!(vr, "OW" | "SQ") {
        bytes.extend([0, 0]);
        bytes.extend((value.len() as u32).to_le_bytes());
    } else {
        bytes.extend((value.len() as u16).to_le_bytes());
    }
    bytes.extend(value);
    bytes
}

fn text(tag: u32, vr: &str, value: &str) -> Vec<u8> {
    let mut value = value.as_bytes().to_vec();
    if !value.len().is_multiple_of(2) {
        value.push(if vr == "UI" { 0 } else { b' ' });
    }
    element(tag, vr, &value)
}

/// Tags with U.
const UIDS: [u32; 10] = [
    0x0008_0018,
    0x0008_0058,
    0x0008_1155,
    0x0018_1002,
    0x0020_000D,
    0x0020_000E,
    0x0020_0052,
    0x0020_0200,
    0x0028_1199,
    0x0040_4023,
];
/// Tags with Z, D and X, with a VR that fits.
const OTHERS: [(u32, &str, &str); 20] = [
    (0x0008_0020, "DA", "20240131"),
    (0x0008_0021, "DA", "20240131"),
    (0x0008_0030, "TM", "101200"),
    (0x0008_0050, "SH", "ACC-17"),
    (0x0008_0080, "LO", "St. Example Hospital"),
    (0x0008_0090, "PN", "Doktor^Dora"),
    (0x0008_1030, "LO", "Chest"),
    (0x0008_103E, "LO", "Axial"),
    (0x0009_0010, "LO", "EXAMPLE WORKS 1.0"),
    (0x0009_1001, "LO", "something private"),
    (0x0010_0010, "PN", "Example^Erika"),
    (0x0010_0020, "LO", "EX-0001"),
    (0x0010_0030, "DA", "19700101"),
    (0x0010_0040, "CS", "F"),
    (0x0010_1010, "AS", "054Y"),
    (0x0018_1000, "LO", "SERIAL-4711"),
    (0x0018_1030, "LO", "Chest routine"),
    (0x0020_0010, "SH", "17"),
    (0x0020_4000, "LT", "Comments"),
    (0x0040_0244, "DA", "20240131"),
];

/// 200 elements: 10 UIDs that no other data set has, 20 that are replaced or removed, and 170 that are kept, in
/// the groups where pixels and acquisitions are described.
pub fn of_200(number: usize) -> Vec<u8> {
    let mut elements: Vec<(u32, Vec<u8>)> = Vec::new();
    for (place, tag) in UIDS.into_iter().enumerate() {
        let uid = format!("1.2.826.0.1.3680043.10.543.{}", number * UIDS.len() + place + 1);
        elements.push((tag, text(tag, "UI", &uid)));
    }
    elements.extend(OTHERS.into_iter().map(|(tag, vr, value)| (tag, text(tag, vr, value))));
    elements.extend((0..85).map(|place| 0x0018_9300 + place).map(|tag| (tag, text(tag, "FD", "8 bytes!"))));
    elements.extend((0..85).map(|place| 0x0028_7000 + place).map(|tag| (tag, element(tag, "US", &[1, 0]))));
    elements.sort();
    assert_eq!(elements.len(), 200);
    elements.into_iter().flat_map(|(_, bytes)| bytes).collect()
}

/// A name and a value of so many bytes that is kept.
pub fn of_pixels(size: usize) -> Vec<u8> {
    let pixels: Vec<u8> = (0..size).map(|place| (place / 3) as u8).collect();
    [text(0x0010_0010, "PN", "Example^Erika"), element(0x7FE0_0010, "OW", &pixels)].concat()
}

/// A sequence of items with ten elements each, so many elements in all, with 20 different UIDs among them.
pub fn of_items(elements: usize) -> Vec<u8> {
    let item = |number: usize| {
        let contents = [
            text(0x0008_0005, "CS", "ISO_IR 100"),
            text(0x0008_0018, "UI", &format!("1.2.840.99.{}", number % 19)),
            text(0x0008_0020, "DA", "20240131"),
            text(0x0008_0060, "CS", "CT"),
            text(0x0008_1030, "LO", "Chest"),
            text(0x0010_0010, "PN", "Example^Erika"),
            text(0x0018_0050, "DS", "1.5"),
            text(0x0018_1000, "LO", "SERIAL-4711"),
            text(0x0020_000D, "UI", "1.2.840.99"),
            element(0x0028_0010, "US", &[0, 2]),
        ]
        .concat();
        let length = (contents.len() as u32).to_le_bytes();
        [&[0xFE, 0xFF, 0x00, 0xE0][..], &length, &contents].concat()
    };
    let items: Vec<u8> = (0..elements / 10).flat_map(item).collect();
    element(0x5200_9230, "SQ", &items)
}
