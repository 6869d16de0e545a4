//! Tags as people write them, and the names of attributes: those of Table E.1-1's rows, and some more that
//! stand in nearly every data set.

use std::collections::BTreeMap;
use std::sync::OnceLock;

/// The table as printed; its letters are not looked at here.
const TABLE: &str = include_str!("../../../data/table-e1-1.tsv");

/// A line of the table, or a rule beside it.
#[derive(Clone, Copy, Debug)]
pub struct Row {
    /// As printed: `(0010,0010)`, `(50xx,xxxx)`.
    pub printed: &'static str,
    pub name: &'static str,
    /// The tag, or one of those that the line stands for.
    pub tag: u32,
}

/// The lines that name one tag, by rising tag, and behind them those that stand for many.
pub fn rows() -> &'static [Row] {
    static ROWS: OnceLock<Vec<Row>> = OnceLock::new();
    ROWS.get_or_init(|| {
        let cells = TABLE.lines().skip(1).filter_map(|line| {
            let mut cells = line.split('\t');
            Some((cells.next()?, cells.next()?))
        });
        let mut single = BTreeMap::new();
        let mut repeating = Vec::new();
        for (name, printed) in cells {
            match read_tag(printed) {
                Some(tag) => {
                    single.insert(tag, Row { printed, name, tag });
                }
                None => repeating.extend(one_of(printed).map(|tag| Row { printed, name, tag })),
            }
        }
        single.into_values().chain(repeating).collect()
    })
}

/// A tag that a repeating line stands for: x is any digit, and private tags have odd groups.
fn one_of(printed: &str) -> Option<u32> {
    if printed.contains("odd") {
        Some(0x0009_0010)
    } else {
        read_tag(&printed.replace("xxxx", "0010").replace('x', "0"))
    }
}

/// Reads `0010,0010`, `(0010,0010)` or `00100010`.
pub fn read_tag(text: &str) -> Option<u32> {
    let inside = text.strip_prefix('(').and_then(|text| text.strip_suffix(')')).unwrap_or(text);
    let digits = match inside.split_once(',') {
        Some((group, element)) if group.len() == 4 && element.len() == 4 => [group, element].concat(),
        None if inside.len() == 8 => inside.to_string(),
        _ => return None,
    };
    let all_digits = digits.bytes().all(|digit| digit.is_ascii_hexdigit());
    all_digits.then(|| u32::from_str_radix(&digits, 16).ok()).flatten()
}

/// `(0010,0010)`.
pub fn printed(tag: u32) -> String {
    format!("({:04X},{:04X})", tag >> 16, tag & 0xFFFF)
}

/// The name of an attribute, if it is known here.
pub fn name(tag: u32) -> Option<&'static str> {
    static NAMES: OnceLock<BTreeMap<u32, &'static str>> = OnceLock::new();
    let names = NAMES.get_or_init(|| {
        let single = rows().iter().filter(|row| read_tag(row.printed).is_some());
        single.map(|row| (row.tag, row.name)).chain(COMMON).collect()
    });
    match names.get(&tag) {
        Some(name) => Some(name),
        None if tag & 0xFFFF == 0 => Some("Group Length"),
        None if tag >> 16 & 1 == 1 => Some("private"),
        None => None,
    }
}

/// The VR that an attribute of this tag has, as far as its name tells: the table has none. For text any VR that
/// takes text will do.
pub fn likely_vr(tag: u32) -> [u8; 2] {
    match name(tag) {
        Some(name) if name.ends_with("Sequence") => *b"SQ",
        Some(name) if name.ends_with("DateTime") => *b"DT",
        Some(name) if name.ends_with("Date") => *b"DA",
        Some(name) if name.ends_with("Time") => *b"TM",
        _ => *b"LO",
    }
}

const COMMON: [(u32, &str); 45] = [
    (0x0008_0005, "Specific Character Set"),
    (0x0008_0008, "Image Type"),
    (0x0008_0016, "SOP Class UID"),
    (0x0008_0060, "Modality"),
    (0x0008_0064, "Conversion Type"),
    (0x0008_0068, "Presentation Intent Type"),
    (0x0008_0070, "Manufacturer"),
    (0x0008_0100, "Code Value"),
    (0x0008_0102, "Coding Scheme Designator"),
    (0x0008_0104, "Code Meaning"),
    (0x0008_1032, "Procedure Code Sequence"),
    (0x0008_1115, "Referenced Series Sequence"),
    (0x0008_1150, "Referenced SOP Class UID"),
    (0x0012_0062, "Patient Identity Removed"),
    (0x0012_0063, "De-identification Method"),
    (0x0012_0064, "De-identification Method Code Sequence"),
    (0x0018_0015, "Body Part Examined"),
    (0x0018_0050, "Slice Thickness"),
    (0x0018_0060, "KVP"),
    (0x0018_0088, "Spacing Between Slices"),
    (0x0018_5100, "Patient Position"),
    (0x0020_0011, "Series Number"),
    (0x0020_0012, "Acquisition Number"),
    (0x0020_0013, "Instance Number"),
    (0x0020_0032, "Image Position (Patient)"),
    (0x0020_0037, "Image Orientation (Patient)"),
    (0x0020_1041, "Slice Location"),
    (0x0028_0002, "Samples per Pixel"),
    (0x0028_0004, "Photometric Interpretation"),
    (0x0028_0008, "Number of Frames"),
    (0x0028_0010, "Rows"),
    (0x0028_0011, "Columns"),
    (0x0028_0030, "Pixel Spacing"),
    (0x0028_0100, "Bits Allocated"),
    (0x0028_0101, "Bits Stored"),
    (0x0028_0102, "High Bit"),
    (0x0028_0103, "Pixel Representation"),
    (0x0028_0301, "Burned In Annotation"),
    (0x0028_0303, "Longitudinal Temporal Information Modified"),
    (0x0028_1050, "Window Center"),
    (0x0028_1051, "Window Width"),
    (0x0028_1052, "Rescale Intercept"),
    (0x0028_1053, "Rescale Slope"),
    (0x0040_A043, "Concept Name Code Sequence"),
    (0x7FE0_0010, "Pixel Data"),
];

#[cfg(test)]
mod tests {
    use super::*;

    #[test]
    fn tags_are_read_as_people_write_them() {
        for text in ["0010,0020", "(0010,0020)", "00100020"] {
            assert_eq!(read_tag(text), Some(0x0010_0020));
        }
        assert_eq!(read_tag("7fe0,0010"), Some(0x7FE0_0010));
        for text in ["", "0010", "10,10", "0010,00200", "001000200", "(0010,0020", "+010,0020", "50xx,3000"] {
            assert_eq!(read_tag(text), None, "{text}");
        }
    }

    #[test]
    fn the_table_has_604_rows_and_four_repeating_lines() {
        let rows = rows();
        assert_eq!(rows.len(), 608);
        assert!(rows[..604].windows(2).all(|pair| pair[0].tag < pair[1].tag));
        let repeating: Vec<u32> = rows[604..].iter().map(|row| row.tag).collect();
        assert!(
            [0x5000_0010, 0x6000_3000, 0x6000_4000, 0x0009_0010].iter().all(|tag| repeating.contains(tag))
        );
    }

    #[test]
    fn names_are_the_tables_or_common() {
        assert_eq!(name(0x0010_0010), Some("Patient's Name"));
        assert_eq!(name(0x0008_0060), Some("Modality"));
        assert_eq!(name(0x0009_0010), Some("private"));
        assert_eq!(name(0x0010_0000), Some("Group Length"));
        assert_eq!(name(0x0028_9999), None);
    }
}
