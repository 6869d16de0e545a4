//! Makes the data sets of `examples/`: two slices of a study of nobody. Everything in them is made up.
//!
//! ```text
//! cargo run --example make_examples -- FOLDER
//! ```

use std::path::Path;
use std::{env, fs, process};

/// The files and what they hold.
#[must_use]
pub fn files() -> [(&'static str, Vec<u8>); 2] {
    [("slice-1.dataset", slice(1)), ("slice-2.dataset", slice(2))]
}

#[allow(dead_code, reason = "the tests use this file without its entry")]
fn main() {
    let Some(folder) = env::args_os().nth(1) else {
        eprintln!("usage: make_examples FOLDER");
        process::exit(2);
    };
    for (name, bytes) in files() {
        let path = Path::new(&folder).join(name);
        fs::write(&path, bytes).unwrap_or_else(|error| panic!("cannot write {}: {error}", path.display()));
        println!("{}", path.display());
    }
}

/// Made-up UIDs, under a root for UIDs made from UUIDs.
const STUDY: &str = "2.25.329800735698586629295641978511506172918";
const CT: &str = "1.2.840.10008.5.1.4.1.1.2";

/// One slice of the study. The second differs in its own UID, number and place, and points to the first.
fn slice(number: u16) -> Vec<u8> {
    let own = format!("{STUDY}.1.{number}");
    let first = format!("{STUDY}.1.1");
    let requested = [
        text(0x0040_0007, "LO", "CT chest for Mrs Example"),
        text(0x0040_0009, "SH", "SPS-17"),
        text(0x0040_1001, "SH", "RP-17"),
    ];
    let image = [uid(0x0008_1150, CT), uid(0x0008_1155, &first)];
    let elements = [
        text(0x0008_0005, "CS", "ISO_IR 100"),
        text(0x0008_0008, "CS", "ORIGINAL\\PRIMARY\\AXIAL"),
        text(0x0008_0012, "DA", "20240131"),
        uid(0x0008_0016, CT),
        uid(0x0008_0018, &own),
        text(0x0008_0020, "DA", "20240131"),
        text(0x0008_002A, "DT", "20240131101500.5"),
        text(0x0008_0030, "TM", "101200"),
        text(0x0008_0050, "SH", "ACC-2024-17"),
        text(0x0008_0060, "CS", "CT"),
        text(0x0008_0070, "LO", "Example Works"),
        text(0x0008_0080, "LO", "St. Example Hospital"),
        text(0x0008_0090, "PN", "Doktor^Dora"),
        text(0x0008_1030, "LO", "Chest, for E. Example"),
        undefined_sequence(0x0008_1140, &image.concat()),
        text(0x0009_0010, "LO", "EXAMPLE WORKS 1.0"),
        text(0x0009_1001, "LO", "Erika Example, ward 3"),
        text(0x0010_0010, "PN", "Example^Erika"),
        text(0x0010_0020, "LO", "EX-0001"),
        text(0x0010_0030, "DA", "19700101"),
        text(0x0010_0040, "CS", "F"),
        text(0x0010_1010, "AS", "054Y"),
        text(0x0010_1030, "DS", "61"),
        text(0x0018_0050, "DS", "1.5"),
        text(0x0018_0060, "DS", "120"),
        text(0x0018_1000, "LO", "SERIAL-4711"),
        text(0x0018_1200, "DA", "20240102"),
        uid(0x0020_000D, STUDY),
        uid(0x0020_000E, &format!("{STUDY}.1")),
        text(0x0020_0010, "SH", "17"),
        text(0x0020_0011, "IS", "1"),
        text(0x0020_0013, "IS", &number.to_string()),
        text(0x0020_0032, "DS", &format!("-16\\-16\\{}", f64::from(number) * 1.5)),
        uid(0x0020_0052, &format!("{STUDY}.9")),
        short(0x0028_0002, 1),
        text(0x0028_0004, "CS", "MONOCHROME2"),
        short(0x0028_0010, SIDE),
        short(0x0028_0011, SIDE),
        text(0x0028_0030, "DS", "1\\1"),
        short(0x0028_0100, 16),
        short(0x0028_0101, 12),
        short(0x0028_0102, 11),
        short(0x0028_0103, 0),
        sequence(0x0040_0275, &requested.concat()),
        long(0x6000_3000, "OW", &[0x0F; 32]),
        long(0x7FE0_0010, "OW", &pixels(number)),
    ];
    elements.concat()
}

const SIDE: u16 = 16;

/// A disc that is brighter in the second slice.
fn pixels(number: u16) -> Vec<u8> {
    let half = i32::from(SIDE) / 2;
    let at = |place: i32| {
        let (x, y) = (place % i32::from(SIDE) - half, place / i32::from(SIDE) - half);
        if x * x + y * y < half * half { 1_000 * number } else { 0 }
    };
    (0..i32::from(SIDE * SIDE)).flat_map(|place| at(place).to_le_bytes()).collect()
}

fn tag_bytes(tag: u32) -> Vec<u8> {
    tag.rotate_left(16).to_le_bytes().to_vec()
}

/// An element with a length of two bytes.
fn element(tag: u32, vr: &str, value: &[u8]) -> Vec<u8> {
    let length = (value.len() as u16).to_le_bytes();
    [&tag_bytes(tag)[..], vr.as_bytes(), &length, value].concat()
}

/// An element with a length of four bytes.
fn long(tag: u32, vr: &str, value: &[u8]) -> Vec<u8> {
    let length = (value.len() as u32).to_le_bytes();
    [&tag_bytes(tag)[..], vr.as_bytes(), &[0, 0], &length, value].concat()
}

fn padded(value: &str, padding: u8) -> Vec<u8> {
    let mut bytes = value.as_bytes().to_vec();
    if !bytes.len().is_multiple_of(2) {
        bytes.push(padding);
    }
    bytes
}

fn text(tag: u32, vr: &str, value: &str) -> Vec<u8> {
    element(tag, vr, &padded(value, b' '))
}

fn uid(tag: u32, value: &str) -> Vec<u8> {
    element(tag, "UI", &padded(value, 0))
}

fn short(tag: u32, value: u16) -> Vec<u8> {
    element(tag, "US", &value.to_le_bytes())
}

/// A sequence of one item, lengths stated.
fn sequence(tag: u32, contents: &[u8]) -> Vec<u8> {
    let item = [&tag_bytes(0xFFFE_E000)[..], &(contents.len() as u32).to_le_bytes(), contents].concat();
    long(tag, "SQ", &item)
}

/// A sequence of one item, lengths undefined.
fn undefined_sequence(tag: u32, contents: &[u8]) -> Vec<u8> {
    let mark = |tag: u32, length: u32| [tag_bytes(tag), length.to_le_bytes().to_vec()].concat();
    let undefined = u32::MAX;
    let mut bytes = [&tag_bytes(tag)[..], b"SQ\0\0", &undefined.to_le_bytes()].concat();
    bytes.extend(mark(0xFFFE_E000, undefined));
    bytes.extend(contents);
    bytes.extend(mark(0xFFFE_E00D, 0));
    bytes.extend(mark(0xFFFE_E0DD, 0));
    bytes
}
