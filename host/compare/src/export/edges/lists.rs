//! The replacement lists: the readings L.

use super::*;
use crate::export::entry;

pub fn all() -> Vec<Edge> {
    let good = |name, list: Bytes| Edge::new(name, &[]).study(list);
    let bad = |name, list: Bytes| Edge::new(name, &[]).site(list).refused(4, 0);
    let many = |count: u32| (0..count).flat_map(|tag| entry(tag, "A")).collect::<Bytes>();
    vec![
        good("L2 tag 0", entry(0, "A")),
        good("L2 the highest tag", entry(u32::MAX, "A")),
        good("L3 64 characters", entry(NAME, [b'~'; 64])),
        good("L3 256 entries", many(256)),
        good("L5 a space", entry(NAME, " ")),
        bad("L3 257 entries", many(257)),
        bad("L3 no value", entry(NAME, "")),
        bad("L3 65 characters", entry(NAME, [b'A'; 65])),
        bad("L5 1F", entry(NAME, "\x1F")),
        bad("L5 7F", entry(NAME, "\x7F")),
        bad("L5 a backslash", entry(NAME, "A\\B")),
        bad("equal tags", [entry(NAME, "A"), entry(NAME, "A")].concat()),
        bad("falling tags", [entry(NAME, "A"), entry(NAME - 1, "A")].concat()),
        bad("L1 a group too many in a length", [&[0x00, 0x81, 0x00][..], b"A"].concat()),
        bad("L1 a group too many in a tag", [&[0x80, 0x00, 0x01][..], b"A"].concat()),
        bad("past the highest tag", [&[0x80, 0x80, 0x80, 0x80, 0x10, 0x01][..], b"A"].concat()),
        bad("L3 cut in the tag", vec![0x90, 0x80]),
        bad("L3 cut before the length", vec![0x90, 0x80, 0x40]),
        bad("L3 cut in the value", [&[0x90, 0x80, 0x40, 0x05][..], b"SUBJ"].concat()),
        Edge::new("L4 lists before the data set", &[vec![1; 7]]).study(vec![0x80]).refused(4, 0),
    ]
}
