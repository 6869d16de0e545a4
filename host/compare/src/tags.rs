//! Tags that elements may have, and the VR that an element of the action table usually has.

use std::collections::BTreeMap;
use std::sync::OnceLock;

use crate::pieces::*;
use crate::random::Random;

/// Sequences that are walked into under all settings: they have no row, or U.
const WALKED: [u32; 5] = [0x0008_1115, 0x0008_1140, 0x0008_2112, 0x0054_0016, 0x5200_9229];

/// The tags that the top level loses since they are written anew, at any level.
pub const MARKERS: [u32; 4] = [0x0012_0062, 0x0012_0063, 0x0012_0064, 0x0028_0303];

/// The tags of the action table that an element may have (A17: some of the table's can never be met), with the
/// VR that their name suggests. The table itself names none.
fn table() -> &'static BTreeMap<u32, &'static str> {
    static TABLE: OnceLock<BTreeMap<u32, &'static str>> = OnceLock::new();
    TABLE.get_or_init(|| {
        let lines = include_str!("../../../data/table-e1-1.tsv").lines();
        let cells = lines.filter_map(|line| line.split_once('\t'));
        let rows =
            cells.filter_map(|(name, rest)| Some((single_tag(rest.split('\t').next()?)?, suggested(name))));
        rows.filter(|(tag, _)| (FIRST_TAG..=LAST_TAG).contains(tag)).collect()
    })
}

/// All tags of the table that an element may have, rising.
pub fn of_table() -> &'static [u32] {
    static TAGS: OnceLock<Vec<u32>> = OnceLock::new();
    TAGS.get_or_init(|| table().keys().copied().collect())
}

/// The VR that a tag of the table usually has.
pub fn usual_vr(tag: u32) -> Option<&'static str> {
    table().get(&tag).copied()
}

/// Reads "(0010,0010)". The heading and the repeating lines are none.
fn single_tag(text: &str) -> Option<u32> {
    let (group, element) = text.strip_prefix('(')?.strip_suffix(')')?.split_once(',')?;
    Some(u32::from_str_radix(group, 16).ok()? << 16 | u32::from_str_radix(element, 16).ok()?)
}

/// A guess by the name's end, which need not be right: any VR may stand in the data.
fn suggested(name: &str) -> &'static str {
    const TEXTS: [&str; 9] = ["LO", "SH", "ST", "LT", "UT", "CS", "UC", "UR", "IS"];
    let ends: [(&str, &str); 12] = [
        ("UID", "UI"),
        ("Sequence", "SQ"),
        ("DateTime", "DT"),
        ("Date", "DA"),
        ("Time", "TM"),
        ("Calibration", "DA"),
        ("Name", "PN"),
        ("Title", "AE"),
        ("Age", "AS"),
        ("Size", "DS"),
        ("Weight", "DS"),
        ("Data", "OB"),
    ];
    let by_end = ends.iter().find(|(end, _)| name.ends_with(end)).map(|(_, vr)| *vr);
    by_end.unwrap_or(TEXTS[name.len() % TEXTS.len()])
}

/// Any tag that an element may have, of every kind that document 01 speaks of.
pub fn any(random: &mut Random) -> u32 {
    let number = random.below(0x1_0000) as u32;
    let element = random.pick(&[0, 1, 0x10, 0x1010, 0x3000, 0x4000, 0xFFFF, number]);
    let tag = match random.below(12) {
        0..=4 => random.pick(of_table()),
        // private
        5 => (2 * random.below(0x8000) as u32 + 1) << 16 | element,
        // curves and overlays, the odd groups between them too
        6 => (0x5000 + random.below(0x100) as u32) << 16 | element,
        7 => (0x6000 + random.below(0x100) as u32) << 16 | element,
        8 => random.pick(of_table()) & 0xFFFF_0000 | element,
        9 => random.pick(&[MARKERS[0], MARKERS[1], MARKERS[2], MARKERS[3], 0x7FE0_0010]),
        10 => random.pick(&[FIRST_TAG, LAST_TAG, FIRST_TAG + 1, 0x0009_0000, 0xFFFC_0000, 0xFFFD_0000]),
        _ => random.number() as u32,
    };
    tag.clamp(FIRST_TAG, LAST_TAG)
}

/// A tag of the table whose element usually holds UIDs or dates.
pub fn judged(random: &mut Random) -> u32 {
    static TAGS: OnceLock<Vec<u32>> = OnceLock::new();
    let tags = TAGS.get_or_init(|| {
        let rows = table().iter().filter(|(_, vr)| matches!(**vr, "UI" | "DA" | "DT"));
        rows.map(|(tag, _)| *tag).collect()
    });
    random.pick(tags)
}

/// A tag for a sequence that should be walked into.
pub fn walked(random: &mut Random) -> u32 {
    random.pick(&WALKED)
}
