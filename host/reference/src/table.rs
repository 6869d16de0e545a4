//! Table E.1-1 of PS3.15, edition 2023b: which letter a tag gets (document 01, "Which action an element gets").
//!
//! The transcription of the printed table, the same from which the proved station's rows are made, is compiled in as a
//! text file and read once. Columns are found by their headings.

use std::sync::OnceLock;

use crate::options::{Choice, Options};

const PRINTED: &str = include_str!(concat!(env!("CARGO_MANIFEST_DIR"), "/../../data/table-e1-1.tsv"));

const TAG_COLUMN: &str = "Tag";
const BASIC_COLUMN: &str = "Basic Prof.";
/// How the line for private elements names its tags.
const PRIVATE_TAGS: &str = "(gggg,eeee) where gggg is odd";

/// The lowest bit of the group: set in private tags.
const ODD_GROUP: u32 = 0x0001_0000;

/// The letter of the basic profile, either-or letters decided.
#[derive(Clone, Copy, Debug, PartialEq, Eq)]
pub enum Basic {
    Remove,
    Empty,
    Dummy,
    Rename,
}

/// The letters of a line: the basic one, and which options have K and which have C.
#[derive(Clone, Copy, Debug, PartialEq, Eq)]
pub struct Row {
    pub basic: Basic,
    pub keeping: Options,
    pub cleaning: Options,
}

/// The tags a line stands for: those that have the bits of `value` where `mask` has ones.
#[derive(Clone, Copy, Debug, PartialEq, Eq)]
struct Pattern {
    mask: u32,
    value: u32,
}

impl Pattern {
    fn matches(self, tag: u32) -> bool {
        tag & self.mask == self.value
    }
}

/// The table, ready to be asked.
pub struct Table {
    /// Lines that name a single tag, strictly rising by tag.
    rows: Vec<(u32, Row)>,
    /// Lines that stand for many tags.
    repeating: Vec<(Pattern, Row)>,
}

impl Table {
    /// The table of edition 2023b.
    pub fn edition_2023b() -> &'static Table {
        static TABLE: OnceLock<Table> = OnceLock::new();
        TABLE.get_or_init(|| Table::read(PRINTED))
    }

    /// The row for a tag: a repeating line first, then the line with that very tag (A1: they never meet).
    pub fn row(&self, tag: u32) -> Option<Row> {
        let repeating = self.repeating.iter().find(|(pattern, _)| pattern.matches(tag));
        if let Some((_, row)) = repeating {
            return Some(*row);
        }
        let place = self.rows.binary_search_by_key(&tag, |&(row_tag, _)| row_tag).ok()?;
        Some(self.rows[place].1)
    }

    /// Reads the printed lines. They are part of the program, so a line that cannot be read is an error in the
    /// program.
    fn read(printed: &str) -> Table {
        let mut lines = printed.lines();
        let columns = Columns::read(lines.next().expect("the table has a heading"));
        let mut table = Table { rows: Vec::new(), repeating: Vec::new() };
        for line in lines {
            let cells: Vec<&str> = line.split('\t').collect();
            let row = columns.row(&cells);
            let pattern = read_tags(cells[columns.tag]);
            if pattern.mask == u32::MAX {
                table.rows.push((pattern.value, row));
            } else {
                table.repeating.push((pattern, row));
            }
        }
        table.rows.sort_by_key(|&(tag, _)| tag);
        table.rows.dedup_by(|later, first| join_if_same_tag(first, later));
        table
    }
}

/// A tag printed on two lines gets one row with the letters of both (A16). Where one line has K and the other C for
/// the same option, the row has both, and C wins when it is asked, as it does between options.
fn join_if_same_tag(first: &mut (u32, Row), later: &mut (u32, Row)) -> bool {
    if first.0 != later.0 {
        return false;
    }
    assert_eq!(first.1.basic, later.1.basic, "two lines for tag {:08X} differ", first.0);
    first.1.keeping = first.1.keeping.or(later.1.keeping);
    first.1.cleaning = first.1.cleaning.or(later.1.cleaning);
    true
}

/// Where the columns stand that matter here.
struct Columns {
    tag: usize,
    basic: usize,
    options: [(Choice, usize); Choice::ALL.len()],
}

impl Columns {
    fn read(heading: &str) -> Columns {
        let names: Vec<&str> = heading.split('\t').collect();
        let place = |name: &str| {
            let place = names.iter().position(|&other| other == name);
            place.unwrap_or_else(|| panic!("the table has no column {name:?}"))
        };
        Columns {
            tag: place(TAG_COLUMN),
            basic: place(BASIC_COLUMN),
            options: Choice::ALL.map(|choice| (choice, place(choice.column()))),
        }
    }

    fn row(&self, cells: &[&str]) -> Row {
        let mut row = Row {
            basic: read_basic(cells[self.basic]),
            keeping: Options::default(),
            cleaning: Options::default(),
        };
        for (choice, place) in self.options {
            match cells[place] {
                "" => {}
                "K" => row.keeping = row.keeping.with(choice),
                "C" => row.cleaning = row.cleaning.with(choice),
                other => panic!("no letter for an option: {other:?}"),
            }
        }
        row
    }
}

/// The basic action; of an either-or action the last letter, its star left away (A11).
fn read_basic(cell: &str) -> Basic {
    let last = cell.rsplit('/').next().map(|letter| letter.trim_end_matches('*'));
    match last {
        Some("X") => Basic::Remove,
        Some("Z") => Basic::Empty,
        Some("D") => Basic::Dummy,
        Some("U") => Basic::Rename,
        _ => panic!("no letter for the basic action: {cell:?}"),
    }
}

/// Reads "(0010,0010)", "(60xx,3000)" or the words for private tags. Each x stands for any digit, but a repeating
/// line is about even groups alone, odd ones being private (A2).
fn read_tags(cell: &str) -> Pattern {
    if cell == PRIVATE_TAGS {
        return Pattern { mask: ODD_GROUP, value: ODD_GROUP };
    }
    let digits = cell.strip_prefix('(').and_then(|rest| rest.strip_suffix(')'));
    let digits = digits.and_then(|inside| inside.split_once(','));
    let (group, element) = digits.unwrap_or_else(|| panic!("no tag: {cell:?}"));
    assert!(group.len() == 4 && element.len() == 4, "no tag: {cell:?}");
    let mut pattern = Pattern { mask: 0, value: 0 };
    for digit in group.chars().chain(element.chars()) {
        let (mask, value) = match digit {
            'x' => (0, 0),
            _ => (0xF, digit.to_digit(16).unwrap_or_else(|| panic!("no tag: {cell:?}"))),
        };
        pattern = Pattern { mask: pattern.mask << 4 | mask, value: pattern.value << 4 | value };
    }
    pattern.mask |= ODD_GROUP;
    pattern
}

#[cfg(test)]
mod tests {
    use super::*;

    fn row(tag: u32) -> Row {
        Table::edition_2023b().row(tag).expect("the tag has a row")
    }

    fn choices(options: Options) -> Vec<Choice> {
        options.choices().collect()
    }

    #[test]
    fn a16_there_are_604_rows_strictly_rising() {
        let rows = &Table::edition_2023b().rows;
        assert_eq!(rows.len(), 604);
        assert!(rows.windows(2).all(|pair| pair[0].0 < pair[1].0));
    }

    #[test]
    fn a16_the_three_doubles_have_both_device_letters() {
        for tag in [0x0032_1021, 0x0040_0001, 0x0040_0241] {
            let row = row(tag);
            assert_eq!(choices(row.keeping), [Choice::DeviceIdentity]);
            assert_eq!(choices(row.cleaning), [Choice::DeviceIdentity]);
        }
    }

    #[test]
    fn a16_no_other_row_has_two_letters_of_one_option() {
        let rows = &Table::edition_2023b().rows;
        let double = rows.iter().filter(|(_, row)| row.keeping.and(row.cleaning).has_any());
        assert_eq!(double.count(), 3);
    }

    #[test]
    fn a17_rows_of_groups_never_met_are_there() {
        for tag in [0x0000_1000, 0x0000_1001, 0x0002_0003, 0x0004_1511] {
            assert!(Table::edition_2023b().row(tag).is_some());
        }
    }

    #[test]
    fn a11_either_or_actions_take_their_last_letter() {
        assert_eq!(row(0x0008_0023).basic, Basic::Dummy); // Z/D
        assert_eq!(row(0x0008_0012).basic, Basic::Dummy); // X/D
        assert_eq!(row(0x0008_002A).basic, Basic::Dummy); // X/Z/D
        assert_eq!(row(0x0008_0022).basic, Basic::Empty); // X/Z
        assert_eq!(row(0x0008_1140).basic, Basic::Rename); // X/Z/U*
    }

    #[test]
    fn a1_no_row_stands_where_a_rule_does() {
        let table = Table::edition_2023b();
        for &(tag, _) in &table.rows {
            assert!(!table.repeating.iter().any(|(pattern, _)| pattern.matches(tag)), "{tag:08X}");
            assert_ne!(tag & 0xFFFF, 0, "{tag:08X}");
        }
        for marker in [0x0012_0062, 0x0012_0063, 0x0012_0064, 0x0028_0303] {
            assert_eq!(table.row(marker), None);
        }
    }

    #[test]
    fn a2_the_four_repeating_lines_are_x_and_have_no_letter_of_the_six_options() {
        let table = Table::edition_2023b();
        assert_eq!(table.repeating.len(), 4);
        for (_, row) in &table.repeating {
            assert_eq!(row.basic, Basic::Remove);
            assert!(!row.keeping.or(row.cleaning).has_any());
        }
    }

    #[test]
    fn a2_repeating_lines_cover_their_tags_and_no_other() {
        let table = Table::edition_2023b();
        for tag in [0x5000_0001, 0x50FE_FFFF, 0x6000_3000, 0x60FE_4000, 0x6001_0001, 0x0009_0010] {
            assert!(table.row(tag).is_some(), "{tag:08X}");
        }
        for tag in [0x4FFE_0001, 0x5100_0001, 0x6000_3001, 0x6100_3000, 0x5EFE_4000] {
            assert!(table.row(tag).is_none(), "{tag:08X}");
        }
    }

    #[test]
    fn a7_no_row_has_c_under_modified_dates_and_under_another_option() {
        for (tag, row) in &Table::edition_2023b().rows {
            let several = row.cleaning.has(Choice::ModifiedDates) && row.cleaning.choices().count() > 1;
            assert!(!several, "{tag:08X}");
        }
    }

    #[test]
    fn settled_cells_are_as_the_readings_have_them() {
        assert_eq!(choices(row(0x0008_1120).keeping), [Choice::RetainUids]);
        assert_eq!(choices(row(0x300C_0127).keeping), [Choice::FullDates, Choice::DeviceIdentity]);
        assert_eq!(choices(row(0x300C_0127).cleaning), [Choice::ModifiedDates]);
    }
}
