//! Replacement lists as text, a line for each entry: `0010,0010 SUBJ7`. The command spells them as document 01
//! has them; whether a list keeps its rule is the library's to judge.

use std::fs;
use std::path::PathBuf;

use crate::attributes::read_tag;
use crate::stop::Stop;
use crate::text;

/// One of the two lists.
pub struct List {
    /// The file that it was read from; none if none was given.
    pub path: Option<PathBuf>,
    /// By rising tag, whatever the order of the lines.
    pub entries: Vec<Entry>,
    /// The list as the library takes it.
    pub bytes: Vec<u8>,
}

#[derive(Clone, Debug, PartialEq, Eq)]
pub struct Entry {
    pub tag: u32,
    pub value: String,
    /// Where it stands in the file, from 1.
    pub line: usize,
}

impl List {
    pub fn none() -> List {
        List { path: None, entries: Vec::new(), bytes: Vec::new() }
    }

    pub fn read(path: Option<PathBuf>) -> Result<List, Stop> {
        let Some(path) = path else { return Ok(List::none()) };
        let text = fs::read(&path).map_err(|error| Stop::at("read", &path, error))?;
        let text = String::from_utf8(text)
            .map_err(|_| Stop::Usage(format!("{}: a list is text, and this is not", path.display())))?;
        // Some editors put a mark in front of the text.
        let entries = read_lines(text.strip_prefix('\u{FEFF}').unwrap_or(&text))
            .map_err(|(line, what)| Stop::Usage(format!("{} line {line}: {what}", path.display())))?;
        Ok(List { path: Some(path), ..List::of(entries) })
    }

    fn of(mut entries: Vec<Entry>) -> List {
        // The sort keeps the order of equal tags, which the library refuses.
        entries.sort_by_key(|entry| entry.tag);
        let bytes = entries.iter().flat_map(encoded).collect();
        List { path: None, entries, bytes }
    }

    /// Which part of document 01's rule the entry at this place breaks, if it can be told. Whether it breaks one
    /// is the library's to judge.
    pub fn why(&self, place: usize) -> Option<&'static str> {
        let Entry { tag, value, .. } = &self.entries[place];
        let is_repeated = place > 0 && self.entries[place - 1].tag == *tag;
        match value {
            _ if is_repeated => Some("its tag has a line before it"),
            value if value.is_empty() => Some("its value is empty"),
            value if value.len() > 64 => Some("its value is longer than 64 characters"),
            value if value.contains('\\') => Some("its value has a backslash"),
            value if !text::is_printable(value.as_bytes()) => {
                Some("its value has a character that is not printable ASCII")
            }
            _ if place >= 256 => Some("the list has more than 256 entries"),
            _ => None,
        }
    }

    /// The same list with its first entries alone.
    pub fn front(&self, count: usize) -> List {
        List { path: self.path.clone(), ..List::of(self.entries[..count].to_vec()) }
    }
}

/// The entries of a text; or the line that is none, and why. Empty lines and lines that begin with # are passed
/// over. A value is what stands behind the first space, further spaces included.
fn read_lines(text: &str) -> Result<Vec<Entry>, (usize, &'static str)> {
    let mut entries = Vec::new();
    for (line, text) in (1..).zip(text.lines()) {
        if text.is_empty() || text.starts_with('#') {
            continue;
        }
        let (tag, value) =
            text.split_once(' ').ok_or((line, "no space between tag and value, as in: 0010,0010 SUBJ7"))?;
        let tag = read_tag(tag).ok_or((line, "no tag in front, as in: 0010,0010 SUBJ7"))?;
        entries.push(Entry { tag, value: value.into(), line });
    }
    Ok(entries)
}

/// An entry as document 01 has it: tag, length, value.
fn encoded(entry: &Entry) -> Vec<u8> {
    let mut bytes = number(entry.tag.into());
    bytes.extend(number(entry.value.len() as u64));
    bytes.extend(entry.value.bytes());
    bytes
}

/// Groups of seven bits, lowest first, the high bit set on all but the last.
fn number(mut number: u64) -> Vec<u8> {
    let mut groups = Vec::new();
    while number >= 0x80 {
        groups.push(number as u8 | 0x80);
        number >>= 7;
    }
    groups.push(number as u8);
    groups
}

#[cfg(test)]
mod tests {
    use super::*;

    #[test]
    fn the_entry_of_document_01_is_spelt() {
        let list = List::of(read_lines("0010,0010 SUBJ7").unwrap());
        assert_eq!(list.bytes, [0x90, 0x80, 0x40, 0x05, 0x53, 0x55, 0x42, 0x4A, 0x37]);
    }

    #[test]
    fn lines_may_stand_in_any_order() {
        let text = "# the trial's\r\n(0010,0020) 7\r\n\r\n0010,0010  A B \n";
        let list = List::of(read_lines(text).unwrap());
        let seen: Vec<_> =
            list.entries.iter().map(|entry| (entry.tag, &entry.value[..], entry.line)).collect();
        assert_eq!(seen, [(0x0010_0010, " A B ", 4), (0x0010_0020, "7", 2)]);
    }

    #[test]
    fn lines_that_are_no_entries_are_told() {
        assert_eq!(read_lines("0010,0010 A\n0010,0020").unwrap_err().0, 2);
        assert_eq!(read_lines("\nPatientName A").unwrap_err().0, 2);
        assert_eq!(read_lines("0010,00101 A").unwrap_err().0, 1);
    }
}
