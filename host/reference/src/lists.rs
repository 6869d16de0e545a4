//! The replacement lists: the study's and the site's (document 01, "UIDs, dates, lists", last paragraph).

use crate::refusal::{Reason, Refusal};

const MOST_ENTRIES: usize = 256;
const LONGEST_VALUE: u32 = 64;

/// An entry: its tag, and its value as a part of the list itself.
type Entry<'l> = (u32, &'l [u8]);

/// Both lists, known to be well-formed.
pub struct Lists<'l> {
    study: Vec<Entry<'l>>,
    site: Vec<Entry<'l>>,
}

impl<'l> Lists<'l> {
    /// Reads both lists whole; refusal 4 if either breaks the rule (L4).
    pub fn read(study: &'l [u8], site: &'l [u8]) -> Result<Lists<'l>, Refusal> {
        let refusal = Refusal::without_place(Reason::List);
        let study = read_list(study).ok_or(refusal)?;
        let site = read_list(site).ok_or(refusal)?;
        Ok(Lists { study, site })
    }

    /// The value for a tag: the study's, else the site's.
    pub fn find(&self, tag: u32) -> Option<&'l [u8]> {
        find(&self.study, tag).or_else(|| find(&self.site, tag))
    }
}

fn find<'l>(entries: &[Entry<'l>], tag: u32) -> Option<&'l [u8]> {
    let place = entries.binary_search_by_key(&tag, |&(entry_tag, _)| entry_tag).ok()?;
    Some(entries[place].1)
}

/// The entries of a list, strictly rising by tag; `None` if the list breaks the rule.
fn read_list(mut bytes: &[u8]) -> Option<Vec<Entry<'_>>> {
    let mut entries: Vec<Entry> = Vec::new();
    while !bytes.is_empty() {
        let (entry, rest) = read_entry(bytes)?;
        let rises = entries.last().is_none_or(|&(previous, _)| previous < entry.0);
        if !rises || entries.len() == MOST_ENTRIES {
            return None;
        }
        entries.push(entry);
        bytes = rest;
    }
    Some(entries)
}

fn read_entry(bytes: &[u8]) -> Option<(Entry<'_>, &[u8])> {
    let (tag, bytes) = read_number(bytes)?;
    let (length, bytes) = read_number(bytes)?;
    if !(1..=LONGEST_VALUE).contains(&length) {
        return None;
    }
    let (value, rest) = bytes.split_at_checked(length as usize)?;
    value.iter().all(|&byte| is_value_character(byte)).then_some(((tag, value), rest))
}

/// 20 to 7E hex without the backslash (L5).
fn is_value_character(byte: u8) -> bool {
    matches!(byte, 0x20..=0x7E) && byte != b'\\'
}

/// A number in groups of seven bits, lowest group first, the high bit set on all but the last. `None` if it is cut,
/// has more groups than it needs (L1), or is above FFFFFFFF hex.
fn read_number(bytes: &[u8]) -> Option<(u32, &[u8])> {
    let mut number = 0u64;
    for (place, &byte) in bytes.iter().enumerate().take(5) {
        number |= u64::from(byte & 0x7F) << (7 * place);
        if byte & 0x80 == 0 {
            let is_shortest = byte != 0 || place == 0;
            let number = u32::try_from(number).ok().filter(|_| is_shortest)?;
            return Some((number, &bytes[place + 1..]));
        }
    }
    None
}

#[cfg(test)]
mod tests {
    use super::*;

    #[test]
    fn the_entry_of_document_01_is_read() {
        let list = [0x90, 0x80, 0x40, 0x05, 0x53, 0x55, 0x42, 0x4A, 0x37];
        assert_eq!(read_list(&list), Some(vec![(0x0010_0010, &b"SUBJ7"[..])]));
    }

    #[test]
    fn numbers_are_read_up_to_the_highest_tag() {
        assert_eq!(read_number(&[0x00, 9]), Some((0, &[9][..])));
        assert_eq!(read_number(&[0x7F]), Some((0x7F, &[][..])));
        assert_eq!(read_number(&[0x80, 0x01]), Some((0x80, &[][..])));
        assert_eq!(read_number(&[0xFF, 0xFF, 0xFF, 0xFF, 0x0F]), Some((u32::MAX, &[][..])));
        assert_eq!(read_number(&[0x80, 0x80, 0x80, 0x80, 0x10]), None); // 2^32
    }

    #[test]
    fn l1_a_number_in_more_groups_than_needed_is_refused() {
        assert_eq!(read_number(&[0x80, 0x00]), None);
        assert_eq!(read_number(&[0x85, 0x80, 0x00]), None);
        assert_eq!(read_number(&[0x85, 0x80, 0x80, 0x80, 0x00]), None);
        assert_eq!(read_number(&[0x85, 0x80, 0x80, 0x80, 0x80, 0x00]), None);
    }

    #[test]
    fn l3_a_cut_number_is_refused() {
        assert_eq!(read_number(&[]), None);
        assert_eq!(read_number(&[0x80]), None);
        assert_eq!(read_number(&[0xFF, 0xFF, 0xFF, 0xFF]), None);
    }
}
