//! What a UID is, and which UIDs a value holds (document 01, "UIDs, dates, lists").

/// The most characters of a UID.
pub const LONGEST_UID: usize = 64;
/// The most characters of a root: a dot and the four digits of the highest slot still fit behind it (U4).
const LONGEST_ROOT: usize = 59;
/// The most UIDs in a value to be renamed; equal ones count each time (U2).
const MOST_UIDS: usize = 1_000;

/// Decimal components joined by dots, none empty, none with a zero in front but "0" itself (U3).
pub fn is_uid(text: &[u8]) -> bool {
    text.len() <= LONGEST_UID && text.split(|&byte| byte == b'.').all(is_component)
}

fn is_component(digits: &[u8]) -> bool {
    match digits {
        [] => false,
        [b'0', _, ..] => false,
        _ => digits.iter().all(u8::is_ascii_digit),
    }
}

/// Whether new UIDs may be made from this root.
pub fn is_root(text: &[u8]) -> bool {
    text.len() <= LONGEST_ROOT && is_uid(text)
}

/// The UIDs of a value to be renamed, left to right; `None` if the value breaks the rule (refusal 11). An empty value
/// holds no UID; from any other one zero byte is taken off its end if there is one (U1).
pub fn uids_of(value: &[u8]) -> Option<impl Iterator<Item = &[u8]>> {
    let text = value.strip_suffix(&[0]).unwrap_or(value);
    let parts = text.split(|&byte| byte == b'\\');
    let count = if value.is_empty() { 0 } else { parts.clone().count() };
    let uids = parts.take(count);
    let well_formed = count <= MOST_UIDS && uids.clone().all(is_uid);
    well_formed.then_some(uids)
}

#[cfg(test)]
mod tests {
    use super::*;

    #[test]
    fn u3_single_components_and_zeros_are_uids() {
        for text in ["1", "0", "0.0", "2.999", "1.0.10", "00.1", "01", "1.00", "1.01"] {
            assert_eq!(is_uid(text.as_bytes()), !text.contains("00") && !text.contains("01"), "{text}");
        }
    }

    #[test]
    fn what_is_no_uid() {
        for text in ["", ".", "1.", ".1", "1..2", "1.2 ", " 1", "1.a", "1,2", "-1", "1\0"] {
            assert!(!is_uid(text.as_bytes()), "{text:?}");
        }
    }

    #[test]
    fn u4_sixty_four_characters_are_the_limit() {
        assert!(is_uid(&[b'1'; 64]));
        assert!(!is_uid(&[b'1'; 65]));
        assert!(is_root(&[b'1'; 59]));
        assert!(!is_root(&[b'1'; 60]));
        assert!(!is_root(b""));
    }
}
