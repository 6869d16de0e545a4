//! Values in a form that can be printed: nothing in them can move a terminal's cursor.

use crate::vrs::{Form, form};

/// How many characters of a value are shown.
const SHOWN: usize = 64;

/// A value by its VR, only its front if it is long.
pub fn value(vr: [u8; 2], value: &[u8]) -> String {
    match form(vr) {
        Form::Text => quoted(trimmed(value)),
        Form::Whole { bytes, signed } => each(value, bytes, |part| whole(part, signed)),
        Form::Float { bytes } => each(value, bytes, float),
        Form::Tag => each(value, 4, tag),
        Form::Bytes => hex(value),
    }
}

/// Text in quotes, everything but printable ASCII escaped; only the front of a long one.
pub fn quoted(text: &[u8]) -> String {
    let shown = &text[..text.len().min(SHOWN)];
    let rest = if text.len() > SHOWN { format!(".. ({} bytes)", text.len()) } else { String::new() };
    let mut quoted = String::from("\"");
    for &byte in shown {
        match byte {
            b'"' => quoted += "\\\"",
            0x20..=0x7E => quoted.push(byte as char),
            _ => quoted += &format!("\\x{byte:02X}"),
        }
    }
    quoted + "\"" + &rest
}

/// Bytes in hex; only the front of many.
pub fn hex(bytes: &[u8]) -> String {
    const MOST: usize = 16;
    let shown: Vec<String> = bytes.iter().take(MOST).map(|byte| format!("{byte:02X}")).collect();
    let rest = if bytes.len() > MOST { " .." } else { "" };
    format!("{} bytes{}{}{rest}", bytes.len(), if bytes.is_empty() { "" } else { ": " }, shown.join(" "))
}

/// Whether every byte is printable ASCII.
pub fn is_printable(text: &[u8]) -> bool {
    text.iter().all(|byte| matches!(byte, 0x20..=0x7E))
}

/// A value as text, without the byte that makes its length even, if all of it can be printed.
pub fn printable(value: &[u8]) -> Option<&str> {
    let text = trimmed(value);
    if is_printable(text) { str::from_utf8(text).ok() } else { None }
}

/// Without the one byte that makes its length even.
pub fn trimmed(text: &[u8]) -> &[u8] {
    text.strip_suffix(b" ").or(text.strip_suffix(b"\0")).unwrap_or(text)
}

/// Numbers of so many bytes, joined by backslashes; bytes in hex if they do not come out even.
fn each(value: &[u8], bytes: usize, one: impl Fn(&[u8]) -> String) -> String {
    const MOST: usize = 8;
    if !value.len().is_multiple_of(bytes) {
        return hex(value);
    }
    let shown: Vec<String> = value.chunks_exact(bytes).take(MOST).map(one).collect();
    let rest = if value.len() / bytes > MOST {
        format!(".. ({} values)", value.len() / bytes)
    } else {
        String::new()
    };
    shown.join("\\") + &rest
}

fn whole(part: &[u8], signed: bool) -> String {
    let mut wide = [if signed && part.last().is_some_and(|&byte| byte >= 0x80) { 0xFF } else { 0 }; 8];
    wide[..part.len()].copy_from_slice(part);
    if signed { i64::from_le_bytes(wide).to_string() } else { u64::from_le_bytes(wide).to_string() }
}

fn float(part: &[u8]) -> String {
    match part.try_into() {
        Ok(four) => f32::from_le_bytes(four).to_string(),
        Err(_) => f64::from_le_bytes(part.try_into().expect("eight bytes")).to_string(),
    }
}

fn tag(part: &[u8]) -> String {
    let half = |at: usize| u16::from_le_bytes([part[at], part[at + 1]]);
    format!("({:04X},{:04X})", half(0), half(2))
}

#[cfg(test)]
mod tests {
    use super::*;

    #[test]
    fn values_are_shown_by_their_vr() {
        assert_eq!(value(*b"PN", b"Doe^Jane"), "\"Doe^Jane\"");
        assert_eq!(value(*b"UI", b"1.2.3\0"), "\"1.2.3\"");
        assert_eq!(value(*b"US", &[1, 2, 0xFF, 0xFF]), "513\\65535");
        assert_eq!(value(*b"SS", &[0xFE, 0xFF]), "-2");
        assert_eq!(value(*b"FD", &1.5f64.to_le_bytes()), "1.5");
        assert_eq!(value(*b"AT", &[0x10, 0, 0x20, 0]), "(0010,0020)");
        assert_eq!(value(*b"OB", &[1, 0xAB]), "2 bytes: 01 AB");
        assert_eq!(value(*b"US", &[1, 2, 3]), "3 bytes: 01 02 03");
        assert_eq!(value(*b"OW", &[]), "0 bytes");
    }

    #[test]
    fn nothing_moves_the_cursor() {
        assert_eq!(quoted(b"a\x1B[2J\"\xC3"), "\"a\\x1B[2J\\\"\\xC3\"");
        assert_eq!(quoted(&[b'A'; 70]), format!("\"{}\".. (70 bytes)", "A".repeat(64)));
    }
}
