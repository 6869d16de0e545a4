//! The library's stack: a run eight items deep, with a UID, a date and a list value at every depth, in a thread with little of it.

use library::{Accepted, Request, deidentify};
use std::thread;

/// The figure to keep is 256 KiB. Half of that is given here, to the thread and its own frames included.
const STACK: usize = 128 * 1024;

/// A study's list: (0010,0010) SUBJ7.
const STUDY: &[u8] = b"\x90\x80\x40\x05SUBJ7";

/// An element with a short header.
fn element(tag: (u16, u16), vr: &[u8; 2], value: &[u8]) -> Vec<u8> {
    let mut bytes = Vec::new();
    bytes.extend(tag.0.to_le_bytes());
    bytes.extend(tag.1.to_le_bytes());
    bytes.extend(vr);
    bytes.extend((value.len() as u16).to_le_bytes());
    bytes.extend(value);
    bytes
}

/// Elements that are renamed, shifted and replaced, and a sequence with one item that holds the same, so many deep.
fn nested(depth: usize) -> Vec<u8> {
    let mut bytes = element((0x0008, 0x0018), b"UI", format!("1.2.3.{depth}\0").as_bytes());
    bytes.extend(element((0x0008, 0x0020), b"DA", b"20240131"));
    if depth > 0 {
        bytes.extend([0x08, 0x00, 0x99, 0x11, b'S', b'Q', 0, 0, 0xFF, 0xFF, 0xFF, 0xFF]);
        bytes.extend([0xFE, 0xFF, 0x00, 0xE0, 0xFF, 0xFF, 0xFF, 0xFF]);
        bytes.extend(nested(depth - 1));
        bytes.extend([0xFE, 0xFF, 0x0D, 0xE0, 0, 0, 0, 0]);
        bytes.extend([0xFE, 0xFF, 0xDD, 0xE0, 0, 0, 0, 0]);
    }
    bytes.extend(element((0x0010, 0x0010), b"PN", b"Doe^Jane"));
    bytes
}

#[test]
fn a_run_needs_little_stack() {
    let run = || {
        let data = nested(8);
        let request =
            Request { data: &data, options: 2, shift: -1, root: b"1.9", study: STUDY, site: b"", used: 0 };
        let mut ledger = vec![0x55; 64 * 1024];
        let mut out = vec![0x55; 64 * 1024];
        let outcome = deidentify(&request, &mut ledger, &mut out);
        (outcome, out.windows(6).filter(|part| part == b"SUBJ7 ").count())
    };
    let (outcome, listed) =
        thread::Builder::new().stack_size(STACK).spawn(run).expect("a thread").join().expect("no fault");
    let Accepted { kept, replaced, renamed, .. } = outcome.expect("accepted");
    assert_eq!((renamed, replaced, kept), (9, 18, 8));
    assert_eq!(listed, 9, "a list value at every depth");
}
