//! UIDs and the ledger: the readings U.

use super::*;

pub fn all() -> Vec<Edge> {
    [ledgers(), values()].into_iter().flatten().collect()
}

fn renamed(name: &'static str, from: &str, to: &str) -> Edge {
    Edge::new(name, &[uids(STUDY, from)]).writes(&[uids(STUDY, to)], [0, 0, 1, 0])
}

fn ledgers() -> Vec<Edge> {
    let full = |count: usize| {
        (0..count).flat_map(|number| slot_of(format!("2.{number}").as_bytes())).collect::<Bytes>()
    };
    let dirty = |front: Bytes, size: usize| [front.clone(), vec![0xDD; size - front.len()]].concat();
    let almost = |text: &[u8]| {
        let mut slot = slots(&["1.2"]);
        slot[4..4 + text.len()].copy_from_slice(text);
        slot
    };
    vec![
        renamed("U7 the first of equal slots", "1.2", "1.9.2").ledger(slots(&["1.1", "1.2", "1.2"]), 3),
        renamed("U6 garbage behind a UID", "1.2", "1.9.2")
            .ledger([almost(b"x"), slots(&[""])].concat(), 1)
            .enters(&["1.2"]),
        renamed("U6 garbage in the last byte", "1.2", "1.9.2")
            .ledger([slots(&["1.2"])[..63].to_vec(), vec![1], slots(&[""])].concat(), 1)
            .enters(&["1.2"]),
        renamed("U8 past the count in use", "1.2", "1.9.1").ledger(slots(&["7", "1.2"]), 0).enters(&["1.2"]),
        renamed("U8 in the very next slot", "1.2", "1.9.2")
            .ledger(slots(&["7", "1.2", "1.2"]), 1)
            .enters(&["1.2"]),
        renamed("U9 a ragged tail", "1.2", "1.9.1").ledger(dirty(vec![], 64 + 63), 0).enters(&["1.2"]),
        Edge::new("U9 63 bytes are no slot", &[uids(STUDY, "1.2")]).ledger(vec![0xDD; 63], 0).refused(13, 0),
        renamed("U9 the last of 1,024", "1.2", "1.9.1024")
            .ledger(dirty(full(1_023), 1_024 * 64 + 70), 1_023)
            .enters(&["1.2"]),
        Edge::new("U9 no slot after 1,024", &[uids(STUDY, "1.2")])
            .ledger(dirty(full(1_024), 1_030 * 64), 1_024)
            .refused(13, 0),
        renamed("U9 known in a full ledger", "2.1023", "1.9.1024").ledger(full(1_024), 1_024),
        Edge::new("U15 no ledger", &[element(MODALITY, "CS", "MR")])
            .ledger(vec![], 0)
            .writes(&[element(MODALITY, "CS", "MR")], [1, 0, 0, 0]),
        Edge::new("U15 no ledger and a UID", &[uids(STUDY, "1.2")]).ledger(vec![], 0).refused(13, 0),
        renamed("U14 a new UID in the data", "1.9.1\\1.9.2", "1.9.1\\1.9.2").enters(&["1.9.1", "1.9.2"]),
        renamed("U10 left to right", "1.4\\1.3\\1.4", "1.9.1\\1.9.2\\1.9.1").enters(&["1.4", "1.3"]),
        renamed("numbers of two digits", "1.2", "1.9.10")
            .ledger([full(9), slots(&[""; 3])].concat(), 9)
            .enters(&["1.2"]),
        Edge::new(
            "U10 UIDs in hidden places take no number",
            &[
                nest(1, CONTENT, uids(SOP_INSTANCE, "1.1")),
                element(0x0040_A731, "CS", ""),
                uids(0x0070_031A, "1.3"),
            ],
        )
        .writes(
            &[
                undefined_sequence(CONTENT, &[undefined_item(&[])]),
                element(0x0040_A731, "CS", ""),
                uids(0x0070_031A, "1.9.1"),
            ],
            [1, 1, 1, 0],
        )
        .enters(&["1.3"]),
        Edge::new("U11 as many new UIDs as free slots", &[uids(STUDY, "1.2\\1.3\\1.2")])
            .ledger(slots(&["1.1", "", ""]), 1)
            .writes(&[uids(STUDY, "1.9.2\\1.9.3\\1.9.2")], [0, 0, 1, 0])
            .enters(&["1.2", "1.3"]),
        Edge::new("U11 one more", &[uids(STUDY, "1.2\\1.3\\1.4")])
            .ledger(slots(&["1.1", "", "x"]), 1)
            .refused(13, 0),
    ]
}

/// U1 to U4: what a renamed value may hold.
fn values() -> Vec<Edge> {
    let long = "1".repeat(64);
    let good = |name, from: &str, to: &str, new: &[&str]| renamed(name, from, to).enters(new);
    let bad = |name, value: &[u8]| Edge::new(name, &[element(STUDY, "UI", value)]).refused(11, 0);
    vec![
        good("U3 one component", "0", "1.9.1", &["0"]),
        good("U3 zeros", "0.0.10", "1.9.1", &["0.0.10"]),
        good("U4 64 characters", &long, "1.9.1", &[&long]),
        good("U4 64 characters twice", &format!("{long}\\{long}"), "1.9.1\\1.9.1", &[&long]),
        bad("U4 65 characters", &[[b'1'; 65].as_slice(), &[0]].concat()),
        bad("U1 two zero bytes", b"1.2.3\0\0\0"),
        bad("U1 zero bytes alone", b"\0\0"),
        bad("U1 a space", b"1.2.3 "),
        bad("U1 a zero in the middle", b"1.2\x003."),
        bad("U1 an empty part", b"1.2\\\\1.3"),
        bad("U1 a backslash at the end", b"1.2.3\\"),
        bad("U1 a backslash in front", b"\\1.2.3"),
        bad("U1 a backslash and a zero", b"1.23\\\0"),
        bad("U3 leading zero", b"1.02"),
        bad("U3 two zeros", b"00"),
        bad("U3 an empty component", b"1..2"),
        bad("U3 a dot at the end", b"1.2."),
        bad("U3 a letter", b"1.2a"),
        bad("U3 below the digits", b"1./2"),
        bad("U3 above the digits", b"1.:2"),
    ]
}
