//! Values for generated elements: what a VR holds, mostly as PS3.5 would have it, always of even length; and
//! values at the edges of the rules for UIDs and dates.

use crate::pieces::*;
use crate::random::Random;

/// A value for an element with this VR, which is not SQ.
pub fn value(vr: &str, random: &mut Random) -> Bytes {
    if random.one_in(6) {
        return Bytes::new();
    }
    if random.one_in(500) {
        let size = 2 * random.below(32_768);
        return random.bytes(size);
    }
    match vr {
        "UI" => padded(several(random, uid), 0),
        "DA" => padded(several(random, date), b' '),
        "TM" => padded(several(random, time), b' '),
        "DT" => padded(several(random, date_time), b' '),
        "AS" => format!("{:03}{}", random.below(120), random.pick(&["D", "W", "M", "Y"])).into_bytes(),
        "DS" | "IS" => padded(several(random, |random| random.below(100_000).to_string().into()), b' '),
        "OB" | "UN" | "OW" if random.one_in(3) => looks_like_structure(random),
        "US" | "SS" | "OB" | "OW" | "UN" => numbers(random, 2),
        "AT" | "FL" | "OF" | "OL" | "SL" | "UL" => numbers(random, 4),
        "FD" | "OD" | "OV" | "SV" | "UV" => numbers(random, 8),
        _ => padded(text(random), b' '),
    }
}

pub fn padded(mut text: Bytes, padding: u8) -> Bytes {
    if !text.len().is_multiple_of(2) {
        text.push(padding);
    }
    text
}

/// One value mostly, else up to four, joined by backslashes.
fn several(random: &mut Random, one: impl Fn(&mut Random) -> Bytes) -> Bytes {
    let count = random.pick(&[1, 1, 1, 1, 2, 3, 4]);
    let values: Vec<Bytes> = (0..count).map(|_| one(random)).collect();
    values.join(&b'\\')
}

/// One of few UIDs, so that the same ones come back; now and then one of 64 characters.
pub fn uid(random: &mut Random) -> Bytes {
    if random.one_in(30) {
        let mut uid = b"1.2.840.10008.".repeat(5);
        uid.truncate(60);
        uid.extend(random.pick(&[*b"1234", *b"1235", *b"77.0"]));
        return uid;
    }
    let mut uid = random.pick(&["1.2", "1.2.840.10008.5.1.4", "2.25", "0"]).to_string();
    for _ in 0..random.below(4) {
        uid += &format!(".{}", random.pick(&[0, 1, 7, 12, 999, 4_000_000_000_u32]));
    }
    uid.into()
}

fn date(random: &mut Random) -> Bytes {
    let day = random.pick(&["0101", "0228", "0301", "1231", "0630"]);
    let year = match random.below(8) {
        0 => 1 + random.below(9_999),
        1 => random.pick(&[1600, 1900, 2000, 2100]),
        _ => 1_900 + random.below(150),
    };
    format!("{year:04}{day}").into()
}

fn time(random: &mut Random) -> Bytes {
    format!("{:02}{:02}{:02}", random.below(24), random.below(60), random.below(60)).into()
}

/// Behind the date anything may stand (D4).
fn date_time(random: &mut Random) -> Bytes {
    let rest = match random.below(4) {
        0 => Bytes::new(),
        1 => random.pick(&["-0500", ".5", " ", "\0\0", "!x"]).into(),
        _ => time(random),
    };
    [date(random), rest].concat()
}

fn text(random: &mut Random) -> Bytes {
    (0..random.below(20)).map(|_| random.pick(b"ABCDEFGabcdefg0123456789^ .-")).collect()
}

fn numbers(random: &mut Random, width: usize) -> Bytes {
    let count = 1 + random.below(4);
    random.bytes(count * width)
}

/// Marks, items and elements that are nothing but a value (F21).
fn looks_like_structure(random: &mut Random) -> Bytes {
    let pieces = [
        item_end(),
        sequence_end(),
        item(&[]),
        mark(ITEM, UNDEFINED),
        element(0x0010_0010, "PN", "Doe^Jane"),
        head(0x0008_1115, "SQ", UNDEFINED),
        vec![0xFF; 4],
    ];
    (0..1 + random.below(4)).flat_map(|_| pieces[random.below(pieces.len())].clone()).collect()
}

/// A value for UI, DA or DT near the edge of what may be renamed or shifted, of even length; or the old one
/// with a byte changed.
pub fn odd_value(vr: [u8; 2], old: &[u8], random: &mut Random) -> Bytes {
    if !old.is_empty() && random.one_in(3) {
        let mut value = old.to_vec();
        let any = random.below(old.len());
        let at = random.pick(&[0, old.len() - 1, any]);
        value[at] = random.pick(&[0, b' ', b'\\', b'.', b'0', b'/', b':', b'-', b'9', 0xFF]);
        return value;
    }
    match &vr {
        b"UI" => odd_uids(random),
        _ => odd_dates(random),
    }
}

fn odd_uids(random: &mut Random) -> Bytes {
    // 1,000 UIDs are the most; short ones only, since the length field has two bytes.
    if random.one_in(12) {
        let count = random.pick(&[999, 1_000, 1_000, 1_001, 1_002]);
        let different = random.one_in(2);
        let uids: Vec<Bytes> = (0..count)
            .map(|number| if different { number.to_string().into() } else { b"7".into() })
            .collect();
        return padded(uids.join(&b'\\'), 0);
    }
    let long = |size| Bytes::from("1".repeat(size));
    let texts: [Bytes; 30] = [
        long(64),
        long(65),
        long(66),
        [long(64), long(64)].join(&b'\\'),
        [b"1.2".into(), long(65)].join(&b'\\'),
        b"\0\0".into(),
        b"0\0".into(),
        b"00".into(),
        b"01".into(),
        b"1.0".into(),
        b"1.00".into(),
        b"1.02.3".into(),
        b"1.".into(),
        b".1".into(),
        b"1..2".into(),
        b"1.2 ".into(),
        b" 1.2".into(),
        b"1.2\0\0\0".into(),
        b"1.2.3\0 ".into(),
        b"1\0.2".into(),
        b"\\".into(),
        b"1\\".into(),
        b"\\1".into(),
        b"1.2\\\\1.3".into(),
        b"1.2\\1.3\\".into(),
        b"1.2/3".into(),
        b"1.2:3".into(),
        b"1.2a".into(),
        b"1.2.-3".into(),
        b"1\\2\\1\\3".into(),
    ];
    padded(texts[random.below(texts.len())].clone(), random.pick(&[0, 0, 0, b' ', b'1']))
}

fn odd_dates(random: &mut Random) -> Bytes {
    const TEXTS: [&str; 36] = [
        "00010101",
        "00010102",
        "99991231",
        "99991230",
        "00000101",
        "20200229",
        "20190229",
        "19000229",
        "20000229",
        "21000229",
        "20200230",
        "20200431",
        "20201301",
        "20200001",
        "20200100",
        "20200132",
        "20200301\\20200302",
        "20200301\\20190229",
        "20200301\\",
        "\\20200301",
        "20200301\\\\20200302",
        "2020",
        "202003",
        "2020030",
        "20200301 ",
        "20200301  ",
        " ",
        "  ",
        "2020.03.01",
        "20200301-20200302",
        "2020030a",
        "20200301\0",
        "2020/301",
        "2020:301",
        "+2020301",
        "20200301-0500\\2020",
    ];
    padded(random.pick(&TEXTS).into(), random.pick(&[b' ', b' ', 0, b'0']))
}
