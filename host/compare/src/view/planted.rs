//! Views with a planted fault, to show that the comparison can fail. Each is the second program's view with
//! its answer changed, or asked about a changed data set, so that it is wrong in one thing and right in all
//! others.

use crate::lent::Lent;
use crate::pieces::*;
use crate::view::{Answer, View, expected};

pub struct Fault {
    pub name: &'static str,
    /// What is wrong, and the reading that it offends.
    pub what: &'static str,
    pub view: View,
}

pub const ALL: [Fault; 22] = [
    Fault { name: "nested-offset", what: "offset of a fault in an item is one more", view: nested_offset },
    Fault { name: "left-open", what: "F1 end marks may be missing at the end", view: left_open },
    Fault { name: "stray-item-end", what: "F5 an item end mark may stand anywhere", view: stray_item_end },
    Fault { name: "end-mark-length", what: "F7 an end mark may have any length", view: end_mark_length },
    Fault { name: "nine-deep", what: "F10 an item 9 deep is let through", view: nine_deep },
    Fault { name: "equal-tags", what: "F14 tags may be equal", view: equal_tags },
    Fault { name: "group-0007", what: "F15 group 0007 is let through", view: group_0007 },
    Fault { name: "group-ffff", what: "F15 group FFFF is let through", view: group_ffff },
    Fault { name: "lower-case", what: "F16 a VR may be in lower case", view: lower_case },
    Fault { name: "zero-bytes", what: "F17 the two zero bytes may be others", view: zero_bytes },
    Fault { name: "un-undefined", what: "F18 UN may have undefined length", view: un_undefined },
    Fault { name: "past-the-end-first", what: "F19 past the end goes before odd", view: past_the_end_first },
    Fault { name: "longest-refused", what: "F22 268,435,456 bytes are too long", view: longest_refused },
    Fault { name: "too-long-accepted", what: "F22 268,435,457 bytes are looked at", view: too_long_accepted },
    Fault { name: "reads-on", what: "bytes past the end are read", view: reads_on },
    Fault { name: "front-only", what: "V1 what is behind the element is not judged", view: front_only },
    Fault { name: "stale-part", what: "V1 a part is shown beside a refusal", view: stale_part },
    Fault { name: "found-in-items", what: "V2 an element in an item is found", view: found_in_items },
    Fault { name: "tag-cut", what: "V2 the number asked for is cut to 32 bits", view: tag_cut },
    Fault { name: "start-at-header", what: "V3 the part begins at the header", view: start_at_header },
    Fault { name: "end-mark-left-out", what: "V3 its end mark is not in the part", view: end_mark_left_out },
    Fault { name: "empty-is-absent", what: "V4 an empty element is absent", view: empty_is_absent },
];

fn right(lent: &Lent, tag: u64) -> Answer {
    expected(lent.data(), tag)
}

/// Given a data set and the offset of its fault: where to write and what, or none to leave it.
type Repair = fn(&[u8], usize) -> Option<(usize, Bytes)>;

/// The answer once faults of this number are repaired, as far as `repair` says which bytes to write where. A
/// repair that does not take the fault away is left.
fn repaired(lent: &Lent, tag: u64, number: u64, repair: Repair) -> Answer {
    let mut answer = right(lent, tag);
    let mut data = Bytes::new();
    loop {
        let now = if data.is_empty() { lent.data() } else { &data };
        let at = answer.offset as usize;
        let Some((place, bytes)) = (answer.refusal == number).then(|| repair(now, at)).flatten() else {
            return answer;
        };
        let mut changed = now.to_vec();
        changed[place..place + bytes.len()].copy_from_slice(&bytes);
        let next = expected(&changed, tag);
        if next.refusal == number && next.offset <= answer.offset {
            return answer;
        }
        (answer, data) = (next, changed);
    }
}

fn nested_offset(lent: &Lent, tag: u64) -> Answer {
    let mut answer = right(lent, tag);
    let front = lent.data().get(..answer.offset as usize).unwrap_or_default();
    if answer.refusal != 0 && expected(front, tag).refusal != 0 {
        answer.offset += 1;
    }
    answer
}

fn left_open(lent: &Lent, tag: u64) -> Answer {
    let answer = right(lent, tag);
    if answer != Answer::refused(6, lent.data().len() as u64) {
        return answer;
    }
    let mut data = lent.data().to_vec();
    loop {
        let at = data.len();
        data.extend(item_end());
        if expected(&data, tag) == Answer::refused(7, at as u64) {
            data.truncate(at);
            data.extend(sequence_end());
        }
        let answer = expected(&data, tag);
        if answer != Answer::refused(6, data.len() as u64) {
            return answer;
        }
    }
}

fn stray_item_end(lent: &Lent, tag: u64) -> Answer {
    // An empty element has just as many bytes.
    let element_instead =
        |data: &[u8], at| (tag_at(data, at)? == ITEM_END).then(|| (at, element(LAST_TAG, "CS", "")));
    repaired(lent, tag, 7, element_instead)
}

fn end_mark_length(lent: &Lent, tag: u64) -> Answer {
    let zero =
        |data: &[u8], at| matches!(tag_at(data, at)?, ITEM_END | SEQUENCE_END).then(|| (at + 4, vec![0; 4]));
    repaired(lent, tag, 9, zero)
}

fn nine_deep(lent: &Lent, tag: u64) -> Answer {
    let answer = right(lent, tag);
    if answer.refusal == 10 { Answer::ABSENT } else { answer }
}

fn equal_tags(lent: &Lent, tag: u64) -> Answer {
    let next_tag = |data: &[u8], at| {
        let tag = tag_at(data, at)?;
        (tag < LAST_TAG).then(|| (at, tag_bytes(tag + 1).to_vec()))
    };
    repaired(lent, tag, 7, next_tag)
}

fn group_0007(lent: &Lent, tag: u64) -> Answer {
    let first = |data: &[u8], at| (tag_at(data, at)? >> 16 == 7).then(|| (at, tag_bytes(FIRST_TAG).to_vec()));
    repaired(lent, tag, 7, first)
}

fn group_ffff(lent: &Lent, tag: u64) -> Answer {
    let last =
        |data: &[u8], at| (tag_at(data, at)? >> 16 == 0xFFFF).then(|| (at, tag_bytes(LAST_TAG).to_vec()));
    repaired(lent, tag, 7, last)
}

fn lower_case(lent: &Lent, tag: u64) -> Answer {
    let upper = |data: &[u8], at| Some((at + 4, vr_at(data, at)?.to_ascii_uppercase()));
    repaired(lent, tag, 8, upper)
}

fn zero_bytes(lent: &Lent, tag: u64) -> Answer {
    let zeros = |data: &[u8], at| is_known(vr_at(data, at)?).then(|| (at + 6, vec![0; 2]));
    repaired(lent, tag, 8, zeros)
}

fn un_undefined(lent: &Lent, tag: u64) -> Answer {
    let sequence = |data: &[u8], at| {
        (data.get(at + 4..at + 12)? == b"UN\0\0\xFF\xFF\xFF\xFF").then(|| (at + 4, b"SQ".to_vec()))
    };
    repaired(lent, tag, 9, sequence)
}

fn past_the_end_first(lent: &Lent, tag: u64) -> Answer {
    let answer = right(lent, tag);
    let length = |at: usize| {
        let size = header_size(vr_at(lent.data(), at)?);
        let is_item = tag_at(lent.data(), at)? == ITEM;
        let field = if size == 12 || is_item { 4 } else { 2 };
        let mut bytes = [0; 8];
        bytes[..field].copy_from_slice(lent.data().get(at + size - field..at + size)?);
        Some(u64::from_le_bytes(bytes))
    };
    match length(answer.offset as usize) {
        Some(length) if answer.refusal == 9 && length > lent.data().len() as u64 => {
            Answer { refusal: 6, ..answer }
        }
        _ => answer,
    }
}

fn longest_refused(lent: &Lent, tag: u64) -> Answer {
    if lent.data().len() < 268_435_456 { right(lent, tag) } else { Answer::refused(5, 0) }
}

fn too_long_accepted(lent: &Lent, tag: u64) -> Answer {
    let all_but_one = lent.data().len().saturating_sub(1);
    if all_but_one == 268_435_456 { expected(&lent.data()[..all_but_one], tag) } else { right(lent, tag) }
}

fn reads_on(lent: &Lent, tag: u64) -> Answer {
    let answer = right(lent, tag);
    if answer.refusal == 6 { expected(lent.data_and_behind(), tag) } else { answer }
}

fn front_only(lent: &Lent, tag: u64) -> Answer {
    let answer = right(lent, tag);
    let front = expected(&lent.data()[..answer.offset as usize], tag);
    if answer.refusal != 0 && front.found == 1 { front } else { answer }
}

fn stale_part(lent: &Lent, tag: u64) -> Answer {
    let answer = right(lent, tag);
    let front = expected(&lent.data()[..answer.offset as usize], tag);
    if answer.refusal == 0 { answer } else { Answer { start: front.start, length: front.length, ..answer } }
}

fn found_in_items(lent: &Lent, tag: u64) -> Answer {
    let answer = right(lent, tag);
    if answer != Answer::ABSENT {
        return answer;
    }
    let is_it = |&at: &usize| {
        tag_at(lent.data(), at).map(u64::from) == Some(tag) && vr_at(lent.data(), at).is_some_and(is_known)
    };
    match (0..lent.data().len()).find(is_it) {
        Some(at) => Answer::found(at as u64 + 8, 0),
        None => answer,
    }
}

fn tag_cut(lent: &Lent, tag: u64) -> Answer {
    right(lent, tag & 0xFFFF_FFFF)
}

/// Where the header of a part begins that starts here.
fn header_before(data: &[u8], start: usize) -> usize {
    // The letters of a long header stand eight bytes before its end, and in front of two zero bytes.
    let long = start >= 12
        && vr_at(data, start - 12).is_some_and(|vr| header_size(vr) == 12)
        && data[start - 6] == 0;
    start - if long { 12 } else { 8 }
}

fn start_at_header(lent: &Lent, tag: u64) -> Answer {
    let mut answer = right(lent, tag);
    if answer.found == 1 {
        let header = header_before(lent.data(), answer.start as usize) as u64;
        answer.length += answer.start - header;
        answer.start = header;
    }
    answer
}

fn end_mark_left_out(lent: &Lent, tag: u64) -> Answer {
    let mut answer = right(lent, tag);
    let undefined_sequence = |start: usize| lent.data()[..start].ends_with(b"SQ\0\0\xFF\xFF\xFF\xFF");
    if answer.found == 1 && undefined_sequence(answer.start as usize) {
        answer.length -= MARK_SIZE as u64;
    }
    answer
}

fn empty_is_absent(lent: &Lent, tag: u64) -> Answer {
    let answer = right(lent, tag);
    if answer.length == 0 && answer.refusal == 0 { Answer::ABSENT } else { answer }
}
