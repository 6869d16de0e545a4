//! Hand-made data sets at the edges of document 01's rules for the shape, F1 to F23, and of the view, V1 to
//! V5. Each has its answer beside it, so that the two programs are held to the readings and not only to each
//! other.

use crate::pieces::*;
use crate::view::Answer;

pub struct Edge {
    /// The reading, and the damage or the point.
    pub name: &'static str,
    pub data: Bytes,
    pub tag: u64,
    pub answer: Answer,
}

const SEQ: u32 = 0x0008_1115;
const INNER: u32 = 0x0008_1140;
const MODALITY: u32 = 0x0008_0060;
const NAME: u32 = 0x0010_0010;
const PIXELS: u32 = 0x7FE0_0010;

/// An element of 10 bytes.
fn modality() -> Bytes {
    element(MODALITY, "CS", "MR")
}

/// An element of 10 bytes that goes behind a sequence.
fn name() -> Bytes {
    element(NAME, "PN", "A ")
}

fn open_seq() -> Bytes {
    head(SEQ, "SQ", UNDEFINED)
}

fn open_item() -> Bytes {
    mark(ITEM, UNDEFINED)
}

fn front(bytes: Bytes, size: usize) -> Bytes {
    bytes[..size].to_vec()
}

/// All but the longest. The comment at each group says what the readings decide. F20 is about values too:
/// here it says only that a value is no fault.
pub fn all() -> Vec<Edge> {
    let mut edges = Vec::new();
    let mut refused = |name, pieces: &[Bytes], number, offset| {
        edges.push(Edge {
            name,
            data: pieces.concat(),
            tag: MODALITY.into(),
            answer: Answer::refused(number, offset),
        });
    };

    // F1: a missing end mark is 6 where it should have begun, even at the very end.
    refused("F1 sequence left open", &[open_seq()], 6, 12);
    refused("F1 sequence left open behind an item", &[open_seq(), item(&[])], 6, 20);
    refused("F1 item left open", &[open_seq(), open_item()], 6, 20);
    refused("F1 item left open behind an element", &[open_seq(), open_item(), modality()], 6, 30);
    refused("F1 item closed, sequence left open", &[open_seq(), undefined_item(&[modality()])], 6, 38);
    refused("F1 sequence end cut", &[open_seq(), front(sequence_end(), 7)], 6, 12);
    refused("F1 item end cut", &[open_seq(), open_item(), front(item_end(), 7)], 6, 20);
    refused("F1 sequence end of one byte", &[open_seq(), front(sequence_end(), 1)], 6, 12);
    refused("F1 open in a stated item", &[sequence(SEQ, &[item(&[open_seq()])])], 6, 32);

    // F2: 1 to 7 bytes left over are 6 at their first byte.
    refused("F2 one byte at the top", &[modality(), vec![0xFF; 1]], 6, 10);
    refused("F2 seven bytes at the top", &[modality(), vec![0xFF; 7]], 6, 10);
    refused("F2 one byte alone", &[vec![0]], 6, 0);
    refused("F2 six bytes in a stated sequence", &[sequence(SEQ, &[item(&[]), vec![0; 6]]), name()], 6, 20);
    let six_in_item = sequence(SEQ, &[item(&[modality(), vec![0; 6]])]);
    refused("F2 six bytes in a stated item", &[six_in_item, name()], 6, 30);
    refused("F2 two bytes alone in an item", &[sequence(SEQ, &[item(&[vec![0; 2]])])], 6, 20);
    refused("F2 eight bytes are judged by their tag", &[modality(), vec![0xFF; 8]], 7, 10);

    // F3: an undefined container ends before the nearest stated end.
    let mark_behind = sequence(SEQ, &[item(&[open_seq()]), sequence_end()]);
    refused("F3 end mark behind the stated item", &[mark_behind], 6, 32);
    let undefined_in_stated = sequence(SEQ, &[item(&[open_seq(), open_item(), modality()])]);
    refused("F3 item end behind the stated item", &[undefined_in_stated, item_end(), sequence_end()], 6, 50);
    let header_over = [item(&[front(head(PIXELS, "OB", 0), 8)]), vec![0; 4]];
    refused("F3 header over the stated end", &[sequence(SEQ, &header_over), name()], 6, 20);
    let value_over = sequence(SEQ, &[open_item(), head(MODALITY, "CS", 2)]);
    refused("F3 value over the end around an open item", &[value_over, vec![0; 2], item_end()], 6, 20);

    // F4: a stated length past the container's end is 6 at the one that states it, before what it holds.
    refused("F4 sequence too long", &[modality(), head(SEQ, "SQ", 10), vec![0xFF; 8]], 6, 10);
    refused("F4 item too long for its sequence", &[sequence(SEQ, &[mark(ITEM, 2)]), name()], 6, 12);
    let value_too_long = sequence(SEQ, &[item(&[head(MODALITY, "CS", 2)])]);
    refused("F4 value too long for its item", &[value_too_long, name()], 6, 20);
    refused("F4 value two bytes too long", &[head(PIXELS, "OW", 4), vec![0; 2]], 6, 0);
    refused("F4 the longest even length", &[head(PIXELS, "OW", UNDEFINED - 1), vec![0; 2]], 6, 0);
    refused("F4 the longest short length", &[head(MODALITY, "CS", 0xFFFE), vec![0; 4]], 6, 0);
    refused("F4 item with the longest even length", &[open_seq(), mark(ITEM, UNDEFINED - 1)], 6, 12);

    // F5: an end mark in a stated container is 7, even if it just fills it and whatever its length.
    refused("F5 item end in an empty stated item", &[sequence(SEQ, &[item(&[item_end()])])], 7, 20);
    refused("F5 item end in a stated item", &[sequence(SEQ, &[item(&[modality(), item_end()])])], 7, 30);
    refused("F5 sequence end in an empty stated sequence", &[sequence(SEQ, &[sequence_end()])], 7, 12);
    refused("F5 sequence end in a stated sequence", &[sequence(SEQ, &[item(&[]), sequence_end()])], 7, 20);
    refused("F5 item end of length 3", &[sequence(SEQ, &[item(&[mark(ITEM_END, 3)])])], 7, 20);
    refused("F5 sequence end of length 3", &[sequence(SEQ, &[mark(SEQUENCE_END, 3)])], 7, 12);
    refused("F5 stated item in an open sequence", &[undefined_sequence(SEQ, &[item(&[item_end()])])], 7, 20);

    // F6: the wrong mark, an item or an element where it does not belong is 7.
    refused("F6 sequence end in an open item", &[open_seq(), open_item(), sequence_end()], 7, 20);
    refused("F6 item in an open item", &[open_seq(), open_item(), item(&[])], 7, 20);
    refused("F6 item end in an open sequence", &[open_seq(), item_end()], 7, 12);
    refused("F6 element in an open sequence", &[open_seq(), modality()], 7, 12);
    refused("F6 element in a stated sequence", &[sequence(SEQ, &[modality()])], 7, 12);
    refused("F6 item at the top", &[item(&[])], 7, 0);
    refused("F6 item end at the top", &[modality(), item_end()], 7, 10);
    refused("F6 sequence end at the top", &[modality(), sequence_end()], 7, 10);
    refused("F6 sequence end twice", &[undefined_sequence(SEQ, &[]), sequence_end()], 7, 20);
    refused("F6 item end twice", &[open_seq(), undefined_item(&[]), item_end(), sequence_end()], 7, 28);
    refused("F6 another tag of group FFFE", &[mark(0xFFFE_0001, 0)], 7, 0);

    // F7: at an end mark its length is judged after its tag.
    refused("F7 item end of length 2", &[open_seq(), open_item(), mark(ITEM_END, 2)], 9, 20);
    refused("F7 item end of undefined length", &[open_seq(), open_item(), mark(ITEM_END, UNDEFINED)], 9, 20);
    refused("F7 sequence end of length 2", &[open_seq(), item(&[]), mark(SEQUENCE_END, 2)], 9, 20);
    refused("F7 sequence end, only the last byte", &[open_seq(), mark(SEQUENCE_END, 0x0100_0000)], 9, 12);

    // F9, F10: the ninth item is 10 before its own length, at its own offset; 6 and 7 go before.
    refused("F10 nine deep, stated", &[nest(9, SEQ, vec![])], 10, 172);
    refused("F10 nine deep, undefined", &[undefined_nest(9, SEQ, vec![])], 10, 172);
    let ninth = |at_ninth| undefined_nest(8, SEQ, [open_seq(), at_ninth].concat());
    refused("F9 ninth item of odd length", &[ninth(mark(ITEM, 3))], 10, 172);
    refused("F9 ninth item past the end", &[ninth(mark(ITEM, 90))], 10, 172);
    refused("F9 ninth item of 6 bytes", &[nest(8, SEQ, sequence(SEQ, &[front(item(&[]), 6)]))], 6, 172);
    let eight_open = [open_seq(), open_item()].concat().repeat(8);
    refused("F9 ninth item of 7 bytes", &[eight_open, open_seq(), front(item(&[]), 7)], 6, 172);
    refused("F9 wrong tag at the ninth item", &[ninth(item_end())], 7, 172);
    let second_ninth = [nest(8, SEQ, vec![]), nest(9, SEQ + 1, vec![])];
    refused("F10 nine deep behind eight deep", &second_ninth, 10, 160 + 172);

    // F12: hidden places are judged too; these are private, removed by the table, or a curve.
    refused("F12 nine deep in a private sequence", &[nest(9, 0x0009_0010, vec![])], 10, 172);
    let removed = sequence(0x0008_1084, &[item(&[nest(8, SEQ, vec![])])]);
    refused("F12 nine deep in a removed sequence", &[removed], 10, 172);
    refused("F12 fault in a curve", &[sequence(0x5000_0010, &[item(&[head(MODALITY, "cs", 0)])])], 8, 20);

    // F14: tags rise strictly, anew in every item, and on behind a sequence.
    refused("F14 equal tags", &[modality(), modality()], 7, 10);
    refused("F14 falling groups", &[name(), modality()], 7, 10);
    refused("F14 falling elements", &[name(), element(NAME - 1, "PN", "")], 7, 10);
    refused("F14 equal behind a sequence", &[sequence(SEQ, &[]), element(SEQ, "CS", "")], 7, 12);
    refused("F14 equal in an item", &[undefined_sequence(SEQ, &[item(&[modality(), modality()])])], 7, 30);
    refused("F14 falling in an open item", &[open_seq(), open_item(), name(), modality()], 7, 30);
    // Groups are compared before elements, whatever the order of the bytes.
    refused("F14 lower group, higher element", &[name(), element(0x0008_0016, "UI", "")], 7, 10);

    // F15: groups below 0008, FFFE and FFFF.
    refused("F15 tag 0", &[head(0, "UL", 0)], 7, 0);
    refused("F15 group 0002", &[head(0x0002_0010, "UI", 0)], 7, 0);
    refused("F15 group 0007", &[head(0x0007_FFFF, "UI", 0)], 7, 0);
    refused("F15 group FFFE", &[head(0xFFFE_0000, "UI", 0)], 7, 0);
    refused("F15 group FFFF", &[head(0xFFFF_0000, "UI", 0)], 7, 0);
    refused("F15 the last tag of all", &[head(0xFFFF_FFFF, "UI", 0)], 7, 0);
    refused("F15 group 0002 in an item", &[sequence(SEQ, &[item(&[head(0x0002_0010, "UI", 0)])])], 7, 20);
    refused("F15 tag before VR", &[head(0x0002_0010, "XX", 0)], 7, 0);

    // F16: the VR is judged with 8 bytes, before the 12-byte header; lower case is unknown.
    refused("F16 OX in 8 bytes", &[vec![0x08, 0x00, 0x05, 0x00, 0x4F, 0x58, 0x01, 0x00]], 8, 0);
    refused("F16 lower case", &[element(MODALITY, "cs", "MR")], 8, 0);
    refused("F16 half lower case", &[element(MODALITY, "Cs", "MR")], 8, 0);
    refused("F16 letters exchanged", &[element(MODALITY, "QS", "MR")], 8, 0);
    refused("F16 zero letters", &[element(MODALITY, "\0\0", "")], 8, 0);
    refused("F16 long header of 8 bytes", &[front(head(PIXELS, "OB", 0), 8)], 6, 0);
    refused("F16 long header of 11 bytes", &[front(head(PIXELS, "SQ", 0), 11)], 6, 0);
    refused("F16 VR before odd length", &[element(MODALITY, "XX", "M")], 8, 0);

    // F17: the two zero bytes, once all 12 are there, and before the length.
    refused("F17 first zero byte", &[vec![0x08, 0, 5, 0, b'O', b'B', 1, 0, 0, 0, 0, 0]], 8, 0);
    refused("F17 second zero byte", &[vec![0x08, 0, 5, 0, b'O', b'B', 0, 1, 0, 0, 0, 0]], 8, 0);
    refused("F17 zero bytes before the length", &[vec![0x08, 0, 5, 0, b'U', b'T', 0, 1, 1, 0, 0, 0]], 8, 0);
    refused("F17 zero bytes of a sequence", &[vec![0x08, 0, 5, 0, b'S', b'Q', 0, 1, 0, 0, 0, 0]], 8, 0);
    refused("F17 zero bytes in a header of 11", &[vec![0x08, 0, 5, 0, b'O', b'B', 1, 0, 0, 0, 0]], 6, 0);

    // F18: undefined length on anything but a sequence or an item.
    refused("F18 UN of undefined length", &[head(PIXELS, "UN", UNDEFINED), sequence_end()], 9, 0);
    refused("F18 OB of undefined length", &[head(PIXELS, "OB", UNDEFINED), item(&[]), sequence_end()], 9, 0);
    refused("F18 short length FFFF", &[head(MODALITY, "CS", 0xFFFF)], 9, 0);

    // F19: odd before past the end, for items as well.
    refused("F19 odd length", &[element(MODALITY, "CS", "M")], 9, 0);
    refused("F19 odd length past the end", &[head(MODALITY, "CS", 9)], 9, 0);
    refused("F19 odd long length past the end", &[head(PIXELS, "OB", 0x7FFF_FFFF)], 9, 0);
    refused("F19 odd sequence past the end", &[head(SEQ, "SQ", 0xFFFF_FFFD)], 9, 0);
    refused("F19 odd item", &[open_seq(), mark(ITEM, 1), vec![0]], 9, 12);
    refused("F19 odd item past the end", &[open_seq(), mark(ITEM, 0x1_0001)], 9, 12);

    // F20: a fault of shape behind a value that no export could take.
    refused("F20 shape behind a bad UID", &[element(0x0008_0018, "UI", "bad!"), vec![0; 8]], 7, 12);

    // F23: the first fault front to back; a sequence's header, then its contents, then what follows.
    refused("F23 header before contents", &[element(SEQ, "SQ", [0; 9])], 9, 0);
    let falling = sequence(SEQ, &[item(&[name(), modality()])]);
    refused("F23 contents before what follows", &[falling, modality()], 7, 30);
    refused("F23 what follows", &[sequence(SEQ, &[item(&[name()])]), modality()], 7, 30);
    refused("F23 a fault of a later kind further in front", &[nest(9, SEQ, vec![]), vec![0]], 10, 172);

    // V1: the whole shape is judged first, also behind the element asked for.
    refused("V1 fault behind what is asked for", &[modality(), vec![0; 3]], 6, 10);
    refused("V1 deep fault behind what is asked for", &[modality(), nest(9, SEQ, vec![])], 10, 182);

    let mut found = |name, pieces: &[Bytes], tag: u32, start, length| {
        edges.push(Edge {
            name,
            data: pieces.concat(),
            tag: tag.into(),
            answer: Answer::found(start, length),
        });
    };

    found("F4 a length that just fills", &[sequence(SEQ, &[item(&[modality()])])], SEQ, 12, 18);
    // F8: a mark at the ninth level is no item.
    let open_at_eight = nest(8, SEQ, undefined_sequence(SEQ, &[]));
    found("F8 open sequence eight deep", &[open_at_eight], SEQ, 12, 7 * 20 + 8 + 20);
    found("F8 stated sequence eight deep", &[nest(8, SEQ, sequence(SEQ, &[]))], SEQ, 12, 7 * 20 + 8 + 12);
    // F11: items of a top-level sequence are 1 deep.
    found("F11 eight deep, stated", &[nest(8, SEQ, modality())], SEQ, 12, 7 * 20 + 8 + 10);
    found("F11 eight deep, undefined", &[undefined_nest(8, SEQ, modality())], SEQ, 12, 7 * 36 + 8 + 10 + 16);
    // F13: nothing in a container.
    found("F13 stated sequence of length 0", &[sequence(SEQ, &[]), name()], SEQ, 12, 0);
    found("F13 open sequence with its mark alone", &[undefined_sequence(SEQ, &[]), name()], SEQ, 12, 8);
    found("F13 stated item of length 0", &[sequence(SEQ, &[item(&[])])], SEQ, 12, 8);
    found("F13 open item with its mark alone", &[sequence(SEQ, &[undefined_item(&[])])], SEQ, 12, 16);
    let empty_items = [item(&[]), undefined_item(&[]), item(&[])];
    found("F13 empty items one by one", &[undefined_sequence(SEQ, &empty_items)], SEQ, 12, 40);
    // F14: anew in every item; on at the same level.
    let items = [item(&[modality(), name()]), undefined_item(&[modality()]), item(&[modality()])];
    let behind_items = 12 + 28 + 26 + 18;
    found("F14 tags rise anew in every item", &[sequence(SEQ, &items), name()], NAME, behind_items + 8, 2);
    let next = element(MODALITY + 1, "CS", "");
    found("F14 elements rise within a group", &[modality(), next], MODALITY + 1, 18, 0);
    found("F14 higher group, lower element", &[element(0x0008_0016, "UI", ""), name()], NAME, 16, 2);
    // F15: the edges of what is allowed.
    found("F15 first tag of group 0008", &[element(FIRST_TAG, "UL", [0; 4])], FIRST_TAG, 8, 4);
    found("F15 last tag of group FFFD", &[element(LAST_TAG, "LO", "")], LAST_TAG, 8, 0);
    let high = [element(0xFFFA_0001, "LO", ""), element(0xFFFC_FFFC, "OB", "")];
    found("F15 groups FFFA and FFFC", &high, 0xFFFC_FFFC, 20, 0);
    // F21: values are never looked into.
    let looks = element(PIXELS, "OB", [item_end(), sequence_end(), modality()].concat());
    let open_with_looks = undefined_sequence(SEQ, &[undefined_item(&[looks])]);
    found("F21 marks in a value", &[open_with_looks], SEQ, 12, 8 + 12 + 26 + 16);
    found("F21 a value like an open sequence", &[element(PIXELS, "UN", open_seq())], PIXELS, 12, 12);
    // V2 to V5.
    let inside_and_on_top = [sequence(SEQ, &[item(&[name()])]), element(NAME, "PN", "Top ")];
    found("V2 inside an item and at the top", &inside_and_on_top, NAME, 38, 4);
    found("V3 value behind a long header", &[modality(), element(PIXELS, "OW", [7; 6])], PIXELS, 22, 6);
    let open_with_item = undefined_sequence(SEQ, &[undefined_item(&[modality()])]);
    found("V3 open sequence with its end mark", &[open_with_item.clone(), name()], SEQ, 12, 34);
    found("V3 inner end marks are no end", &[undefined_nest(2, SEQ, vec![]), name()], SEQ, 12, 60);
    found("V4 an empty value is found", &[modality(), element(NAME, "PN", "")], NAME, 18, 0);
    found("V5 values are not judged", &[element(0x0008_0020, "DA", "any day!")], 0x0008_0020, 8, 8);

    let mut absent = |name, pieces: &[Bytes], tag| {
        edges.push(Edge { name, data: pieces.concat(), tag, answer: Answer::ABSENT });
    };

    absent("V2 nothing at all", &[], MODALITY.into());
    absent("V2 only in an item", &[open_with_item, name()], MODALITY.into());
    absent("V2 only in an inner sequence's item", &[nest(2, SEQ, sequence(INNER, &[]))], INNER.into());
    absent("V2 an item's tag", &[undefined_nest(1, SEQ, modality())], ITEM.into());
    absent("V2 an item end's tag", &[undefined_nest(1, SEQ, modality())], ITEM_END.into());
    absent("V2 a sequence end's tag", &[undefined_nest(1, SEQ, modality())], SEQUENCE_END.into());
    absent("V2 tag 0", &[modality()], 0);
    absent("V2 the tag with its halves exchanged", &[modality()], u64::from(MODALITY.rotate_left(16)));
    absent("V2 a number above 32 bits", &[modality()], 1 << 32 | u64::from(MODALITY));
    absent("V2 the greatest number", &[element(LAST_TAG, "LO", "")], u64::MAX);
    edges
}

/// F22: the longest data set, and one that is a byte longer. All but the header is zeros that nobody touches,
/// so that the machine need not find room for them.
pub fn longest() -> Vec<Edge> {
    let long = |name, size, front: &[u8], answer| {
        let mut data = vec![0; size];
        data[..front.len()].copy_from_slice(front);
        Edge { name, data, tag: PIXELS.into(), answer }
    };
    const LONGEST: usize = 268_435_456;
    let filling = head(PIXELS, "OB", 268_435_444);
    vec![
        long("F22 exactly the longest", LONGEST, &filling, Answer::found(12, 268_435_444)),
        long("F22 exactly the longest, zeros", LONGEST, &[], Answer::refused(7, 0)),
        long("F22 a byte too long", LONGEST + 1, &filling, Answer::refused(5, 0)),
        long("F22 a byte too long, zeros", LONGEST + 1, &[], Answer::refused(5, 0)),
    ]
}
