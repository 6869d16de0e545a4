//! The bytes of the output (document 01, "What each action writes").

use crate::layout::{ITEM, ITEM_END, SEQUENCE_END, UNDEFINED_LENGTH};
use crate::options::{BASIC_PROFILE, Code, Options};
use crate::refusal::{Reason, Refusal};
use crate::vr::Vr;

/// The output buffer, filled from the front.
pub struct Output<'r> {
    room: &'r mut [u8],
    /// Bytes written, or, once there were more than the room takes, bytes that would have been.
    length: usize,
}

impl<'r> Output<'r> {
    pub fn new(room: &'r mut [u8]) -> Output<'r> {
        Output { room, length: 0 }
    }

    /// Appends bytes. From the first piece on that does not fit nothing is written any more, only counted: as the
    /// length only grows, no later piece can fit either.
    pub fn put(&mut self, bytes: &[u8]) {
        let end = self.length + bytes.len();
        if let Some(place) = self.room.get_mut(self.length..end) {
            place.copy_from_slice(bytes);
        }
        self.length = end;
    }

    /// An element with a value, which is padded to even length.
    pub fn element(&mut self, tag: u32, vr: Vr, value: &[u8]) {
        let is_odd = !value.len().is_multiple_of(2);
        let length = value.len() + usize::from(is_odd);
        self.header(tag, vr, length as u32);
        self.put(value);
        if is_odd {
            self.put(&[vr.padding()]);
        }
    }

    /// A sequence without items: length 0 and no end mark (W2).
    pub fn empty_sequence(&mut self, tag: u32) {
        self.header(tag, Vr::SQ, 0);
    }

    /// The head of a sequence with items.
    pub fn open_sequence(&mut self, tag: u32) {
        self.header(tag, Vr::SQ, UNDEFINED_LENGTH);
    }

    pub fn close_sequence(&mut self) {
        self.delimiter(SEQUENCE_END, 0);
    }

    pub fn open_item(&mut self) {
        self.delimiter(ITEM, UNDEFINED_LENGTH);
    }

    pub fn close_item(&mut self) {
        self.delimiter(ITEM_END, 0);
    }

    /// One of the elements the top level gains.
    pub fn marker(&mut self, marker: Marker, options: Options) {
        let tag = marker.tag();
        match marker {
            Marker::PatientIdentityRemoved => self.element(tag, Vr::CS, b"YES"),
            Marker::MethodCodes => self.method_codes(tag, options),
            Marker::DatesModified => self.element(tag, Vr::CS, options.dates_word().as_bytes()),
        }
    }

    /// An item for the basic profile, then one for each option by rising code.
    fn method_codes(&mut self, tag: u32, options: Options) {
        self.open_sequence(tag);
        self.code_item(BASIC_PROFILE);
        for choice in options.choices() {
            self.code_item(choice.code());
        }
        self.close_sequence();
    }

    fn code_item(&mut self, code: Code) {
        self.open_item();
        self.element(CODE_VALUE, Vr::SH, code.value.as_bytes());
        self.element(CODING_SCHEME_DESIGNATOR, Vr::SH, b"DCM");
        self.element(CODE_MEANING, Vr::LO, code.meaning.as_bytes());
        self.close_item();
    }

    /// Refusal 14 if the room was too small; else the length written, with zeros in the room after it (R7).
    pub fn finish(self) -> Result<usize, Refusal> {
        let Some(unused) = self.room.get_mut(self.length..) else {
            return Err(Refusal::without_place(Reason::NoRoom));
        };
        unused.fill(0);
        Ok(self.length)
    }

    fn header(&mut self, tag: u32, vr: Vr, length: u32) {
        let [group_low, group_high, element_low, element_high] = tag_bytes(tag);
        let [first, second] = vr.letters();
        let [a, b, c, d] = length.to_le_bytes();
        if vr.has_long_header() {
            self.put(&[group_low, group_high, element_low, element_high, first, second, 0, 0, a, b, c, d]);
        } else {
            // List values, dummies, renamed and shifted values all have lengths of two bytes (W18).
            self.put(&[group_low, group_high, element_low, element_high, first, second, a, b]);
        }
    }

    /// An item header or an end mark.
    fn delimiter(&mut self, tag: u32, length: u32) {
        let [group_low, group_high, element_low, element_high] = tag_bytes(tag);
        let [a, b, c, d] = length.to_le_bytes();
        self.put(&[group_low, group_high, element_low, element_high, a, b, c, d]);
    }
}

/// Group, then element, each with its low byte first.
fn tag_bytes(tag: u32) -> [u8; 4] {
    tag.rotate_left(16).to_le_bytes()
}

const CODE_VALUE: u32 = 0x0008_0100;
const CODING_SCHEME_DESIGNATOR: u32 = 0x0008_0102;
const CODE_MEANING: u32 = 0x0008_0104;

/// The elements that the top level gains.
#[derive(Clone, Copy, Debug, PartialEq, Eq)]
pub enum Marker {
    PatientIdentityRemoved,
    MethodCodes,
    DatesModified,
}

impl Marker {
    /// All of them, in tag order.
    pub const ALL: &[Marker] = &[Marker::PatientIdentityRemoved, Marker::MethodCodes, Marker::DatesModified];

    pub fn tag(self) -> u32 {
        match self {
            Marker::PatientIdentityRemoved => 0x0012_0062,
            Marker::MethodCodes => 0x0012_0064,
            Marker::DatesModified => 0x0028_0303,
        }
    }
}
