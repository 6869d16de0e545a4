//! Replacement lists, right and wrong (document 01, "UIDs, dates, lists", last paragraph; L1 to L5).

use std::collections::BTreeSet;

use crate::pieces::Bytes;
use crate::random::Random;
use crate::tags;

/// A number in groups of seven bits, lowest first, in the fewest groups.
fn number(mut number: u64) -> Bytes {
    let mut groups = Bytes::new();
    while number >= 0x80 {
        groups.push(number as u8 | 0x80);
        number >>= 7;
    }
    groups.push(number as u8);
    groups
}

/// One entry.
pub fn entry(tag: u32, value: impl AsRef<[u8]>) -> Bytes {
    let value = value.as_ref();
    [number(tag.into()), number(value.len() as u64), value.to_vec()].concat()
}

/// A list that keeps the rule, with some of these tags in it.
pub fn any(random: &mut Random, tags: &[u32]) -> Bytes {
    let count = random.pick(&[0, 0, 1, 3, 10, 10, 30]);
    let count = if random.one_in(100) { 256 } else { count };
    let mut chosen = BTreeSet::new();
    while chosen.len() < count {
        let other = tags::any(random);
        let seldom = random.pick(&[0, u32::MAX, 0xFFFE_E000, 0x7F, 0x80, 0x0009_0010]);
        chosen.insert(match random.below(12) {
            0 => seldom,
            1..=7 if !tags.is_empty() && chosen.len() < tags.len() => random.pick(tags),
            _ => other,
        });
    }
    chosen.into_iter().flat_map(|tag| entry(tag, value(random))).collect()
}

fn value(random: &mut Random) -> Bytes {
    let size = random.pick(&[1, 2, 4, 5, 8, 63, 64]);
    let characters = b"SUBJ7 anon^[]~}{!/0123456789\x20\x7E\x5B\x5D";
    (0..size).map(|_| random.pick(characters)).collect()
}

/// A list that breaks the rule in one thing.
pub fn wrong(random: &mut Random) -> Bytes {
    const TAG: u32 = 0x0010_0010;
    let good = entry(TAG, "SUBJ7");
    let after = |bytes: &[u8]| [&good[..], bytes].concat();
    let tag_alone = number(TAG.into());
    let many = |count: u32| (0..count).flat_map(|tag| entry(TAG + tag, "A")).collect::<Bytes>();
    let lists: [Bytes; 25] = [
        // a value that is empty or too long
        entry(TAG, ""),
        entry(TAG, [b'A'; 65]),
        entry(TAG, [b'A'; 128]),
        // characters
        entry(TAG, "A\x1F"),
        entry(TAG, "A\x7F"),
        entry(TAG, "A\\B"),
        entry(TAG, b"A\x80"),
        entry(TAG, "\0A"),
        // equal and falling tags
        after(&good),
        after(&entry(TAG - 1, "A")),
        after(&entry(0, "A")),
        // too many entries
        many(257),
        many(300),
        // numbers in more groups than needed, or above the highest tag
        [&[0x90, 0x80, 0xC0, 0x00, 5][..], b"SUBJ7"].concat(),
        [&tag_alone[..], &[0x85, 0x00], b"SUBJ7"].concat(),
        [&[0x80, 0x00, 1][..], b"A"].concat(),
        [&[0x80, 0x80, 0x80, 0x80, 0x10, 1][..], b"A"].concat(),
        [&[0xFF, 0xFF, 0xFF, 0xFF, 0x1F, 1][..], b"A"].concat(),
        [&[0xFF; 9][..], &[0x01, 1], b"A"].concat(),
        [&[0xFF; 10][..], &[0x01, 1], b"A"].concat(),
        [&tag_alone[..], &[0x81, 0x80, 0x80, 0x80, 0x80, 0x80, 0x80, 0x80, 0x80, 0x80, 0x80, 0x00]].concat(),
        // cut
        good[..good.len() - 1 - random.below(good.len() - 1)].to_vec(),
        after(&good[..1 + random.below(4)]),
        [&tag_alone[..], &[0x85, 0x80, 0x80]].concat(),
        after(&[0]),
    ];
    lists[random.below(lists.len())].clone()
}
