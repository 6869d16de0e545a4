//! What a seed gives: a data set, how it is lent, and the tags that are asked for.

use crate::damage;
use crate::generate::{DataSet, Taste, rubble};
use crate::lent::Lent;
use crate::pieces::*;
use crate::random::Random;
use crate::tags;

pub struct Case {
    /// How the data set was made, in words.
    pub made: String,
    pub lent: Lent,
    pub tags: Vec<u64>,
}

impl Case {
    pub fn of_seed(seed: u64) -> Case {
        let random = &mut Random::new(seed);
        let kind = random.below(20);
        if kind == 0 {
            return Case::from_rubble(random);
        }
        let (mut set, mut made) = match kind {
            1 => (DataSet::too_deep(random, Taste::SHAPE), String::from("too deep")),
            _ => (DataSet::well_formed(random, Taste::SHAPE), String::from("well-formed")),
        };
        let tags = tags_to_ask(&set, random);
        let whole = set.bytes.clone();
        match kind {
            1 => {
                if random.one_in(2)
                    && let Some(item) = set.first_too_deep()
                {
                    damage::at(&item, &mut set, random);
                    made += ", damaged there";
                }
            }
            6.. => {
                for _ in 0..random.pick(&[1, 1, 1, 1, 2, 3]) {
                    if let Some(damage) = damage::any(&mut set, random) {
                        made += &format!(", {damage:?}");
                    }
                }
            }
            _ => {}
        }
        Case { made, lent: Lent::damaged(&set.bytes, &whole, random), tags }
    }

    /// A short row of bytes without order, or of pieces without order.
    fn from_rubble(random: &mut Random) -> Case {
        let data = rubble(random);
        let first = u64::from(tag_at(&data, 0).unwrap_or(0));
        let tags = vec![first, tags::any(random).into(), ITEM.into()];
        Case { made: "without order".into(), lent: Lent::damaged(&data, &[], random), tags }
    }
}

/// Tags at the top level, in items, absent, never allowed, and numbers that are no tags (V2).
fn tags_to_ask(set: &DataSet, random: &mut Random) -> Vec<u64> {
    let top = set.top_level_tags();
    let inside = set.item_tags();
    let mut tags = Vec::with_capacity(8);
    if let (Some(&first), Some(&last)) = (top.first(), top.last()) {
        tags.extend([random.pick(&[first, last]), random.pick(&top), random.pick(&top)].map(u64::from));
        let near = random.pick(&top);
        tags.push(u64::from(random.pick(&[
            near.wrapping_sub(1),
            near + 1,
            near.rotate_left(16),
            near ^ 0x10,
        ])));
    }
    if !inside.is_empty() {
        tags.extend([random.pick(&inside), random.pick(&inside)].map(u64::from));
    }
    tags.push(tags::any(random).into());
    let some = u64::from(tags[0] as u32);
    tags.push(random.pick(&[
        0,
        ITEM.into(),
        ITEM_END.into(),
        SEQUENCE_END.into(),
        0xFFFF_0001,
        u32::MAX.into(),
        1 << 32 | some,
        some << 32,
        1 << 63 | some,
        0xFFFF_FFFF_0000_0000 | some,
        u64::MAX,
    ]));
    tags
}
