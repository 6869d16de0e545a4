//! Kept content, as document 01 defines it, with UIDs as numbers by their first appearance in the batch: two
//! batches have equal kept content up to one one-to-one renaming exactly if they are equal in this form.

use std::collections::HashMap;

use super::tree::{Contents, Node};
use crate::fates::{Fate, Fates};
use crate::pieces::Bytes;

#[derive(Debug, PartialEq, Eq)]
pub struct Kept {
    tag: u32,
    vr: [u8; 2],
    shown: Shown,
}

#[derive(Debug, PartialEq, Eq)]
enum Shown {
    /// Tag and VR only.
    Nothing,
    Value(Bytes),
    Uids(Vec<usize>),
    Items(Vec<Vec<Kept>>),
}

/// The kept content of a batch that is accepted.
pub fn content(batch: &[Vec<Node>], fates: &mut Fates) -> Vec<Vec<Kept>> {
    let mut numbers = HashMap::new();
    batch.iter().map(|nodes| level(nodes, true, fates, &mut numbers)).collect()
}

fn level(nodes: &[Node], top: bool, fates: &mut Fates, numbers: &mut HashMap<Bytes, usize>) -> Vec<Kept> {
    let mut kept = Vec::new();
    for Node { tag, vr, contents } in nodes {
        let shown = match (fates.of(top, *tag, *vr), contents) {
            (Fate::Removed, _) => continue,
            (Fate::Emptied | Fate::Dummied, _) => Shown::Nothing,
            (Fate::Kept | Fate::Shifted, Contents::Value(value)) => Shown::Value(value.clone()),
            (Fate::Renamed, Contents::Value(value)) => {
                let mut number = |uid: Bytes| {
                    let next = numbers.len();
                    *numbers.entry(uid).or_insert(next)
                };
                Shown::Uids(uids_in(value).into_iter().map(&mut number).collect())
            }
            (Fate::Walked, Contents::Items(items)) => {
                Shown::Items(items.iter().map(|nodes| level(nodes, false, fates, numbers)).collect())
            }
            (fate, _) => unreachable!("{fate:?} at {tag:08X} in a batch that is accepted"),
        };
        kept.push(Kept { tag: *tag, vr: *vr, shown });
    }
    kept
}

/// The UIDs of a value that may be renamed.
pub fn uids_in(value: &[u8]) -> Vec<Bytes> {
    if value.is_empty() {
        return Vec::new();
    }
    let text = value.strip_suffix(&[0]).unwrap_or(value);
    text.split(|&byte| byte == b'\\').map(<[u8]>::to_vec).collect()
}
