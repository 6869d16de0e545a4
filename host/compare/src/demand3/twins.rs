//! Batches that are like another one: with the same kept content and everything else different, or with one
//! thing changed.

use std::collections::HashMap;

use super::kept::uids_in;
use super::tree::{Contents, Node, tree_of};
use crate::fates::{Fate, Fates};
use crate::generate::{DataSet, Taste};
use crate::pieces::*;
use crate::random::Random;
use crate::tags;
use crate::values::{padded, uid, value};

/// Small data sets that are mostly accepted.
pub const TASTE: Taste = Taste { any_vr: 400, any_spine: 4, judged: 4, sizes: &[5, 10, 20, 30] };

/// Makes a batch with the same kept content, up to one renaming: what is removed comes and goes, what is
/// hidden is made up anew, and UIDs give way to others.
pub struct Twin<'t> {
    pub fates: &'t mut Fates,
    pub random: &'t mut Random,
    /// For each UID met so far, the one in its place.
    others: HashMap<Bytes, Bytes>,
}

impl<'t> Twin<'t> {
    pub fn new(fates: &'t mut Fates, random: &'t mut Random) -> Twin<'t> {
        Twin { fates, random, others: HashMap::new() }
    }

    pub fn batch(&mut self, batch: &[Vec<Node>]) -> Vec<Vec<Node>> {
        batch.iter().map(|nodes| self.level(nodes, true)).collect()
    }

    fn level(&mut self, nodes: &[Node], top: bool) -> Vec<Node> {
        let mut twins = Vec::new();
        for node in nodes {
            match self.fates.of(top, node.tag, node.vr) {
                Fate::Removed if self.random.one_in(2) => {}
                Fate::Removed | Fate::Emptied | Fate::Dummied => {
                    twins.push(Node { contents: self.anything(node.vr), ..node.clone() });
                }
                Fate::Renamed => twins.push(self.renamed(node)),
                Fate::Walked => twins.push(self.walked(node)),
                Fate::Kept | Fate::Shifted | Fate::Refused => twins.push(node.clone()),
            }
        }
        self.add_removed(&mut twins, top);
        twins
    }

    /// More elements that will be removed, where there are none with their tags.
    fn add_removed(&mut self, nodes: &mut Vec<Node>, top: bool) {
        for _ in 0..self.random.below(4) {
            let tag = tags::any(self.random);
            let vr = self.random.pick(&[*b"LO", *b"SQ", *b"UI", *b"OB", *b"DA"]);
            if self.fates.of(top, tag, vr) == Fate::Removed {
                let contents = self.anything(vr);
                put(nodes, Node { tag, vr, contents });
            }
        }
    }

    /// What an element of this VR may hold.
    fn anything(&mut self, vr: [u8; 2]) -> Contents {
        if vr == *b"SQ" {
            let small = Taste { sizes: &[3], ..TASTE };
            let mut item = || tree_of(&DataSet::flat(self.random, small));
            let first = item();
            return Contents::Items(match first.len() % 3 {
                0 => vec![],
                1 => vec![first],
                _ => vec![first, item()],
            });
        }
        Contents::Value(value(std::str::from_utf8(&vr).expect("two letters"), self.random))
    }

    fn renamed(&mut self, node: &Node) -> Node {
        let Contents::Value(old) = &node.contents else { return node.clone() };
        let uids: Vec<Bytes> = uids_in(old).into_iter().map(|uid| self.other(uid)).collect();
        Node { contents: Contents::Value(padded(uids.join(&b'\\'), 0)), ..node.clone() }
    }

    /// The UID in the place of this one, the same each time and in no other's place. The last part tells them apart.
    fn other(&mut self, uid: Bytes) -> Bytes {
        let next = self.others.len();
        let swapped = self.random.pick(&["1.2.840", "2.25", "1.9"]);
        self.others.entry(uid).or_insert_with(|| format!("{swapped}.77.{next}").into()).clone()
    }

    fn walked(&mut self, node: &Node) -> Node {
        let Contents::Items(items) = &node.contents else { return node.clone() };
        let items = items.iter().map(|nodes| self.level(nodes, false)).collect();
        Node { contents: Contents::Items(items), ..node.clone() }
    }
}

/// Puts a node where its tag belongs, unless the tag is there.
fn put(nodes: &mut Vec<Node>, node: Node) {
    if let Err(place) = nodes.binary_search_by_key(&node.tag, |node| node.tag) {
        nodes.insert(place, node);
    }
}

/// Changes one thing, wherever it falls: it may show in kept content or not.
pub fn alter(nodes: &mut Vec<Node>, random: &mut Random) {
    if nodes.is_empty() || random.one_in(12) {
        let tag = tags::any(random);
        let vr = random.pick(&[*b"LO", *b"UI", *b"CS"]);
        let contents = Contents::Value(if vr == *b"UI" { padded(uid(random), 0) } else { b"AB".into() });
        return put(nodes, Node { tag, vr, contents });
    }
    let place = random.below(nodes.len());
    if random.one_in(10) {
        nodes.remove(place);
        return;
    }
    if random.one_in(12) {
        let mut moved = nodes.remove(place);
        let any = tags::any(random);
        moved.tag = random.pick(&[moved.tag + 1, moved.tag - 1, any]).clamp(FIRST_TAG, LAST_TAG);
        return put(nodes, moved);
    }
    let Node { vr, contents, .. } = &mut nodes[place];
    match contents {
        Contents::Items(items) => match random.below(4) {
            0 => items.push(Vec::new()),
            1 if !items.is_empty() => {
                items.remove(random.below(items.len()));
            }
            _ if !items.is_empty() => {
                let item = random.below(items.len());
                alter(&mut items[item], random);
            }
            _ => items.push(Vec::new()),
        },
        Contents::Value(old) => {
            *old = altered_value(*vr, old, random);
            let texts = [*b"LO", *b"SH", *b"ST", *b"UT"];
            if texts.contains(vr) && random.one_in(6) {
                *vr = random.pick(&texts);
            }
        }
    }
}

/// Another value; for UIDs one of them becomes another that the batch may or may not have.
fn altered_value(vr: [u8; 2], old: &[u8], random: &mut Random) -> Bytes {
    if vr == *b"UI" && !old.is_empty() {
        let mut uids = uids_in(old);
        let place = random.below(uids.len());
        match random.below(3) {
            0 => uids.push(uid(random)),
            1 if uids.len() > 1 => {
                uids.remove(place);
            }
            _ => uids[place] = uid(random),
        }
        return padded(uids.join(&b'\\'), 0);
    }
    let mut new = value(std::str::from_utf8(&vr).expect("two letters"), random);
    if new == old {
        new.extend(b"19");
    }
    new
}

/// Puts another UID in the place of one that is renamed, at one place: one that the batch has elsewhere, or a new
/// one. If the old UID stands at that place alone and the other is new, kept content stays the same. Nothing is done
/// to a batch without UIDs.
pub fn alter_uid(batch: &mut [Vec<Node>], fates: &mut Fates, random: &mut Random) {
    let mut values = Vec::new();
    batch.iter_mut().for_each(|nodes| renamed_values(nodes, true, fates, &mut values));
    if values.is_empty() {
        return;
    }
    let all: Vec<Bytes> = values.iter().flat_map(|value| uids_in(value)).collect();
    let value = random.below(values.len());
    let mut uids = uids_in(values[value]);
    let place = random.below(uids.len());
    uids[place] =
        if random.one_in(2) { all[random.below(all.len())].clone() } else { b"2.25.123.321".into() };
    *values[value] = padded(uids.join(&b'\\'), 0);
}

/// The values whose UIDs an export renames.
fn renamed_values<'n>(nodes: &'n mut [Node], top: bool, fates: &mut Fates, values: &mut Vec<&'n mut Bytes>) {
    for node in nodes {
        let fate = fates.of(top, node.tag, node.vr);
        match &mut node.contents {
            Contents::Value(value) if fate == Fate::Renamed && !value.is_empty() => values.push(value),
            Contents::Items(items) if fate == Fate::Walked => {
                items.iter_mut().for_each(|nodes| renamed_values(nodes, false, fates, values));
            }
            _ => {}
        }
    }
}
