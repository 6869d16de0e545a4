//! A data set as a tree, to be altered and written again in any length style.

use crate::generate::{DataSet, Kind};
use crate::pieces::*;
use crate::random::Random;

/// An element.
#[derive(Clone, Debug)]
pub struct Node {
    pub tag: u32,
    pub vr: [u8; 2],
    pub contents: Contents,
}

#[derive(Clone, Debug)]
pub enum Contents {
    Value(Bytes),
    Items(Vec<Vec<Node>>),
}

/// The tree of a data set that was generated, by its places.
pub fn tree_of(set: &DataSet) -> Vec<Node> {
    let mut inside: Vec<Vec<usize>> = vec![Vec::new(); set.places.len()];
    let mut top = Vec::new();
    for (index, place) in set.places.iter().enumerate().filter(|(_, place)| !place.is_end_mark()) {
        match place.container {
            Some(container) => inside[container].push(index),
            None => top.push(index),
        }
    }
    level(set, &inside, &top)
}

fn level(set: &DataSet, inside: &[Vec<usize>], indices: &[usize]) -> Vec<Node> {
    let node = |&index: &usize| {
        let place = &set.places[index];
        let contents = if place.kind == Kind::Value {
            Contents::Value(set.bytes[place.at + place.header..place.end].to_vec())
        } else {
            let items = inside[index].iter();
            Contents::Items(items.map(|&item| level(set, inside, &inside[item])).collect())
        };
        let tag = tag_at(&set.bytes, place.at).expect("an element has a tag");
        let vr = vr_at(&set.bytes, place.at).expect("an element has a VR");
        Node { tag, vr, contents }
    };
    indices.iter().map(node).collect()
}

/// The bytes of a tree, each length stated or undefined as it falls out.
pub fn bytes_of(nodes: &[Node], random: &mut Random) -> Bytes {
    nodes.iter().flat_map(|node| node.bytes(random)).collect()
}

impl Node {
    fn bytes(&self, random: &mut Random) -> Bytes {
        let vr = std::str::from_utf8(&self.vr).expect("two letters");
        let items = match &self.contents {
            Contents::Value(value) => return element(self.tag, vr, value),
            Contents::Items(items) => items,
        };
        let items: Vec<Bytes> = items
            .iter()
            .map(|nodes| {
                let contents = [bytes_of(nodes, random)];
                if random.one_in(2) { item(&contents) } else { undefined_item(&contents) }
            })
            .collect();
        if random.one_in(2) { sequence(self.tag, &items) } else { undefined_sequence(self.tag, &items) }
    }
}
