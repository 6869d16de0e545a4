//! Kept content as a tree, and data sets made from it: what the tree says is shown in every one of them, while
//! everything that an export hides is made up anew each time.

use crate::pieces::*;
use crate::rng::Rng;

/// An element of kept content, under no options.
#[derive(Clone, Debug)]
pub enum Node {
    Kept {
        tag: u32,
        vr: &'static str,
        value: String,
    },
    /// Z or D: tag and VR only.
    Replaced {
        tag: u32,
        vr: &'static str,
    },
    /// UIDs by numbers of our own.
    Renamed {
        tag: u32,
        uids: Vec<usize>,
    },
    Walked {
        tag: u32,
        items: Vec<Vec<Node>>,
    },
}

const KEPT: [(u32, &str); 3] =
    [(CHARACTER_SET, "CS"), (REFERENCED_SOP_CLASS_UID, "UI"), (PHOTOMETRIC_INTERPRETATION, "CS")];
const REPLACED: [u32; 5] = [
    ACCESSION_NUMBER,
    PATIENT_NAME,
    ACQUISITION_FIELD_OF_VIEW_LABEL,
    CONTAINER_ISSUER_SEQUENCE,
    CONTENT_SEQUENCE,
];
const REPLACED_VRS: [&str; 6] = ["LO", "PN", "DA", "SQ", "US", "UT"];
const RENAMED: [u32; 3] = [SOP_INSTANCE_UID, STUDY_INSTANCE_UID, ANNOTATION_GROUP_UID];
const WALKED: [u32; 2] = [REFERENCED_SERIES_SEQUENCE, REFERENCED_IMAGE_SEQUENCE];
const REMOVED: [u32; 5] = [0x0008_0000, ADMITTING_DIAGNOSES_SEQUENCE, PRIVATE, 0x0010_1010, 0x6000_3000];

impl Node {
    fn tag(&self) -> u32 {
        match self {
            Node::Kept { tag, .. }
            | Node::Replaced { tag, .. }
            | Node::Renamed { tag, .. }
            | Node::Walked { tag, .. } => *tag,
        }
    }
}

/// Some kept content of an item or the top level.
pub fn random_level(rng: &mut Rng, deeper: usize) -> Vec<Node> {
    let mut level = vec![];
    for (tag, vr) in KEPT {
        if rng.one_in(2) {
            level.push(Node::Kept { tag, vr, value: format!("{:04}", rng.below(10_000)) });
        }
    }
    for tag in REPLACED {
        if rng.one_in(3) {
            level.push(Node::Replaced { tag, vr: rng.pick(&REPLACED_VRS) });
        }
    }
    for tag in RENAMED {
        if rng.one_in(2) {
            let uids = (0..rng.below(4)).map(|_| rng.below(6)).collect();
            level.push(Node::Renamed { tag, uids });
        }
    }
    for tag in WALKED {
        if deeper > 0 && rng.one_in(2) {
            let items = (0..rng.below(3)).map(|_| random_level(rng, deeper - 1)).collect();
            level.push(Node::Walked { tag, items });
        }
    }
    level.sort_by_key(Node::tag);
    level
}

/// Changes kept content so that no renaming of UIDs makes it what it was.
pub fn alter(level: &mut Vec<Node>, rng: &mut Rng) {
    if level.is_empty() {
        level.push(Node::Kept { tag: CHARACTER_SET, vr: "CS", value: "ADDED ".into() });
        return;
    }
    let place = rng.below(level.len());
    if rng.one_in(4) {
        level.remove(place);
        return;
    }
    match &mut level[place] {
        Node::Kept { value, .. } => *value = format!("X{}", &value[1..]),
        Node::Replaced { vr, .. } => *vr = if *vr == "LO" { "SH" } else { "LO" },
        Node::Renamed { uids, .. } => uids.push(0),
        Node::Walked { items, .. } => match items.as_mut_slice() {
            [] => items.push(vec![]),
            [first, ..] => alter(first, rng),
        },
    }
}

/// Makes data sets from kept content, with a naming of the UIDs that holds for all of them.
pub struct Maker {
    rng: Rng,
    arc: &'static str,
    factor: usize,
    /// Elements made at the top level and in walked items.
    pub elements: u64,
    /// Those of them that are to be removed.
    pub removed: u64,
}

impl Maker {
    pub fn new(seed: u64) -> Maker {
        let mut rng = Rng::new(seed);
        let arc = rng.pick(&["1.2.840.10008", "2.25", "1.9", "0"]);
        let factor = 1 + rng.below(1_000);
        Maker { rng, arc, factor, elements: 0, removed: 0 }
    }

    pub fn data_set(&mut self, level: &[Node]) -> Bytes {
        let mut elements: Vec<(u32, Bytes)> = vec![];
        for node in level {
            let bytes = self.node(node);
            elements.push((node.tag(), bytes));
        }
        for tag in REMOVED {
            if self.rng.one_in(3) {
                let vr = self.rng.pick(&REPLACED_VRS);
                elements.push((tag, self.hidden(tag, vr)));
                self.removed += 1;
            }
        }
        elements.sort_by_key(|(tag, _)| *tag);
        self.elements += elements.len() as u64;
        elements.into_iter().flat_map(|(_, bytes)| bytes).collect()
    }

    fn node(&mut self, node: &Node) -> Bytes {
        match node {
            Node::Kept { tag, vr, value } => element(*tag, vr, value),
            Node::Replaced { tag, vr } => self.hidden(*tag, vr),
            Node::Renamed { tag, uids } => {
                let text = |uid: &usize| format!("{}.{}", self.arc, uid * self.factor);
                let mut value = uids.iter().map(text).collect::<Vec<_>>().join("\\");
                if value.len() % 2 == 1 {
                    value.push('\0');
                }
                element(*tag, "UI", value)
            }
            Node::Walked { tag, items } => {
                let contents: Vec<Bytes> = items.iter().map(|item| self.data_set(item)).collect();
                self.sequence(*tag, &contents)
            }
        }
    }

    /// An element whose value does not matter.
    fn hidden(&mut self, tag: u32, vr: &str) -> Bytes {
        if vr == "SQ" {
            let inside = element(SOP_INSTANCE_UID, "UI", "not judged");
            let count = self.rng.below(3);
            return self.sequence(tag, &vec![inside; count]);
        }
        let length = 2 * self.rng.below(5);
        let value: Bytes = (0..length).map(|_| self.rng.byte()).collect();
        element(tag, vr, value)
    }

    /// A sequence of items with these contents, each in one of the two length styles.
    fn sequence(&mut self, tag: u32, contents: &[Bytes]) -> Bytes {
        let items: Vec<Bytes> = contents
            .iter()
            .map(|contents| {
                let contents = std::slice::from_ref(contents);
                if self.rng.one_in(2) { item(contents) } else { undefined_item(contents) }
            })
            .collect();
        if self.rng.one_in(2) { sequence(tag, &items) } else { undefined_sequence(tag, &items) }
    }
}
