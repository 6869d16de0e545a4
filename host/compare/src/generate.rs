//! Data sets from seeds: well-formed by document 01, "Layout of a data set", or too deep and nothing else.
//!
//! What is made is known place by place (headers, items, marks and what contains them), so that `damage` can
//! strike where it means something and `cases` knows which tags stand at the top level and which in items.

use std::collections::BTreeSet;

use crate::pieces::*;
use crate::random::Random;
use crate::tags;
use crate::values::value;

/// Items nest at most so deep.
pub const DEEPEST: usize = 8;

#[derive(Clone, Copy, Debug, PartialEq, Eq)]
pub enum Kind {
    /// An element that is no sequence.
    Value,
    Sequence,
    Item,
    ItemEnd,
    SequenceEnd,
}

/// Where an element, an item or an end mark stands.
#[derive(Clone, Copy, Debug)]
pub struct Place {
    pub kind: Kind,
    /// Offset of its tag.
    pub at: usize,
    /// Bytes of its header, or of the mark.
    pub header: usize,
    /// Offset past it, an end mark of its own included.
    pub end: usize,
    /// The place of the sequence or item that it stands in; none at the top level.
    pub container: Option<usize>,
    /// A container that an end mark closes.
    pub undefined: bool,
}

impl Place {
    pub fn is_element(&self) -> bool {
        matches!(self.kind, Kind::Value | Kind::Sequence)
    }

    pub fn is_container(&self) -> bool {
        matches!(self.kind, Kind::Sequence | Kind::Item)
    }

    pub fn is_end_mark(&self) -> bool {
        matches!(self.kind, Kind::ItemEnd | Kind::SequenceEnd)
    }
}

/// A data set, and all its places front to back.
#[derive(Clone, Debug, Default)]
pub struct DataSet {
    pub bytes: Bytes,
    pub places: Vec<Place>,
}

/// What the elements of a data set are like.
#[derive(Clone, Copy, Debug)]
pub struct Taste {
    /// One in so many elements has any VR; the others have the one that is usual for their tag.
    pub any_vr: usize,
    /// One in so many sequences that lead down has any tag; the others are walked into by an export.
    pub any_spine: usize,
    /// One in so many tags is one whose UIDs or dates an export looks at.
    pub judged: usize,
    /// How many elements there may be.
    pub sizes: &'static [usize],
}

impl Taste {
    /// For the shape: any VR on any tag.
    pub const SHAPE: Taste = Taste { any_vr: 1, any_spine: 1, judged: 50, sizes: &[10, 30, 30, 60, 60, 500] };
    /// For exports: mostly what an archive would hold, so that most of them succeed.
    pub const EXPORT: Taste =
        Taste { any_vr: 60, any_spine: 4, judged: 5, sizes: &[5, 10, 20, 30, 40, 40, 200] };
}

impl DataSet {
    /// A data set whose shape is accepted: at most 8 items deep, often right so deep.
    pub fn well_formed(random: &mut Random, taste: Taste) -> DataSet {
        let spine = random.pick(&[0, 0, 0, 0, 1, 1, 2, 3, 4, 5, 6, 7, DEEPEST, DEEPEST]);
        Maker::make(random, spine, taste)
    }

    /// A data set that does not go down on purpose.
    pub fn flat(random: &mut Random, taste: Taste) -> DataSet {
        Maker::make(random, 0, taste)
    }

    /// A data set whose only fault of shape is an item 9 deep; another one may stand in it.
    pub fn too_deep(random: &mut Random, taste: Taste) -> DataSet {
        let spine = DEEPEST + 1 + random.below(2);
        Maker::make(random, spine, taste)
    }

    /// The item at fault in a data set that is too deep.
    pub fn first_too_deep(&self) -> Option<Place> {
        let is_it = |&place: &usize| self.places[place].kind == Kind::Item && self.depth(place) == DEEPEST;
        (0..self.places.len()).find(is_it).map(|place| self.places[place])
    }

    /// How many items a place stands in.
    pub fn depth(&self, place: usize) -> usize {
        let around =
            std::iter::successors(self.places[place].container, |&place| self.places[place].container);
        around.filter(|&place| self.places[place].kind == Kind::Item).count()
    }

    pub fn top_level_tags(&self) -> Vec<u32> {
        self.element_tags(|place| place.container.is_none())
    }

    pub fn item_tags(&self) -> Vec<u32> {
        self.element_tags(|place| place.container.is_some())
    }

    fn element_tags(&self, wanted: impl Fn(&Place) -> bool) -> Vec<u32> {
        let places = self.places.iter().filter(|place| place.is_element() && wanted(place));
        places.map(|place| tag_at(&self.bytes, place.at).expect("an element has a tag")).collect()
    }
}

/// Writes a data set front to back.
struct Maker<'r> {
    random: &'r mut Random,
    taste: Taste,
    set: DataSet,
    /// Tags that are liked on every level, so that one tag stands at the top level and in items.
    liked: [u32; 6],
    /// How many elements may still be made, those on the spine apart.
    left: usize,
}

impl Maker<'_> {
    /// A data set with items at least `spine` deep, and deeper than 8 only along the spine.
    fn make(random: &mut Random, spine: usize, taste: Taste) -> DataSet {
        let liked = std::array::from_fn(|_| tags::any(random));
        let left = random.pick(taste.sizes);
        let mut maker = Maker { random, taste, set: DataSet::default(), liked, left };
        maker.level(None, 0, spine);
        maker.set
    }

    /// The elements of the top level or of one item, `depth` items deep.
    fn level(&mut self, container: Option<usize>, depth: usize, spine: usize) {
        let wanted = match self.random.below(40) {
            0 => 100 + self.random.below(300),
            1..=3 => 20 + self.random.below(40),
            4..=8 => 0,
            _ => 1 + self.random.below(8),
        };
        let count = wanted.min(self.left);
        self.left -= count;
        let mut tags = self.rising_tags(count);
        let on_spine = (depth < spine).then(|| self.spine_tag(&mut tags));
        for tag in tags {
            if Some(tag) == on_spine {
                self.sequence(tag, container, depth, spine);
                continue;
            }
            match self.vr(tag) {
                "SQ" => self.sequence(tag, container, depth, 0),
                vr => self.value(tag, vr, container),
            }
        }
    }

    /// Sees that there is a tag for the sequence that leads down.
    fn spine_tag(&mut self, tags: &mut Vec<u32>) -> u32 {
        let any = self.random.one_in(self.taste.any_spine);
        if any && !tags.is_empty() {
            return self.random.pick(tags);
        }
        let tag = if any { tags::any(self.random) } else { tags::walked(self.random) };
        if let Err(place) = tags.binary_search(&tag) {
            tags.insert(place, tag);
        }
        tag
    }

    fn vr(&mut self, tag: u32) -> &'static str {
        match tags::usual_vr(tag) {
            Some(vr) if !self.random.one_in(self.taste.any_vr) => vr,
            _ if self.random.one_in(8) => "SQ",
            _ => {
                let at_any = self.random.below(SHORT_VRS.len() + LONG_VRS.len());
                SHORT_VRS.iter().chain(&LONG_VRS).nth(at_any).expect("one of them")
            }
        }
    }

    fn rising_tags(&mut self, count: usize) -> Vec<u32> {
        if self.random.one_in(20) {
            let first = tags::any(self.random).min(LAST_TAG - 1000);
            return (first..).take(count).collect();
        }
        let mut tags = BTreeSet::new();
        while tags.len() < count {
            let liked = self.random.one_in(4) && tags.len() < self.liked.len();
            tags.insert(match liked {
                true => self.random.pick(&self.liked),
                false if self.random.one_in(self.taste.judged) => tags::judged(self.random),
                false => tags::any(self.random),
            });
        }
        tags.into_iter().collect()
    }

    fn value(&mut self, tag: u32, vr: &str, container: Option<usize>) {
        let value = value(vr, self.random);
        let place = self.begin(Kind::Value, container, false, &head(tag, vr, value.len() as u32));
        self.set.bytes.extend(value);
        self.set.places[place].end = self.set.bytes.len();
    }

    fn sequence(&mut self, tag: u32, container: Option<usize>, depth: usize, spine: usize) {
        let undefined = self.random.one_in(2);
        let header = head(tag, "SQ", if undefined { UNDEFINED } else { 0 });
        let place = self.begin(Kind::Sequence, container, undefined, &header);
        let goes_on = depth < spine;
        let count = match self.random.below(60) {
            _ if goes_on => 1 + self.random.below(3),
            _ if depth >= DEEPEST => 0,
            0 => self.random.below(40),
            1..=15 => 0,
            _ => 1 + self.random.below(3),
        };
        let on_spine = if goes_on { self.random.below(count) } else { usize::MAX };
        for index in 0..count {
            self.item(place, depth + 1, if index == on_spine { spine } else { 0 });
        }
        self.end(place, Kind::SequenceEnd, sequence_end());
    }

    fn item(&mut self, sequence: usize, depth: usize, spine: usize) {
        let undefined = self.random.one_in(2);
        let header = mark(ITEM, if undefined { UNDEFINED } else { 0 });
        let place = self.begin(Kind::Item, Some(sequence), undefined, &header);
        self.level(Some(place), depth, spine);
        self.end(place, Kind::ItemEnd, item_end());
    }

    fn begin(&mut self, kind: Kind, container: Option<usize>, undefined: bool, header: &[u8]) -> usize {
        let at = self.set.bytes.len();
        self.set.bytes.extend(header);
        let end = self.set.bytes.len();
        self.set.places.push(Place { kind, at, header: header.len(), end, container, undefined });
        self.set.places.len() - 1
    }

    /// Ends a container: with its mark, or by stating its length in the last four bytes of its header.
    fn end(&mut self, place: usize, end_kind: Kind, end_mark: Bytes) {
        let Place { at, header, undefined, .. } = self.set.places[place];
        let contents = at + header;
        if undefined {
            self.begin(end_kind, Some(place), false, &end_mark);
        } else {
            let length = (self.set.bytes.len() - contents) as u32;
            self.set.bytes[contents - 4..contents].copy_from_slice(&length.to_le_bytes());
        }
        self.set.places[place].end = self.set.bytes.len();
    }
}

/// A short row of bytes without order, or of pieces without order.
pub fn rubble(random: &mut Random) -> Bytes {
    if random.one_in(2) { random_bytes(random) } else { random_pieces(random) }
}

fn random_bytes(random: &mut Random) -> Bytes {
    let size = random.below(40);
    random.bytes(size)
}

fn random_pieces(random: &mut Random) -> Bytes {
    let mut data = Bytes::new();
    let mut tag = FIRST_TAG;
    for _ in 0..random.below(14) {
        tag += random.below(3) as u32;
        let length = random.pick(&[0, 0, 2, 8, 20, 28, 1, UNDEFINED, UNDEFINED]);
        let vr = random.pick(&["SQ", "SQ", "SQ", "OB", "UN", "CS", "UI", "US", "XX"]);
        data.extend(match random.below(8) {
            0 | 1 => head(tag, vr, length),
            2 | 3 => mark(ITEM, length),
            4 => mark(ITEM_END, random.pick(&[0, 0, 0, 2])),
            5 => mark(SEQUENCE_END, random.pick(&[0, 0, 0, 2])),
            6 => element(tag, "CS", "AB"),
            _ => vec![0; random.below(3)],
        });
    }
    data
}
