//! Where damage strikes, and how the places and lengths around it stay true.

use std::ops::Range;

use crate::generate::{DataSet, Kind, Place};
use crate::pieces::*;
use crate::random::Random;

/// An offset within the data set: half the time in a header or mark.
pub fn any_offset(set: &DataSet, random: &mut Random) -> Option<usize> {
    if set.bytes.is_empty() {
        return None;
    }
    match any_place(set, random, |_| true) {
        Some(place) if random.one_in(2) => Some(place.at + random.below(place.header)),
        _ => Some(random.below(set.bytes.len())),
    }
}

/// A place of this kind whose header is whole.
pub fn any_place(set: &DataSet, random: &mut Random, wanted: impl Fn(&Place) -> bool) -> Option<Place> {
    let fits = |place: &&Place| place.at + place.header <= set.bytes.len() && wanted(place);
    let fitting = set.places.iter().filter(fits).count();
    if fitting == 0 {
        return None;
    }
    set.places.iter().filter(fits).nth(random.below(fitting)).copied()
}

pub fn sibling(set: &DataSet, wanted: impl Fn(&Place) -> bool) -> Option<Place> {
    set.places.iter().find(|place| place.is_element() && wanted(place)).copied()
}

/// Where something could be put before a place, and the container it would be in.
pub fn any_boundary(set: &DataSet, random: &mut Random) -> Option<(usize, Option<usize>)> {
    if random.one_in(2) {
        return Some(any_end(set, random));
    }
    any_place(set, random, |_| true).map(|place| (place.at, place.container))
}

/// The end of the contents of the data set or of a container: before its end mark, if it has one.
pub fn any_end(set: &DataSet, random: &mut Random) -> (usize, Option<usize>) {
    let size = set.bytes.len();
    let containers: Vec<usize> = (0..set.places.len()).filter(|&at| set.places[at].is_container()).collect();
    if containers.is_empty() || random.one_in(4) {
        return (size, None);
    }
    let container = random.pick(&containers);
    let Place { end, undefined, .. } = set.places[container];
    (end.saturating_sub(if undefined { MARK_SIZE } else { 0 }).min(size), Some(container))
}

/// Puts bytes in between, mostly with true lengths around them.
pub fn put_at(set: &mut DataSet, at: usize, container: Option<usize>, new: &[u8], random: &mut Random) {
    if !random.one_in(4) {
        keep_lengths_true(set, container, new.len() as i64);
    }
    replace(set, at..at, new);
}

/// Tells a container and all around it that their contents will grow so much.
pub fn keep_lengths_true(set: &mut DataSet, mut container: Option<usize>, growth: i64) {
    while let Some(index) = container {
        let place = set.places[index];
        let contents = place.at + place.header;
        if !place.undefined && contents <= set.bytes.len() {
            let field = &mut set.bytes[contents - 4..contents];
            let old = u32::from_le_bytes(field.try_into().expect("four bytes"));
            field.copy_from_slice(&old.wrapping_add(growth as u32).to_le_bytes());
        }
        container = place.container;
    }
}

/// Cuts the data set off, and states lengths that just reach there in all containers that reached further.
pub fn cut_to_fit(set: &mut DataSet, at: usize) {
    let is_cut = |place: &Place| place.is_container() && place.at + place.header <= at && at < place.end;
    let cut: Vec<Place> =
        set.places.iter().filter(|place| is_cut(place) && !place.undefined).copied().collect();
    for place in cut {
        write_length(set, &place, (at - place.at - place.header) as u32);
    }
    set.bytes.truncate(at);
}

/// Puts bytes in the place of others and moves the places behind them.
pub fn replace(set: &mut DataSet, old: Range<usize>, new: &[u8]) {
    let moved = |offset: usize| if offset >= old.end { offset - old.len() + new.len() } else { offset };
    for place in &mut set.places {
        place.at = moved(place.at);
        place.end = moved(place.end).max(place.at);
    }
    set.bytes.splice(old, new.iter().copied());
}

/// Overwrites bytes as far as the data set goes.
pub fn write(set: &mut DataSet, at: usize, new: &[u8]) {
    for (old, new) in set.bytes.iter_mut().skip(at).zip(new) {
        *old = *new;
    }
}

/// The length field is the end of the header, two bytes of it in a short one of an element.
pub fn write_length(set: &mut DataSet, place: &Place, length: u32) {
    let size = if place.kind == Kind::Value && place.header == 8 { 2 } else { 4 };
    write(set, place.at + place.header - size, &length.to_le_bytes()[..size]);
}
