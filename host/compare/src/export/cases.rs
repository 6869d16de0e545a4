//! What a seed gives: settings, a ledger, and one data set or a batch of them with the ledger handed on.

use super::{Ledger, Run, Settings};
use crate::damage::{self, Damage};
use crate::generate::{DataSet, Kind, Taste, rubble};
use crate::lent::Lent;
use crate::pieces::*;
use crate::random::Random;

/// Runs with the same settings, one after the other, each with the ledger that the one before it left.
pub struct Case {
    /// How it was made, in words.
    pub made: String,
    pub settings: Settings,
    /// The ledger of the first run.
    pub ledger: Ledger,
    /// The data sets, each with the room for its output.
    pub sets: Vec<(Lent, usize)>,
}

impl Case {
    pub fn of_seed(seed: u64) -> Case {
        let random = &mut Random::new(seed);
        let count = random.pick(&[1, 1, 1, 1, 1, 1, 2, 3, 5]);
        let mut made = Vec::new();
        let sets: Vec<DataSet> = (0..count).map(|_| data_set(random, &mut made)).collect();
        let mut tags: Vec<u32> = sets.iter().flat_map(DataSet::top_level_tags).collect();
        tags.extend(sets.iter().flat_map(DataSet::item_tags));
        let uids: Vec<Bytes> = sets.iter().flat_map(uids_of).collect();
        let whole: Vec<Bytes> = sets.iter().map(|set| set.bytes.clone()).collect();

        let mut settings = Settings::accepted(random, &tags);
        let sets: Vec<Lent> = sets
            .into_iter()
            .zip(&whole)
            .map(|(mut set, whole)| {
                strike(&mut set, random, &mut made);
                Lent::damaged(&set.bytes, whole, random)
            })
            .collect();
        let mut ledger = Ledger::in_use(random, &uids);
        let needed = new_uids(&settings, &ledger, &sets);
        ledger.add_free_slots(random, needed, &uids);
        let rooms = rooms(&settings, &ledger, &sets, random);
        if random.one_in(10) {
            made.push(format!("{} spoilt", settings.spoil(random)));
        }
        if random.one_in(25) {
            made.push("count in use overstated".into());
            ledger.overstate(random);
        }
        Case { made: made.join(", "), settings, ledger, sets: sets.into_iter().zip(rooms).collect() }
    }
}

fn data_set(random: &mut Random, made: &mut Vec<String>) -> DataSet {
    let kind = random.below(24);
    let (set, name) = match kind {
        0 => (DataSet { bytes: rubble(random), ..DataSet::default() }, "without order"),
        1 => (DataSet::too_deep(random, Taste::EXPORT), "too deep"),
        2 => (DataSet::well_formed(random, Taste::SHAPE), "any VRs"),
        _ => (DataSet::well_formed(random, Taste::EXPORT), "well-formed"),
    };
    made.push(name.into());
    set
}

/// Mostly nothing; else damage to a value, or to anything.
fn strike(set: &mut DataSet, random: &mut Random, made: &mut Vec<String>) {
    let done = match random.below(10) {
        0..=5 => None,
        6..=7 => {
            let times = random.pick(&[1, 1, 2, 4]);
            (0..times).filter_map(|_| Damage::Value.strike(set, random).map(|()| Damage::Value)).last()
        }
        _ => damage::any(set, random),
    };
    if let Some(damage) = done {
        made.push(format!("{damage:?}"));
    }
}

/// The UIDs that the data set holds, wherever.
fn uids_of(set: &DataSet) -> Vec<Bytes> {
    let is_uids = |place: &&crate::generate::Place| {
        place.kind == Kind::Value && vr_at(&set.bytes, place.at) == Some(*b"UI")
    };
    let values =
        set.places.iter().filter(is_uids).map(|place| &set.bytes[place.at + place.header..place.end]);
    let uids = values.flat_map(|value| value.split(|&byte| byte == b'\\' || byte == 0));
    uids.filter(|uid| (1..=64).contains(&uid.len())).map(<[u8]>::to_vec).collect()
}

/// How many slots the whole batch needs beside those in use.
fn new_uids(settings: &Settings, ledger: &Ledger, sets: &[Lent]) -> usize {
    let mut now = ledger.with_all_slots();
    for data in sets {
        let run = Run { settings, data, ledger: &now, room: super::most_room(data.data().len()) };
        now = run.expected().ledger();
    }
    (now.used - ledger.used) as usize
}

/// Room for each output: mostly enough, often just enough or a little less.
fn rooms(settings: &Settings, ledger: &Ledger, sets: &[Lent], random: &mut Random) -> Vec<usize> {
    let mut now = ledger.clone();
    let mut rooms = Vec::with_capacity(sets.len());
    for data in sets {
        let roomy = Run { settings, data, ledger: &now, room: super::most_room(data.data().len()) };
        let outcome = roomy.expected();
        let need = outcome.report.length as usize;
        let less = random.below(need.max(1));
        let room = match random.below(10) {
            0 => need.saturating_sub(random.pick(&[1, 1, 2, 8])),
            1 => need,
            2 => random.pick(&[0, 1, 139, 140, 141, less]),
            3 => need + random.pick(&[1, 2, 7, 64]),
            _ => need + 100 + random.below(400),
        };
        if room >= need {
            now = outcome.ledger();
        }
        rooms.push(room);
    }
    rooms
}
