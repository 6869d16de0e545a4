//! Tests of the station through its two entries. Test names begin with the reading they are about (f8, w14 ...) where
//! there is one.

mod content;
mod pieces;
mod rng;
mod station;

mod actions;
mod dates;
mod kept;
mod lists;
mod random;
mod refusals;
mod samples;
mod shape;
mod table;
mod uids;
mod view;
mod writing;
