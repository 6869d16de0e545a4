//! The command, run as people run it.

mod damage;
mod examples;
mod explain;
mod export;
mod several;
mod support;
mod usage;
mod view;
