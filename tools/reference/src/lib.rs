//! The unchanged Rust normaliser behind document 01's call.

include!(concat!(env!("OUT_DIR"), "/sources.rs"));

#[allow(dead_code)]
#[path = "standin/backend.rs"]
mod backend;
#[path = "standin/config.rs"]
mod config;
#[allow(dead_code)]
#[path = "standin/propagators.rs"]
mod propagators;
#[allow(dead_code)]
#[path = "standin/sat.rs"]
mod sat;
#[path = "standin/util.rs"]
mod util;

pub mod answer;
pub mod call;
pub mod cases;
pub mod generate;
pub mod join;
pub mod listing;
pub mod meaning;
pub mod merge;
mod passes;
pub mod read;
pub mod record;
pub mod refuse;
pub mod roster;
mod rust;
pub mod set;
pub mod settled;
pub mod sheet;
mod size;
mod tally;

pub use call::{call, call_with, Outcome};
