//! The published DustRoute files, compiled unchanged from `DUSTROUTE_SRC` a second time, for `materialize_multinet` and `route_jobs_ripup`, which
//! calls it: here the stand-in for `blocks.rs` answers, where that of `published` stops the run. Nothing else is compared through this crate.

// Some published functions serve files that are not compiled here.
#![allow(dead_code)]

// connectivity.rs names the crate `dustroute_physical`; its stand-in lives in this one.
extern crate self as dustroute_physical;

pub mod blocks;
mod laying;
#[path = "../../published/src/logic.rs"]
pub mod logic;
mod ripup;
#[path = "../../published/src/topology.rs"]
mod topology;

pub use laying::{Laying, lay_published};
pub use ripup::route_unripped;
pub use topology::{
    ComponentId, ConnectionKind, PhysicalComponent, PhysicalConnection, VerifiedTopology,
};

include!(concat!(env!("OUT_DIR"), "/published.rs"));
