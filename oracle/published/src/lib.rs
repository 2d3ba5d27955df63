//! The published DustRoute files, compiled unchanged from `DUSTROUTE_SRC`, and stand-ins for what they lean on and what
//! is not published. A stand-in that holds behaviour stops the run when it is called: a comparison that comes to its
//! end has reached none of them.

// Some published functions serve files that are not compiled here.
#![allow(dead_code)]

// connectivity.rs names the crate `dustroute_physical`; its stand-in lives in this one.
extern crate self as dustroute_physical;

pub mod blocks;
pub mod logic;
pub mod planning;
mod topology;

pub use topology::{
    ComponentId, ConnectionKind, PhysicalComponent, PhysicalConnection, VerifiedTopology,
};

include!(concat!(env!("OUT_DIR"), "/published.rs"));
