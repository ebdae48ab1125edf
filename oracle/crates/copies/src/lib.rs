//! The copies of flows.rs that the drivers run, behind one trait.

pub mod checked;
pub mod plain;
pub mod simulator;
pub mod slots;

include!(concat!(env!("OUT_DIR"), "/modules.rs"));

pub use simulator::{Bottleneck, Double, EdgeView, Party, Simulator, Submission, TransferView};

/// Which hash map the copy as given was built with.
pub const HASH_MAP: &str = rustc_hash::SOURCE;

/// flows.rs as published, in hash order.
pub fn given() -> Box<dyn Simulator> {
    Box::new(given::Flows::new())
}

/// flows.rs with slot order and the three drains.
pub fn patched() -> Box<dyn Simulator> {
    Box::new(patched::Flows::new())
}

/// As `given`, noting every inexact operation.
pub fn checked_given() -> Box<dyn Simulator> {
    Box::new(checked_given::Flows::new())
}

/// As `patched`, noting every inexact operation.
pub fn checked_patched() -> Box<dyn Simulator> {
    Box::new(checked_patched::Flows::new())
}
