//! The one dependency of flows.rs under its own name.
include!(concat!(env!("OUT_DIR"), "/source.rs"));
