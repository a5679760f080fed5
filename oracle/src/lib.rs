//! The published pager, for comparison: its source is copied at build time and is not part of this repository.
#![allow(warnings)]
include!(concat!(env!("OUT_DIR"), "/published.rs"));
