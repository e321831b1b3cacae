//! `saturate_with` of rustdl beside our library, on the same books.

// The given files name the crates `owl_dl_core` and `hashbrown`: both are this one.
extern crate self as hashbrown;
extern crate self as owl_dl_core;

pub mod book;
pub mod compare;
pub mod generate;
pub mod ours;
pub mod profile;
pub mod random;
pub mod record;
pub mod rust;
pub mod shrink;
pub mod small;
mod supplied;
pub mod words;

pub use supplied::{ontology, HashMap, HashSet};

include!(concat!(env!("OUT_DIR"), "/given.rs"));
