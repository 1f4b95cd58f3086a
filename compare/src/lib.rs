//! rkyv's archived B-tree map as the oracle for the archived field map, and a second reading of document 01 beside it.

pub mod building;
pub mod by_hand;
pub mod cases;
pub mod columns;
pub mod counts;
#[cfg(feature = "ours")]
pub mod lender;
pub mod lists;
pub mod measure;
pub mod model;
pub mod oracle;
#[cfg(feature = "ours")]
pub mod ours;
pub mod questions;
pub mod readers;
pub mod rkyv_map;
pub mod rkyv_parts;
pub mod trees;
