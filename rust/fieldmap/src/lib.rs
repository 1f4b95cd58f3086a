//! The archived field map: rkyv 0.8.18's B-tree map with 64-bit keys and values, as proved code behind safe calls.
//!
//! Every call takes any bytes, lists, positions and lengths, and answers or gives one of 19 [refusals](Refusal). A refused call leaves the
//! lists that it was lent as they were. The calls are those of the static library `libexports.a`, each proved equal to its definition; what
//! this crate adds is the passing of slices and the taking apart of answers.
//!
//! ```
//! use fieldmap::Certified;
//!
//! let (keys, values) = ([1, 5, 9], [10, 50, 90]);
//! let mut out = vec![0; fieldmap::build_length(keys.len(), 0)?];
//! let end = fieldmap::build(&mut out, 0, &keys, &values)?;
//!
//! let archive = Certified::certify(&out[..end])?;
//! assert_eq!(archive.len(), 3);
//! assert_eq!(archive.get(5).map(|entry| entry.value), Some(50));
//! assert_eq!(archive.get(6), None);
//! # Ok::<(), fieldmap::Refusal>(())
//! ```
//!
//! # Open and certified archives
//!
//! [`check`] accepts what rkyv's own check accepts. [`certify`] accepts only archives whose keys also strictly ascend and that have no hollow
//! node. On a certified archive a lookup gives exactly the entry of the walk with that key, or that there is none. On an archive that is only
//! accepted it gives what rkyv's search finds, which can miss an entry that the walk shows.
//!
//! # Two packings of keys
//!
//! Of the fields of a key, x and y stand in two's complement in old archives and as the degrees plus 128 in new examinations. Nothing stored
//! says which, so each call that reads or writes fields takes a [`Packing`]. On new keys a [column query](column()) gives exactly the points
//! with x from a to b. The others take keys as numbers, and for the same numbers the same bytes are built, whatever they stand for.
//!
//! # Layouts
//!
//! Offsets and counts of an archive have 32 bits where rkyv is built at its defaults, else 16 or 64, and its nodes have 5 entries by default, or
//! 3 to 15. Nothing stored says which, so the caller names both: each call is for archives of 32 bits and 5 entries a node, and the one with
//! `_at` behind its name takes a [`Layout`] first. [`Archive`] and [`Certified`] keep the layout that they were opened by. [`Width`] and
//! [`Layout`] say what becomes of an archive that is read by another one.
//!
//! ```
//! use fieldmap::{Certified, Layout, Limits, Width};
//!
//! let layout = Layout::new(Width::Bits64, 15)?;
//! let mut out = vec![0; fieldmap::build_length_at(layout, 3, 0)?];
//! fieldmap::build_at(layout, &mut out, 0, &[1, 5, 9], &[10, 50, 90])?;
//! let archive = Certified::certify_at(layout, Limits::SERVER, &out)?;
//! assert_eq!(archive.get(5).map(|entry| entry.value), Some(50));
//! # Ok::<(), fieldmap::Refusal>(())
//! ```
//!
//! # Limits
//!
//! Each caller names how much it reads: the longest archive, and the depth that the check starts with. The calls without `_at` read by
//! [`Limits::SERVER`], archives of up to 1,048,576 bytes with up to 14 nested nodes. Those with `_at` that read an archive take [`Limits`] behind
//! the layout: [`Limits::VIEWER`], 4,096 bytes and three nested nodes, or any other. Limits above the server's count as the server's. [`Archive`]
//! and [`Certified`] keep the limits that they were opened by.
//!
//! ```
//! use fieldmap::{Certified, Layout, Limits, Refusal};
//!
//! let keys: Vec<u64> = (1..=300).collect();
//! let mut out = vec![0; fieldmap::build_length(keys.len(), 0)?];
//! fieldmap::build(&mut out, 0, &keys, &keys)?;
//! let viewed = Certified::certify_at(Layout::COMMON, Limits::VIEWER, &out);
//! assert_eq!(viewed, Err(Refusal::ArchiveTooLong));
//! assert_eq!(Certified::certify_at(Layout::COMMON, Limits::SERVER, &out)?.len(), 300);
//! # Ok::<(), Refusal>(())
//! ```
//!
//! # The check on every call
//!
//! Every reader runs the check first, [`range`] and [`column`](column()) certification, on every call. [`Archive`] and [`Certified`] say in a type that
//! bytes have passed; they do not spare the check. [`lookup_many`] looks up many keys after one check.
//!
//! # Panics
//!
//! No call panics while the linked library answers as its header says.
//!
//! # Features
//!
//! - `alloc`: calls that give vectors and maps, `entries`, `to_map`, `entries_in`, `archive_of` and `archive_of_at`. Off unless asked for;
//!   without it the crate uses nothing but `core`.
#![no_std]
#![deny(missing_docs, unsafe_code)]

#[cfg(feature = "alloc")]
extern crate alloc;

mod archive;
mod builder;
mod certified;
mod conversions;
#[allow(unsafe_code)]
mod ffi;
mod key;
mod layout;
mod limits;
mod lookups;
#[cfg(feature = "alloc")]
mod owned;
mod packing;
mod parts;
mod ranges;
mod readers;
mod refusal;
mod value;
mod width;

pub use archive::Archive;
pub use builder::{build, build_at, build_length, build_length_at};
pub use certified::Certified;
pub use key::Key;
pub use layout::Layout;
pub use limits::Limits;
pub use lookups::{
    lookup, lookup_at, lookup_bytes, lookup_bytes_at, lookup_many, lookup_many_at, Entry,
};
#[cfg(feature = "alloc")]
pub use owned::{archive_of, archive_of_at};
pub use packing::Packing;
pub use parts::{absent_offset, align, offset32, signed_offset, Aligned};
pub use ranges::{column, column_at, range, range_at, Matched};
pub use readers::{certify, certify_at, check, check_at, walk, walk_at, Walked};
pub use refusal::{NoSuchRefusal, Refusal};
pub use value::Value;
pub use width::Width;

/// The fewest entries a node that a [`Layout`] can have.
pub const FEWEST_IN_NODE: usize = 3;

/// The most entries a node that a [`Layout`] can have.
pub const MOST_IN_NODE: usize = 15;

/// The most entries that [`build`] takes.
pub const MOST_ENTRIES: usize = 40_000;

/// The longest header in bytes that [`build`] takes.
pub const LONGEST_HEADER: usize = 4_096;

#[cfg(doctest)]
#[doc = include_str!("../README.md")]
struct Readme;
