//! The calls, against document 01, against `include/fieldmap.h` and against each other.

mod archives;
mod by_hand;
mod columns;
mod document_01;
mod given;
mod header;
mod keys;
mod layouts;
mod limits;
mod open_archives;
#[cfg(feature = "alloc")]
mod owned;
mod readers;
mod refusals;
mod refused;
mod repository;
