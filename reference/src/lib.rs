//! Second implementation of the matrix checker of documents 01 and 02, written
//! apart from the first to be held against it. One module for each section of
//! document 01.

pub mod builder;
pub mod client;
pub mod design;
pub mod designs;
pub mod entries;
pub mod formula;
pub mod generator;
pub mod models;
pub mod operations;
pub mod owners;
pub mod pair;
pub mod programs;
pub mod protocol;
pub mod query;
pub mod random;
pub mod refute;
pub mod search;
pub mod step;
pub mod strict;
pub mod verdict;
