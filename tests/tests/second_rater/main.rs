//! The worked figures of document 01, its questions, its round trip between
//! Read and Write, its balance statement, guaranteed cost and accidents of
//! document 02, the text of a group and the program.

mod accidents;
mod balance;
mod guaranteed;
mod program;
mod questions;
mod round_trip;
mod text;
mod worked;
