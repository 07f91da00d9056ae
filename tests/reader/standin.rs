//! The stand-in as an archive for C: see exports.rs.
#![allow(dead_code)]

mod abi;
mod backward;
mod compare;
mod events;
mod exports;
mod record;
mod replay;
mod ring;
mod rules;
mod store;
mod salvage;
mod words;
mod writer;
