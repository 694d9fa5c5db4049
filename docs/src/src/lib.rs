//! An independent implementation of document 01 in plain safe Rust, to be
//! compared with the proved library. Document 01, "the paper" in comments
//! here, is what the project was built from; docs/FORMAT.md tells the same in
//! other words. This crate was written from the paper alone. Where that can be
//! read in two ways, points 1 to 15 of docs/DECISIONS.md hold. Document 02 has
//! the change requests: [`asc`] is the first of them, W-201, the second header
//! in [`header`] is W-202, the padding in [`layout`] is W-204's, the places that
//! [`object`] tells are W-205's, [`ring`] is W-206, [`tray`] is W-207, types 86
//! and 100 are W-208's, and [`differences`] is W-209.
//!
//! * [`header`]: the two headers and their lengths
//! * [`layout`]: type list, reserved bytes, rules, padding, refusal numbers
//! * [`object`]: the next object, the walk, the places of refusals, the views
//! * [`ring`]: the next object of a log in two segments, and its view
//! * [`records`]: reading and writing one record of each type
//! * [`tray`]: writing many CAN messages by one call
//! * [`differences`]: two logs laid side by side
//! * [`slips`]: the check of a bundle against a log
//! * [`programs`]: what the lister and the desk program print
//! * [`asc`]: lines of text for types 1, 3 and 4, and their reader
//! * [`gen`]: a seeded generator of logs, records and bundles
//! * `library`: the proved library itself, called; with the feature `speed`

#![cfg_attr(not(feature = "speed"), forbid(unsafe_code))]
#![deny(unsafe_code)]
#![warn(missing_docs)]

pub mod asc;
pub mod differences;
pub mod gen;
pub mod header;
pub mod layout;
#[cfg(feature = "speed")]
#[allow(unsafe_code)]
pub mod library;
pub mod object;
pub mod programs;
pub mod records;
pub mod ring;
pub mod slips;
pub mod tray;
