//! The crate's root: the two modules whose sources are laid out beside this file.

#![allow(warnings)]

#[macro_use]
extern crate bitflags;

pub mod pieces;
pub mod rules;
