//! Samtrekhu, a Go referee that a program can believe, for hosts in Rust: servers, tournament desks, record editors.
//!
//! A [`Game`] takes a stranger's moves and answers each: `Ok`, or a [`Refusal`] that says why. A refused call has changed nothing. All of it is proved in the static
//! library that this crate links; the crate adds types, and judges nothing itself.
//!
//! ```
//! use samtrekhu::{Flags, Game, Refusal};
//!
//! let mut game = Game::new(9, 9, Flags::KO | Flags::SUICIDE)?;
//! game.stone((4, 4))?;
//! game.stone((4, 5))?;
//! assert_eq!(game.stone((4, 5)), Err(Refusal::PointNotEmpty));
//! assert_eq!(game.legals()?.len(), 79);
//! println!("{}", game.board()?.pretty_string()?);
//! # Ok::<(), Refusal>(())
//! ```
//!
//! Every call has room on a thread with 256 KiB of stack, as the tests show. Games share nothing, so that each may live on a thread of its own.
#![warn(missing_docs)]
#![deny(unsafe_code, unsafe_op_in_unsafe_fn)]

mod board;
#[allow(unsafe_code)]
mod calls;
mod colour;
mod flags;
mod game;
mod history;
mod moves;
mod point;
pub mod raw;
mod refusal;

pub use board::{Board, Chain, Stones};
pub use colour::{Colour, Player};
pub use flags::Flags;
pub use game::{Facts, Game, Prisoners};
pub use history::History;
pub use moves::{Move, Stopped};
pub use point::{Point, Points};
pub use refusal::Refusal;

/// The example of the README is compiled and run with the others.
#[cfg(doctest)]
#[doc = include_str!("../README.md")]
struct Readme;
