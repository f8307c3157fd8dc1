//! What the comparisons share.
//!
//! It doesn't link the product's archive, so that it is tested without it.
//!
//! * [`rng`]: numbers determined by a seed, from which all else is drawn.
//! * [`sample`]: messages, legal and broken.
//! * [`draw`]: costs, distances, trees, units and what neighbours send them.
//! * [`shapes`]: which units of a network are linked.
//! * [`generator`], [`malformed`]: scripts, and lines of them that are no
//!   commands.
//! * [`tally`]: what was compared so far, by the answers.
//!
//! The limits of the rules are [`second::limits`].

#![forbid(unsafe_code)]
#![warn(missing_docs)]

pub mod draw;
pub mod generator;
pub mod malformed;
pub mod rng;
pub mod sample;
pub mod shapes;
pub mod tally;
