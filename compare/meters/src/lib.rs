//! The proved meter over a network, run beside the second implementation.
//!
//! Both are given the same calls, those on the network too. After each of them
//! the answer and every byte of the tables are compared.
//!
//! * [`product`]: the exported functions, declared and wrapped for safe use.
//! * [`border`]: what [`second`] answers to the same calls.
//! * [`call`]: a call with its arguments, made on either side.
//! * [`site`]: a network and its meter on both sides, and one step of both.
//! * [`draw`]: sizes, calls and meters made up from a seed.
//! * [`lives`], [`unreached`], [`driven`], [`damage`]: the parts of the
//!   comparison.
//! * [`sizes`]: how much of each part, and what has to be met.
//! * `stand_in`: the exported functions made from [`second`], right or with a
//!   fault, so that the comparison itself can be tried (feature `stand-in`).

#![warn(missing_docs)]

pub mod border;
pub mod call;
pub mod damage;
pub mod draw;
pub mod driven;
pub mod lives;
pub mod product;
pub mod site;
pub mod sizes;
#[cfg(feature = "stand-in")]
pub mod stand_in;
pub mod unreached;
