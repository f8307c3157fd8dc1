//! The proved network, run beside the second implementation.
//!
//! Both are given the same calls. After each of them the answer, every number,
//! every byte of the queues and every byte of a traced path are compared.
//!
//! * [`product`]: the exported functions, declared and wrapped for safe use.
//! * [`border`]: what [`second`] answers to the same calls.
//! * [`call`]: a call with its arguments, made on either side.
//! * [`run`]: what was compared so far, and how a difference is told.
//! * [`view`]: which links are up and which queues hold messages, as the tables
//!   say.
//! * [`life`]: the next call in a network's life, drawn from a view.
//! * [`lives`], [`damage`], [`unreached`]: the parts of the comparison.
//! * [`sizes`]: how much of each part, and what has to be met.
//! * [`invariant`], [`walk`]: demand 3 by running, without the second program.
//! * `stand_in`: the exported functions made from [`second`], right or with a
//!   fault, so that the comparison itself can be tried (feature `stand-in`).

#![warn(missing_docs)]

pub mod border;
pub mod call;
pub mod damage;
pub mod invariant;
pub mod life;
pub mod lives;
pub mod product;
pub mod run;
pub mod sizes;
#[cfg(feature = "stand-in")]
pub mod stand_in;
pub mod unreached;
pub mod view;
pub mod walk;
