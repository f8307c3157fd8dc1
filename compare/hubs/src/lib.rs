//! The C border of one hub, run beside the second implementation.
//!
//! * [`product`]: the exported functions, declared and wrapped for safe use.
//! * [`table`]: a unit's table as bytes, laid out from a [`second`] unit and
//!   read back into one.
//! * [`border`]: what [`second`] answers to the same calls.
//! * [`call`]: a call with its arguments, made on either side.
//! * [`event`]: events made up from a seed.
//! * [`run`]: what was compared so far, and the first difference.
//! * [`lives`], [`networks`], [`damage`]: the three parts of the comparison.

#![warn(missing_docs)]

pub mod border;
pub mod call;
pub mod damage;
pub mod event;
pub mod lives;
pub mod networks;
pub mod product;
pub mod run;
pub mod table;
