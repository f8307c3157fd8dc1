//! A second implementation of the multipath router's rules.
//!
//! It answers the same scripts as the product and is compared with it line by
//! line. So it is written for being right and being read, not for speed: maps,
//! sets and queues of the standard library, one small function for each
//! sentence of the rules, and comments that quote the sentence.
//!
//! # How the router works
//!
//! A network has 2 to 16 **units**. Between two units a link can be up, with a
//! cost for each direction, or down. Each unit wants to know, for each
//! destination, its **distance** and a set of **successors**: neighbours to
//! which it may hand a frame. However frames are handed on, and while tables
//! are still changing, no frame may ever go round in a circle.
//!
//! A unit keeps a **tree**: for every other unit that it can reach, the
//! **head** (the unit before it on the way) and the cost of the last link. Of
//! each neighbour it keeps a **copy** of that neighbour's tree, which lags
//! behind the tree itself by the messages still in the **queue** ([`tree`]).
//!
//! When something happens, the unit **recomputes** its tree ([`recompute`]): it
//! merges its own links with those of the copies, taking the links out of each
//! unit from the preferred neighbour for that unit, and keeps the shortest
//! paths. If the tree changed, each neighbour is sent an **update** with the
//! differences, and the unit is ACTIVE until each of them has sent an
//! **acknowledgment**. While ACTIVE it notes what arrives in its tables but
//! leaves its tree alone ([`mod@unit`]).
//!
//! The **feasible distance** is what prevents circles. It never exceeds the
//! distance that any neighbour believes this unit to have, because it rises
//! only after all neighbours have acknowledged. A successor must lie strictly
//! below it, in its copy. So feasible distances fall strictly with every hop
//! and no unit is met twice.
//!
//! # How the library is laid out
//!
//! * [`limits`]: the numbers of the rules, each named once.
//! * [`tree`]: distances, trees and the differences between two trees.
//! * [`recompute`]: merging the copies into a new tree, ties fixed.
//! * [`message`]: messages, and their bytes written and read.
//! * [`mod@unit`]: the tables of one unit and its events, steps A to F.
//! * [`queues`]: first in, first out, one for each direction of each link.
//! * [`network`]: all units with their queues; link up, cost, link down and
//!   delivery, each accepted as a whole or refused without a trace.
//! * [`tracer`]: follows successors from a start to a destination.
//! * [`fit`]: whether tables obey the rules, for tables set up by hand.
//! * [`unit_table`], [`network_tables`]: the same tables as numbers and bytes,
//!   laid out, and read only if they are fit.
//! * [`meter`], [`meter_table`]: frames on their way over a network's routes,
//!   with bytes that add up; and the same as bytes.
//! * [`table_bytes`]: the numbers of a table as bytes.
//! * [`refusal`]: the numbers with which a request is refused.
//! * [`script`]: the command lines and their answers, on streams, with a meter
//!   and without.
//!
//! # Two habits
//!
//! *Refusals.* A function that can refuse returns `Result<_, u32>` with the
//! refusal's number. It makes its tests in rising order of those numbers, so
//! the lowest that applies is given, and changes nothing before the last test
//! has passed. A network event runs on a clone that replaces the network only
//! when it is accepted.
//!
//! *Numbers.* Arguments from outside are `u32` and may be anything. Inside, a
//! unit's number is a `u8` below the count, a link cost a `u16` above 0 and a
//! distance a [`tree::Distance`], in which unreachable is above all numbers.

#![forbid(unsafe_code)]
#![warn(missing_docs)]

pub mod fit;
pub mod limits;
pub mod message;
pub mod meter;
pub mod meter_table;
pub mod network;
pub mod network_tables;
pub mod queues;
pub mod recompute;
pub mod refusal;
pub mod script;
pub mod table_bytes;
pub mod tracer;
pub mod tree;
pub mod unit;
pub mod unit_table;
