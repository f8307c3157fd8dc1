//! How much of each part is compared, and what has to be met on the way: a
//! comparison that never saw a refusal says nothing of it.

use crate::damage::{self, DAMAGES};
use crate::life::ROUND;
use crate::run::Run;
use crate::{lives, unreached};
use shared::tally::{Difference, Tallies};

/// How much of each part.
#[derive(Clone, Copy)]
pub struct Sizes {
    /// Lives of networks.
    pub lives: u32,
    /// Events of each life.
    pub events: u32,
    /// Of so many lives one is asked everything.
    pub asked_every: u32,
    /// Damaged tables of each kind.
    pub damaged: u32,
    /// Unreached networks of each part.
    pub unreached: u32,
    /// Calls on each unreached network.
    pub calls: u32,
}

/// The sizes of the comparison: each count in each shape lives twice.
pub const FULL: Sizes = Sizes {
    lives: 2 * ROUND,
    events: 500,
    asked_every: 7,
    damaged: 1_250,
    unreached: 1_500,
    calls: 12,
};

/// Sizes for trying the comparison itself.
pub const SMALL: Sizes = Sizes {
    lives: 30,
    events: 120,
    asked_every: 11,
    damaged: 60,
    unreached: 60,
    calls: 12,
};

/// All parts, until one differs.
pub fn compare(run: &mut Run, sizes: Sizes) -> Result<(), Difference> {
    lives::compare_fresh(run)?;
    lives::compare(run, sizes.lives, sizes.events, sizes.asked_every)?;
    unreached::compare(run, sizes.unreached, sizes.calls)?;
    damage::compare(run, sizes.damaged)
}

/// Whether calls are counted as events: those on fit tables that may change
/// them.
pub fn is_event(part: &str, kind: &str) -> bool {
    part != damage::PART && matches!(kind, "fresh" | "up" | "cost" | "down" | "deliver")
}

/// Whether calls are counted as questions: those on fit tables that may not
/// change them, traces too.
pub fn is_question(part: &str, kind: &str) -> bool {
    part != damage::PART && !is_event(part, kind)
}

/// The refusals that each kind of call has to meet in lives from fresh, and in
/// networks that no life reaches.
const REFUSALS: [(&str, &[u32], &[u32]); 12] = [
    ("fresh", &[1, 2], &[]),
    ("up", &[3, 4, 5], &[13]),
    ("cost", &[3, 4, 6], &[13]),
    ("down", &[3, 6], &[13]),
    ("deliver", &[3, 6, 8], &[10, 11, 12, 13]),
    ("state", &[3], &[]),
    ("distance", &[3], &[]),
    ("feasible", &[3], &[]),
    ("successors", &[3], &[]),
    ("link", &[3], &[]),
    ("awaits", &[3], &[]),
    ("trace", &[3, 7], &[]),
];

/// The endings of traces, and whether lives from fresh have them.
const ENDINGS: [(&str, bool); 3] = [
    ("trace arrived", true),
    ("trace stranded", true),
    ("trace circling", false),
];

/// What should have been met and was not.
pub fn not_met(tallies: &Tallies) -> Vec<String> {
    let mut missing = Vec::new();
    let mut demand = |is_met: bool, what: String| {
        if !is_met {
            missing.push(what);
        }
    };
    let in_life = |part: &str| part == "life";
    let unreached = |part: &str| unreached::PARTS.contains(&part);
    for (kind, from_fresh, elsewhere) in REFUSALS {
        let is_kind = |it: &str| it.starts_with(kind);
        let accepted = tallies.accepted(|part, it| in_life(part) && is_kind(it));
        demand(accepted > 0, format!("life, {kind} accepted"));
        for &number in from_fresh {
            let met = tallies.refused(number, |part, it| in_life(part) && is_kind(it));
            demand(met > 0, format!("life, {kind} refused with {number}"));
        }
        for &number in elsewhere {
            let met = tallies.refused(number, |part, it| unreached(part) && is_kind(it));
            demand(met > 0, format!("unreached, {kind} refused with {number}"));
        }
    }
    for (ending, in_lives) in ENDINGS {
        let met = tallies.accepted(|part, kind| in_life(part) == in_lives && kind == ending);
        demand(met > 0, String::from(ending));
    }
    for (name, _) in DAMAGES {
        let is_it = |part: &str, kind: &str| part == damage::PART && kind == name;
        let is_met = if name == "nothing" {
            tallies.accepted(is_it) > 0 && tallies.refused(2, is_it) == 0
        } else {
            tallies.refused(2, is_it) > 0
        };
        demand(is_met, format!("{}, {name}", damage::PART));
    }
    missing
}
