//! How much of each part is compared, and what has to be met on the way: a
//! comparison that never saw a refusal says nothing of it.

use crate::damage::{self, Fit, DAMAGES};
use crate::{driven, lives, unreached};
use networks::damage::DAMAGES as NETWORK_DAMAGES;
use networks::life::ROUND;
use networks::run::Run;
use shared::tally::{Difference, Tallies};

/// How much of each part.
#[derive(Clone, Copy)]
pub struct Sizes {
    /// Lives of networks with a meter.
    pub lives: u32,
    /// Calls of each life, questions aside.
    pub calls: u32,
    /// Of so many lives one is asked everything.
    pub asked_every: u32,
    /// Meters of each unreached part.
    pub unreached: u32,
    /// Calls on each made-up meter, questions aside.
    pub unreached_calls: u32,
    /// Frames driven to and fro.
    pub driven: u32,
    /// Damaged meters of each kind.
    pub damaged: u32,
    /// Damaged networks of each kind.
    pub damaged_networks: u32,
}

/// The sizes of the comparison: each count in each shape lives once.
pub const FULL: Sizes = Sizes {
    lives: ROUND,
    calls: 1_000,
    asked_every: 7,
    unreached: 750,
    unreached_calls: 40,
    driven: 30,
    damaged: 1_200,
    damaged_networks: 150,
};

/// Sizes for trying the comparison itself.
pub const SMALL: Sizes = Sizes {
    lives: 15,
    calls: 150,
    asked_every: 11,
    unreached: 15,
    unreached_calls: 20,
    driven: 2,
    damaged: 40,
    damaged_networks: 15,
};

/// All parts, until one differs.
pub fn compare(run: &mut Run, sizes: Sizes) -> Result<(), Difference> {
    lives::compare_fresh(run)?;
    let reached = lives::compare(run, sizes.lives, sizes.calls, sizes.asked_every)?;
    unreached::compare(run, &reached, sizes.unreached, sizes.unreached_calls)?;
    driven::compare(run, sizes.driven)?;
    damage::compare(run, &reached, sizes.damaged, sizes.damaged_networks)
}

/// Whether calls are on damaged tables.
pub fn is_damaged(part: &str) -> bool {
    [damage::PART, damage::NETWORKS].contains(&part)
}

/// Whether calls are counted as such on the meter: those on fit tables that may
/// change it.
pub fn is_change(part: &str, kind: &str) -> bool {
    let names = ["fresh", "enter", "move", "drop"];
    let name = kind.split([',', ' ']).next().unwrap_or(kind);
    !is_damaged(part) && kind != "fresh network" && names.contains(&name)
}

/// Whether calls are counted as events of the network.
pub fn is_event(part: &str, kind: &str) -> bool {
    !is_damaged(part) && ["fresh network", "up", "cost", "down", "deliver"].contains(&kind)
}

/// Whether calls are counted as questions to the meter.
pub fn is_question(part: &str, kind: &str) -> bool {
    !is_damaged(part) && !is_change(part, kind) && !is_event(part, kind)
}

/// The refusals of the meter's calls.
pub const REFUSALS: [u32; 5] = [2, 3, 14, 15, 16];

/// What has to be accepted in each part on fit tables.
const ACCEPTED: [(&str, &[&str]); 5] = [
    (
        lives::PART,
        &[
            "fresh",
            "enter, held",
            "enter, delivered",
            "move, held",
            "move, delivered",
            "drop",
        ],
    ),
    (
        unreached::PARTS[0],
        &[
            "move, held",
            "move, delivered",
            "move 64, delivered",
            "move 64, dropped",
        ],
    ),
    (unreached::PARTS[1], &["enter, held", "drop"]),
    (unreached::PARTS[2], &["enter, held", "enter, delivered"]),
    (
        driven::PART,
        &["move, held", "move 64, delivered", "move 64, dropped"],
    ),
];

/// What has to be refused in each part on fit tables.
const REFUSED: [(&str, &[(&str, u32)]); 4] = [
    (
        lives::PART,
        &[
            ("fresh", 2),
            ("enter", 3),
            ("enter", 14),
            ("enter", 16),
            ("move", 3),
            ("move", 16),
            ("drop", 16),
            ("frame_size", 16),
            ("frame_unit", 16),
            ("frame_destination", 16),
            ("frame_hops", 16),
        ],
    ),
    (unreached::PARTS[0], &[("enter", 15), ("move", 16)]),
    (unreached::PARTS[1], &[("enter", 14), ("drop", 16)]),
    (unreached::PARTS[2], &[("enter", 15), ("enter", 16)]),
];

/// The questions.
const QUESTIONS: [&str; 9] = [
    "entered",
    "delivered",
    "dropped",
    "held",
    "frames",
    "frame_size",
    "frame_unit",
    "frame_destination",
    "frame_hops",
];

/// What should have been met and was not.
pub fn not_met(tallies: &Tallies) -> Vec<String> {
    let mut missing = Vec::new();
    let mut demand = |is_met: bool, what: String| {
        if !is_met {
            missing.push(what);
        }
    };
    for (part, kinds) in ACCEPTED {
        for &kind in kinds {
            let met = tallies.accepted(|a_part, it| a_part == part && it == kind);
            demand(met > 0, format!("{part}, {kind} accepted"));
        }
    }
    for kind in QUESTIONS {
        let met = tallies.accepted(|part, it| part == lives::PART && it == kind);
        demand(met > 0, format!("{}, {kind} answered", lives::PART));
    }
    for (part, refusals) in REFUSED {
        for &(kind, number) in refusals {
            let met = tallies.refused(number, |a_part, it| a_part == part && it == kind);
            demand(met > 0, format!("{part}, {kind} refused with {number}"));
        }
    }
    for (name, _, fit) in DAMAGES {
        let is_it = |part: &str, kind: &str| part == damage::PART && kind == name;
        let (accepted, unfit) = (tallies.accepted(is_it), tallies.refused(2, is_it));
        let is_met = match fit {
            Fit::All => accepted > 0 && unfit == 0,
            Fit::Some => accepted > 0 && unfit > 0,
            Fit::Few => unfit > 0,
            Fit::None => accepted == 0 && unfit > 0,
        };
        demand(is_met, format!("{}, {name}: {fit:?} fit", damage::PART));
    }
    for (name, _) in NETWORK_DAMAGES {
        let is_it = |part: &str, kind: &str| part == damage::NETWORKS && kind == name;
        let is_met = match name {
            "nothing" => tallies.accepted(is_it) > 0 && tallies.refused(2, is_it) == 0,
            _ => tallies.refused(2, is_it) > 0,
        };
        demand(is_met, format!("{}, {name}", damage::NETWORKS));
    }
    missing
}
