//! Commands of a generated script that are refused, or may be.

use super::Generator;
use crate::draw::{FEWEST, MOST};
use second::limits::HIGHEST_COST;
use second::script::GREATEST_NUMBER;

impl Generator {
    /// A command that is refused, with each number that a script can meet.
    pub(super) fn illegal(&mut self) -> String {
        let up = self.pairs_where(true);
        let down = self.pairs_where(false);
        let empty = self.pairs_with_empty_queue();
        let drawn = match self.rng.between(1, 8) {
            1 => Some(self.refused_units()),
            2 => Some(self.bad_unit()),
            3 => Some(self.bad_cost()),
            4 => self.rng.pick(&up).map(|(a, b)| format!("up {a} {b} 1 1")),
            5 => self.rng.pick(&down).map(|(a, b)| format!("cost {a} {b} 1")),
            6 => self.rng.pick(&down).map(|(a, b)| format!("down {a} {b}")),
            7 => {
                let unlinked = if self.rng.chance(50) { &down } else { &empty };
                let pair = self.rng.pick(unlinked);
                pair.map(|(a, b)| format!("deliver {a} {b}"))
            }
            _ => None,
        };
        drawn.unwrap_or_else(|| self.any_command())
    }

    /// `units` with a count that is refused.
    pub(super) fn refused_units(&mut self) -> String {
        let near = [0, FEWEST - 1, MOST + 1, MOST + 2, 2 * MOST];
        // Some that are legal once cut to 8 or 16 bits.
        let far = [255, 256, 256 + FEWEST, (1 << 16) + FEWEST, GREATEST_NUMBER];
        let counts = [near, far].concat();
        format!("units {}", self.rng.pick(&counts).unwrap_or(&0))
    }

    /// A unit number that is too great, or two equal ends.
    fn bad_unit(&mut self) -> String {
        let (a, b) = self.any_pair();
        let network = self.network();
        let count = network.map_or(MOST, |network| network.count().into());
        let greater = [count, count + 1, MOST, 255, 256, 257, GREATEST_NUMBER];
        let great = *self.rng.pick(&greater).unwrap_or(&count);
        let (a, b) = match self.rng.between(0, 3) {
            0 => (u32::from(a), u32::from(a)),
            1 => (great, u32::from(b)),
            2 => (u32::from(a), great),
            _ => (great, great),
        };
        self.command_about(a, b, 1)
    }

    /// A cost that is refused, for any two units, whether linked or not.
    fn bad_cost(&mut self) -> String {
        let (a, b) = self.any_pair();
        let above = HIGHEST_COST + 1;
        let costs = [0, above, above + 1, 2 * above - 1, GREATEST_NUMBER];
        let bad = *self.rng.pick(&costs).unwrap_or(&0);
        match self.rng.between(0, 2) {
            0 => format!("up {a} {b} {bad} 1"),
            1 => format!("up {a} {b} 1 {bad}"),
            _ => format!("cost {a} {b} {bad}"),
        }
    }

    /// A well-formed command of numbers that lie at borders, so that several
    /// refusals may apply at once, or none.
    pub(super) fn any_command(&mut self) -> String {
        let units = [0, 1, 2, 3, MOST - 1, MOST, MOST + 1, 256, GREATEST_NUMBER];
        let costs = [0, 1, 2, HIGHEST_COST, HIGHEST_COST + 1, GREATEST_NUMBER];
        let a = *self.rng.pick(&units).unwrap_or(&0);
        let b = *self.rng.pick(&units).unwrap_or(&0);
        let cost = *self.rng.pick(&costs).unwrap_or(&0);
        if self.rng.chance(15) {
            return "show".to_string();
        }
        self.command_about(a, b, cost)
    }

    fn command_about(&mut self, a: u32, b: u32, cost: u32) -> String {
        match self.rng.between(0, 3) {
            0 => format!("up {a} {b} {cost} {}", self.draw_cost()),
            1 => format!("cost {a} {b} {cost}"),
            2 => format!("down {a} {b}"),
            _ => format!("deliver {a} {b}"),
        }
    }
}
