//! Which links are up and which queues hold messages, read from the tables
//! themselves by the index rule of `docs/TABLES.md`.

use second::network_tables::{queue_at, Tables};
use second::unit_table::{COSTS, COUNT, WORDS as UNIT};

/// Two units, by their numbers.
pub type Pair = (u32, u32);

/// A link in one direction.
#[derive(Clone, Copy, Debug, PartialEq, Eq)]
pub struct Link {
    /// From one unit to another.
    pub ends: Pair,
    /// Its cost.
    pub cost: u32,
    /// Whether a message is under way on it.
    pub is_busy: bool,
}

/// What fit tables say of links and queues.
#[derive(Clone, Debug, PartialEq, Eq)]
pub struct View {
    /// The count of units.
    pub count: u32,
    /// The links that are up, each direction for itself.
    pub links: Vec<Link>,
}

impl View {
    /// The view of fit tables.
    pub fn of(tables: &Tables) -> View {
        let count = tables.number(COUNT);
        let pairs = (0..count).flat_map(|a| (0..count).map(move |b| (a, b)));
        let link = |(a, b): Pair| Link {
            ends: (a, b),
            cost: tables.number(UNIT * a as usize + COSTS + b as usize),
            is_busy: tables.queues[queue_at(a as u8, b as u8)] != 0,
        };
        let links = pairs.map(link).filter(|link| link.cost != 0).collect();
        View { count, links }
    }

    /// The directions in which messages are under way.
    pub fn busy(&self) -> Vec<Pair> {
        let busy = self.links.iter().filter(|link| link.is_busy);
        busy.map(|link| link.ends).collect()
    }

    /// Whether the link between two units is up.
    pub fn is_up(&self, ends: Pair) -> bool {
        self.links.iter().any(|link| link.ends == ends)
    }
}

#[cfg(test)]
mod tests {
    use super::*;
    use second::network::Network;

    #[test]
    fn a_chain_with_one_message_delivered() {
        let mut network = Network::fresh(3).unwrap();
        network.up(0, 1, 5, 7).unwrap();
        network.up(2, 1, 8, 9).unwrap();
        network.deliver(0, 1).unwrap();
        let view = View::of(&Tables::of(&network));
        assert_eq!(view.count, 3);
        let link = |ends, cost, is_busy| Link {
            ends,
            cost,
            is_busy,
        };
        let expected = [
            link((0, 1), 5, false),
            link((1, 0), 7, true),
            link((1, 2), 9, true),
            link((2, 1), 8, true),
        ];
        assert_eq!(view.links, expected);
        assert_eq!(view.busy(), [(1, 0), (1, 2), (2, 1)]);
        assert!(view.is_up((1, 2)) && !view.is_up((0, 2)));
    }
}
