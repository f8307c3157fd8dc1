//! A network whose links form and then change, step by step, the same each time.

use second::network::Network;
use shared::rng::Rng;

/// The networks: every pair linked, or one unit after the other.
pub const SHAPES: [&str; 2] = ["mesh", "chain"];

/// What happens next.
#[derive(Clone, Copy)]
pub enum Step {
    /// A link comes up at two costs.
    Up(u32, u32, u32, u32),
    /// A cost changes.
    Cost(u32, u32, u32),
    /// A link goes down.
    Down(u32, u32),
    /// A message is delivered.
    Deliver(u32, u32),
}

/// A network and what is drawn about it.
pub struct Site {
    /// The network before the next step.
    pub network: Network,
    rng: Rng,
    pairs: Vec<(u32, u32)>,
    /// A link that went down and comes up again in the next step.
    flapping: Option<(u32, u32)>,
}

impl Site {
    /// A network whose links have come up and whose messages have all been
    /// delivered. What comes while it forms is small, so measuring begins here.
    pub fn formed(shape: &str, count: u32) -> Site {
        let is_linked = |a: u32, b: u32| shape == "mesh" || b == a + 1;
        let mut site = Site {
            network: Network::fresh(count).expect("a legal count"),
            rng: Rng::new(u64::from(count)),
            pairs: (0..count)
                .flat_map(|a| (a + 1..count).map(move |b| (a, b)))
                .filter(|&(a, b)| is_linked(a, b))
                .collect(),
            flapping: None,
        };
        for (a, b) in site.pairs.clone() {
            let up = site.up(a, b);
            site.take(up);
        }
        while let Some(delivery) = site.delivery() {
            site.take(delivery);
        }
        site
    }

    /// The next step: what is under way is delivered, in a random order of the
    /// queues; then a cost changes, or a link goes down and up.
    pub fn next(&mut self) -> Step {
        if let Some((a, b)) = self.flapping.take() {
            return self.up(a, b);
        }
        if let Some(delivery) = self.delivery() {
            return delivery;
        }
        let &(a, b) = self.rng.pick(&self.pairs).expect("a pair");
        if self.rng.chance(90) {
            let (a, b) = if self.rng.chance(50) { (a, b) } else { (b, a) };
            Step::Cost(a, b, self.rng.between(1, 20))
        } else {
            self.flapping = Some((a, b));
            Step::Down(a, b)
        }
    }

    /// Makes a step, which is always a legal one.
    pub fn take(&mut self, step: Step) {
        let network = &mut self.network;
        let taken = match step {
            Step::Up(a, b, of_a, of_b) => network.up(a, b, of_a, of_b),
            Step::Cost(a, b, cost) => network.cost(a, b, cost),
            Step::Down(a, b) => network.down(a, b),
            Step::Deliver(a, b) => network.deliver(a, b),
        };
        taken.expect("a legal step");
    }

    fn up(&mut self, a: u32, b: u32) -> Step {
        let (of_a, of_b) = (self.rng.between(1, 20), self.rng.between(1, 20));
        Step::Up(a, b, of_a, of_b)
    }

    fn delivery(&mut self) -> Option<Step> {
        let waiting = self.network.queues.waiting();
        let waiting: Vec<(u8, u8)> = waiting.map(|it| (it.0, it.1)).collect();
        let &(from, to) = self.rng.pick(&waiting)?;
        Some(Step::Deliver(from.into(), to.into()))
    }
}
