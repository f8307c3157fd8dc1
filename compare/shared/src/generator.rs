//! Scripts made up from a seed.
//!
//! A generated script is mostly legal: the generator answers each of its lines
//! itself, so it knows which links are up and which queues hold messages.
//! Between the legal lines stand illegal and malformed ones. What the script is
//! made of (shape and size of the network, costs, order of deliveries, what
//! happens how often) is drawn once for each network. In a script for the program
//! with a meter, lines about frames follow any of its lines.

mod frames;
mod illegal;
mod plan;

use crate::malformed;
use crate::rng::Rng;
use crate::shapes::Pair;
use frames::Traffic;
use plan::{Action, Costs, Order, Plan};
use second::limits::HIGHEST_COST;
use second::network::Network;
use second::script::Runner;
use second::tree::UnitNumber;
use std::io;

/// A script under way.
struct Generator {
    rng: Rng,
    plan: Plan,
    traffic: Option<Traffic>,
    runner: Runner,
    script: Vec<u8>,
    lines: usize,
    goal: usize,
}

/// Makes up a script from a seed, of as many lines as asked for.
pub type Maker = fn(u64, Option<usize>) -> Vec<u8>;

/// The script of a seed, of as many lines as asked for or, if none are asked
/// for, of 20 to 600. Some scripts end without a line's end.
pub fn script(seed: u64, lines: Option<usize>) -> Vec<u8> {
    Generator::new(seed, lines).whole()
}

/// Such a script for the program with a meter.
pub fn script_with_meter(seed: u64, lines: Option<usize>) -> Vec<u8> {
    let mut generator = Generator::new(seed, lines);
    generator.traffic = Some(Traffic::draw(&mut generator.rng));
    generator.runner = Runner::with_meter();
    generator.whole()
}

impl Generator {
    fn new(seed: u64, lines: Option<usize>) -> Generator {
        let mut rng = Rng::new(seed);
        let drawn = rng.between(20, 600) as usize;
        let plan = Plan::draw(&mut rng);
        Generator {
            rng,
            plan,
            traffic: None,
            runner: Runner::default(),
            script: Vec::new(),
            lines: 0,
            goal: lines.unwrap_or(drawn),
        }
    }

    fn whole(mut self) -> Vec<u8> {
        self.prologue();
        self.perhaps_drive();
        self.start_network();
        while !self.is_done() {
            self.act();
        }
        if self.rng.chance(20) {
            self.script.pop();
        }
        self.script
    }

    fn is_done(&self) -> bool {
        self.lines >= self.goal
    }

    /// Adds a line and, where there is traffic, lines about frames after it.
    fn line(&mut self, line: impl AsRef<[u8]>) {
        self.single_line(line);
        self.perhaps_frames();
    }

    /// Adds a line, if there is room, and answers it for the own knowledge.
    fn single_line(&mut self, line: impl AsRef<[u8]>) {
        if self.is_done() {
            return;
        }
        let line = line.as_ref();
        // A sink takes everything, so there is no error to be seen.
        let _ = self.runner.answer(line, &mut io::sink());
        self.script.extend(line);
        self.script.push(b'\n');
        self.lines += 1;
    }

    fn network(&self) -> Option<&Network> {
        self.runner.network()
    }

    /// Commands before any `units`, in some scripts.
    fn prologue(&mut self) {
        if !self.rng.chance(25) {
            return;
        }
        for _ in 0..self.rng.between(1, 6) {
            let line = match self.rng.between(0, 3) {
                0 => malformed::line(&mut self.rng),
                1 => self.refused_units().into_bytes(),
                _ => self.any_command().into_bytes(),
            };
            self.line(line);
        }
    }

    /// A fresh network with the links of the plan, which come up at once or
    /// with deliveries between.
    fn start_network(&mut self) {
        self.line(format!("units {}", self.plan.count));
        let deliveries_between = self.rng.chance(50);
        for (a, b) in self.plan.pairs.clone() {
            self.bring_up(a, b);
            if deliveries_between {
                for _ in 0..self.rng.between(0, 3) {
                    self.deliver();
                }
            }
        }
        if self.rng.chance(50) {
            self.drain();
        }
    }

    /// One action, drawn by the weights.
    fn act(&mut self) {
        let sum: u32 = self.plan.weights.iter().map(|(_, weight)| weight).sum();
        let mut left = self.rng.between(0, sum - 1);
        for (action, weight) in self.plan.weights {
            if left < weight {
                return self.perform(action);
            }
            left -= weight;
        }
    }

    fn perform(&mut self, action: Action) {
        match action {
            Action::Deliver => self.deliver(),
            Action::Drain => self.drain(),
            Action::Event => self.event(),
            Action::Burst => (0..self.rng.between(3, 20)).for_each(|_| self.event()),
            Action::LinkFlap => self.link_flap(),
            Action::CostFlap => self.cost_flap(),
            Action::Illegal => {
                let line = self.illegal();
                self.line(line);
            }
            Action::Malformed => {
                let line = malformed::line(&mut self.rng);
                self.line(line);
            }
            Action::Show => self.line("show"),
            Action::Restart => self.restart(),
        }
    }

    /// Another network, or the same number of units afresh, or a refused
    /// `units` that leaves all as it is.
    fn restart(&mut self) {
        if self.rng.chance(40) {
            let line = self.refused_units();
            return self.line(line);
        }
        if self.rng.chance(70) {
            self.plan = Plan::draw(&mut self.rng);
        }
        self.perhaps_drive();
        self.start_network();
    }

    /// A delivery from a queue that holds something; an event if none does.
    fn deliver(&mut self) {
        match self.some_queue() {
            Some((from, to)) => self.line(format!("deliver {from} {to}")),
            None => self.event(),
        }
    }

    /// Deliveries until all queues are empty, mostly followed by `show`.
    fn drain(&mut self) {
        while let Some((from, to)) = self.some_queue() {
            if self.is_done() {
                return;
            }
            self.line(format!("deliver {from} {to}"));
        }
        if self.rng.chance(70) {
            self.line("show");
        }
    }

    /// A queue that holds something, by the plan's order.
    fn some_queue(&mut self) -> Option<Pair> {
        let queues = self.network()?.queues.waiting();
        let all: Vec<Pair> = queues.map(|(from, to, _)| (from, to)).collect();
        match self.plan.order {
            Order::Random => self.rng.pick(&all).copied(),
            Order::LowestFirst => all.first().copied(),
            Order::HighestFirst => all.last().copied(),
            Order::Starving(unit) => {
                let others = all.iter().filter(|(a, b)| *a != unit && *b != unit);
                let others: Vec<Pair> = others.copied().collect();
                self.rng.pick(&others).or(all.first()).copied()
            }
        }
    }

    /// A legal event without a message: a cost change mostly, else a link up or
    /// down, mostly one of the plan's.
    fn event(&mut self) {
        let links = self.pairs_where(true);
        if let (Some(&(a, b)), true) = (self.rng.pick(&links), self.rng.chance(60)) {
            let cost = self.draw_cost();
            return self.line(format!("cost {a} {b} {cost}"));
        }
        let known = self.rng.pick(&self.plan.pairs).copied();
        let (a, b) = match known {
            Some(pair) if self.rng.chance(85) => pair,
            _ => self.any_pair(),
        };
        match self.network() {
            Some(network) if network.is_up(a, b) => self.line(format!("down {a} {b}")),
            _ => self.bring_up(a, b),
        }
    }

    /// A link down and up again several times, with few deliveries between.
    fn link_flap(&mut self) {
        let links = self.pairs_where(true);
        let Some(&(a, b)) = self.rng.pick(&links) else {
            return self.event();
        };
        for _ in 0..self.rng.between(1, 5) {
            self.line(format!("down {a} {b}"));
            self.perhaps_deliver();
            self.bring_up(a, b);
            self.perhaps_deliver();
        }
    }

    /// A cost to and fro between two values, with few deliveries between; now
    /// and then the same cost again.
    fn cost_flap(&mut self) {
        let links = self.pairs_where(true);
        let Some(&(a, b)) = self.rng.pick(&links) else {
            return self.event();
        };
        let (one, other) = (self.draw_cost(), self.rng.between(1, HIGHEST_COST));
        for _ in 0..self.rng.between(2, 8) {
            let cost = if self.rng.chance(50) { one } else { other };
            self.line(format!("cost {a} {b} {cost}"));
            self.perhaps_deliver();
        }
    }

    fn perhaps_deliver(&mut self) {
        if self.rng.chance(40) {
            self.deliver();
        }
    }

    /// A link up at costs of the plan, named from either end, the two
    /// directions alike in half of the cases.
    fn bring_up(&mut self, a: UnitNumber, b: UnitNumber) {
        let (a, b) = if self.rng.chance(50) { (a, b) } else { (b, a) };
        let one = self.draw_cost();
        let other = self.draw_cost();
        let back = if self.rng.chance(50) { one } else { other };
        self.line(format!("up {a} {b} {one} {back}"));
    }

    fn draw_cost(&mut self) -> u32 {
        match self.plan.costs {
            Costs::Equal(cost) if self.rng.chance(95) => cost,
            Costs::Equal(_) | Costs::Small => self.rng.between(1, 4),
            Costs::Whole => match self.rng.between(0, 9) {
                0 => 1,
                1 => HIGHEST_COST,
                _ => self.rng.between(1, HIGHEST_COST),
            },
            Costs::Ends => {
                let ends = [1, 2, HIGHEST_COST - 1, HIGHEST_COST];
                *self.rng.pick(&ends).unwrap_or(&1)
            }
        }
    }

    /// Two different units of the present network or, before it, of the plan.
    fn any_pair(&mut self) -> Pair {
        let count = self.network().map_or(self.plan.count, Network::count);
        let a = self.rng.between(0, u32::from(count) - 1) as UnitNumber;
        let step = self.rng.between(1, u32::from(count) - 1) as UnitNumber;
        (a, (a + step) % count)
    }

    /// All ordered pairs of different units whose link is up, or is down.
    fn pairs_where(&self, up: bool) -> Vec<Pair> {
        let Some(network) = self.network() else {
            return Vec::new();
        };
        let count = network.count();
        let all = (0..count).flat_map(|a| (0..count).map(move |b| (a, b)));
        all.filter(|&(a, b)| a != b && network.is_up(a, b) == up)
            .collect()
    }

    /// Ordered pairs whose link is up and whose queue is empty.
    fn pairs_with_empty_queue(&self) -> Vec<Pair> {
        let mut pairs = self.pairs_where(true);
        if let Some(network) = self.network() {
            pairs.retain(|&(a, b)| network.queues.queue(a, b).is_empty());
        }
        pairs
    }
}
