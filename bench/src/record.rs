//! Events of single hubs, recorded with the table that each one met.

use crate::site::{Site, Step};
use hubs::call::Call;
use hubs::table;
use second::network::Network;

/// An event and the table of its unit before it.
pub struct Recorded {
    /// The table.
    pub table: Vec<u8>,
    /// The event.
    pub call: Call,
}

/// The events that are recorded for each network.
const EVENTS: usize = 1_000;

/// The events of a network once it has formed, all of them accepted.
pub fn events(shape: &str, count: u32) -> Vec<Recorded> {
    let mut site = Site::formed(shape, count);
    let mut recorded = Vec::new();
    while recorded.len() < EVENTS {
        let step = site.next();
        for (at, call) in calls(&site.network, step) {
            let table = table::laid_out(site.network.unit(at as u8));
            recorded.push(Recorded { table, call });
        }
        site.take(step);
    }
    recorded.truncate(EVENTS);
    recorded
}

/// The units that a step is an event of, each with its call.
fn calls(network: &Network, step: Step) -> Vec<(u32, Call)> {
    match step {
        Step::Up(a, b, of_a, of_b) => vec![(a, Call::Up(b, of_a)), (b, Call::Up(a, of_b))],
        Step::Cost(a, b, cost) => vec![(a, Call::Cost(b, cost))],
        Step::Down(a, b) => vec![(a, Call::Down(b)), (b, Call::Down(a))],
        Step::Deliver(a, b) => {
            let first = network.queues.queue(a as u8, b as u8)[0];
            let bytes = first.to_bytes(network.count().into());
            vec![(b, Call::Message(a, bytes.expect("a legal message")))]
        }
    }
}
