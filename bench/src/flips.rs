//! What the test of a table notices: each bit of a hub's table turned round, one
//! at a time, in settled meshes.

use crate::site::Site;
use hubs::{product, table};
use second::limits::{ACCEPTED, UNITS};
use second::network::Network;
use second::unit_table::{AWAITED, COPIES, COSTS, FEASIBLE, NUMBER, SUCCESSORS, TREE, WORDS};

/// The counts of units whose meshes are looked at.
const COUNTS: [u32; 4] = [2, 4, 8, UNITS as u32];

/// The bits of a number.
const BITS: usize = 32;

/// The parts of a table, with the numbers that they begin with.
const PARTS: [(&str, usize); 8] = [
    ("count", 0),
    ("own number", NUMBER),
    ("costs", COSTS),
    ("waits", AWAITED),
    ("own tree", TREE),
    ("feasible", FEASIBLE),
    ("successors", SUCCESSORS),
    ("copies", COPIES),
];

/// For each mesh the bits of hub 0's table that pass the test when turned round,
/// and where they stand.
pub fn print() {
    print!("{:<20}", "mesh, costs");
    for (name, _) in PARTS {
        print!("{name:>11}");
    }
    println!("{:>11}{:>8}", "passed", "of");
    for count in COUNTS {
        print_mesh(count, "1 to 20", &Site::formed("mesh", count).network);
        print_mesh(count, "all 1", &even(count));
    }
}

/// A settled mesh whose links all have the same cost.
fn even(count: u32) -> Network {
    let mut network = Network::fresh(count).expect("a legal count");
    for (a, b) in (0..count).flat_map(|b| (0..b).map(move |a| (a, b))) {
        network.up(a, b, 1, 1).expect("a link that is down");
    }
    loop {
        let waiting = network.queues.waiting().next();
        let Some((from, to)) = waiting.map(|it| (it.0, it.1)) else {
            return network;
        };
        let delivered = network.deliver(from.into(), to.into());
        delivered.expect("a message that units have sent");
    }
}

fn print_mesh(count: u32, costs: &str, network: &Network) {
    let passed = passed(&table::laid_out(network.unit(0)));
    print!("{:<20}", format!("{count}, {costs}"));
    for number in passed {
        print!("{number:>11}");
    }
    let all: usize = passed.iter().sum();
    println!("{all:>11}{:>8}", BITS * WORDS);
}

/// By parts, the bits that pass.
fn passed(fit: &[u8]) -> [usize; PARTS.len()] {
    assert!(product::state(fit) >= ACCEPTED, "the table is fit");
    let mut passed = [0; PARTS.len()];
    let mut bytes = fit.to_vec();
    for bit in 0..BITS * WORDS {
        bytes[bit / 8] ^= 1 << (bit % 8);
        if product::state(&bytes) >= ACCEPTED {
            let part = PARTS.iter().rposition(|&(_, first)| first <= bit / BITS);
            passed[part.unwrap_or(0)] += 1;
        }
        bytes[bit / 8] ^= 1 << (bit % 8);
    }
    passed
}
