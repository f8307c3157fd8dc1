//! Deliveries in whole networks, recorded with the tables that each one met, and
//! made by either side.
//!
//! Both sides are lent the same tables and leave the same: each tests that they
//! are fit, delivers, and puts the tables and messages where they belong.

use crate::site::{Site, Step};
use networks::call::Call;
use second::limits::ACCEPTED;
use second::meter_table::BYTES as METER_BYTES;
use second::network_tables::{Tables, QUEUES_BYTES, UNITS_BYTES};
use std::hint::black_box;

/// A delivery and the tables before it.
pub struct Recorded {
    tables: Tables,
    call: Call,
}

/// The deliveries that are recorded for each network. Each has all tables of
/// its network, so they are fewer than a hub's events.
const DELIVERIES: usize = 200;

/// The steps from one recorded delivery to the next.
const STEPS: usize = 7;

/// Deliveries of a network once it has formed, with some steps between them.
pub fn recorded(shape: &str, count: u32) -> Vec<Recorded> {
    let mut site = Site::formed(shape, count);
    let mut recorded = Vec::new();
    let mut steps = 0;
    while recorded.len() < DELIVERIES {
        let step = site.next();
        if let (Step::Deliver(a, b), true) = (step, steps >= STEPS) {
            recorded.push(Recorded {
                tables: Tables::of(&site.network),
                call: Call::Deliver(a, b),
            });
            steps = 0;
        }
        site.take(step);
        steps += 1;
    }
    recorded
}

/// Each side once; the tables that they leave are compared. Prints the number
/// of deliveries.
pub fn once(shape: &str, count: u32) {
    let deliveries = recorded(shape, count);
    let (mut product, mut second) = (copies(&deliveries), copies(&deliveries));
    network_delivers(&deliveries, &mut product);
    second_delivers(&deliveries, &mut second);
    assert!(product == second, "both sides leave the same tables");
    println!("{}", deliveries.len());
}

fn copies(deliveries: &[Recorded]) -> Vec<Tables> {
    deliveries.iter().map(|it| it.tables.clone()).collect()
}

/// The product's network over all recorded deliveries.
#[no_mangle]
#[inline(never)]
pub fn network_delivers(deliveries: &[Recorded], tables: &mut [Tables]) {
    for (delivery, tables) in deliveries.iter().zip(tables) {
        let answer = delivery.call.of_product(tables, &mut []);
        assert_eq!(black_box(answer), ACCEPTED);
    }
}

/// The second program over all recorded deliveries.
#[no_mangle]
#[inline(never)]
pub fn second_delivers(deliveries: &[Recorded], tables: &mut [Tables]) {
    for (delivery, tables) in deliveries.iter().zip(tables) {
        let answer = delivery.call.of_second_on_tables(tables, &mut []);
        assert_eq!(black_box(answer), ACCEPTED);
    }
}

/// The bytes that a network takes, whatever its count, and those of a meter.
pub fn print_bytes() {
    println!("units   {UNITS_BYTES:>6} bytes");
    println!("queues  {QUEUES_BYTES:>6} bytes");
    println!("both    {:>6} bytes", UNITS_BYTES + QUEUES_BYTES);
    println!("meter   {METER_BYTES:>6} bytes");
}
