//! Measures the C border of one hub, deliveries in a network and calls on a
//! meter, and the second program beside them.
//!
//! Both sides are given the same calls, recorded once: tables and an event. Both
//! read the tables, test that they are fit, run the event, and lay out tables
//! and messages again.
//!
//! * `bench networks`: the shapes and counts of the networks that are measured.
//! * `bench time`: events per second, for each network.
//! * `bench once SHAPE COUNT`: each side once over the recorded events, for a
//!   count of instructions by the functions [`with_product`] and
//!   [`with_second`]; prints the number of events.
//! * `bench deliveries SHAPE COUNT`: each side once over recorded deliveries of a
//!   network, for the functions `network_delivers` and `second_delivers`; prints
//!   the number of deliveries.
//! * `bench metered COUNT`: each side once over recorded calls on a meter over a
//!   mesh, for the functions `meter_KIND` and `second_meter_KIND`; prints each
//!   kind of call with the number of calls.
//! * `bench bytes`: the bytes of a network's tables and queues, and of a meter.
//! * `bench stack`: the bytes of stack that a call uses, the most over all
//!   events and questions of all networks.
//! * `bench flips`: of the bits of a hub's table, those that pass the test of the
//!   table when they are turned round.

mod deliveries;
mod depths;
mod flips;
mod metered;
mod record;
mod site;
mod stack;

use hubs::table;
use record::Recorded;
use second::limits::{ACCEPTED, FIRMWARE_ROOM, UNITS};
use site::SHAPES;
use std::collections::BTreeMap;
use std::env;
use std::hint::black_box;
use std::process::ExitCode;
use std::time::{Duration, Instant};

/// The counts of units that are measured.
const COUNTS: [u32; 3] = [4, 8, UNITS as u32];

/// How long each side is measured.
const LONG: Duration = Duration::from_millis(700);

fn main() -> ExitCode {
    let words: Vec<String> = env::args().skip(1).collect();
    let words: Vec<&str> = words.iter().map(String::as_str).collect();
    match words.as_slice() {
        ["networks"] => {
            networks_measured().for_each(|(shape, count)| println!("{shape} {count}"));
        }
        ["time"] => time(),
        ["stack"] => stack(),
        ["bytes"] => deliveries::print_bytes(),
        ["flips"] => flips::print(),
        ["metered", count] => {
            let Ok(count) = count.parse() else {
                return ExitCode::from(2);
            };
            metered::once(count);
        }
        [what @ ("once" | "deliveries"), shape, count] => {
            let Ok(count) = count.parse() else {
                return ExitCode::from(2);
            };
            match *what {
                "once" => once(shape, count),
                _ => deliveries::once(shape, count),
            }
        }
        _ => {
            eprintln!(
                "usage: bench networks | time | stack | bytes | flips | once SHAPE COUNT | \
                 deliveries SHAPE COUNT | metered COUNT"
            );
            return ExitCode::from(2);
        }
    }
    ExitCode::SUCCESS
}

/// The networks that are measured.
fn networks_measured() -> impl Iterator<Item = (&'static str, u32)> {
    let with_counts = |shape| COUNTS.map(|count| (shape, count));
    SHAPES.into_iter().flat_map(with_counts)
}

/// The product's border over all recorded events; answers the bytes sent.
#[no_mangle]
#[inline(never)]
pub fn with_product(events: &[Recorded]) -> u64 {
    let (mut table, mut out) = ([0; table::BYTES], [0; FIRMWARE_ROOM]);
    let mut sent = 0;
    for event in events {
        table.copy_from_slice(&event.table);
        let answer = event.call.of_product(&mut table, &mut out);
        sent += u64::from(answer - ACCEPTED);
        black_box((&table, &out));
    }
    sent
}

/// The second program over all recorded events; answers the bytes sent.
#[no_mangle]
#[inline(never)]
pub fn with_second(events: &[Recorded]) -> u64 {
    let (mut table, mut out) = ([0; table::BYTES], [0; FIRMWARE_ROOM]);
    let mut sent = 0;
    for event in events {
        table.copy_from_slice(&event.table);
        let answer = event.call.of_second_on_table(&mut table, &mut out);
        sent += u64::from(answer - ACCEPTED);
        black_box((&table, &out));
    }
    sent
}

fn time() {
    println!(
        "network    events/s, C border    events/s, second    ratio (above 1: C border faster)"
    );
    for (shape, count) in networks_measured() {
        let events = record::events(shape, count);
        let product = per_second(&events, with_product);
        let second = per_second(&events, with_second);
        let ratio = product / second;
        println!("{shape:5} {count:>2} {product:>21.0} {second:>19.0} {ratio:>8.2}");
    }
}

/// Events per second, over as many rounds as fit the time.
fn per_second(events: &[Recorded], side: fn(&[Recorded]) -> u64) -> f64 {
    side(events);
    let start = Instant::now();
    let mut done = 0;
    while start.elapsed() < LONG {
        black_box(side(events));
        done += events.len();
    }
    done as f64 / start.elapsed().as_secs_f64()
}

fn once(shape: &str, count: u32) {
    let events = record::events(shape, count);
    let (product, second) = (with_product(&events), with_second(&events));
    assert_eq!(product, second, "both sides send the same");
    println!("{}", events.len());
}

fn stack() {
    print_stack("hub", &depths::of_hubs());
    print_stack("network", &depths::of_networks());
    print_stack("meter", &depths::of_meters());
}

fn print_stack(what: &str, used: &BTreeMap<&str, usize>) {
    for (name, used) in used {
        let name = format!("{what}_{name}");
        println!("{name:23} {used:>6} bytes");
    }
    let most = used.values().max().copied().unwrap_or(0);
    println!("{what:15} at most {most:>6} bytes");
}
