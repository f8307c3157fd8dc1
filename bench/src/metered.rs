//! Calls on a meter over a formed mesh, recorded with the tables that each one
//! met, and made by either side. Three more kinds tell what all of them share:
//! one that is refused at the network's first number, once the bytes are numbers;
//! one that is refused at the meter's first place, once the network is found fit;
//! and one that is refused for its frame, once both are.
//!
//! Both sides are lent the same tables and leave the same: each tests that they
//! are fit, answers, and puts the meter where it belongs.

use crate::site::Site;
use meters::call::Call;
use second::limits::FRAMES;
use second::meter::Meter;
use second::meter_table::{laid_out, PLACES, SIZE};
use second::network::Network;
use second::network_tables::Tables;
use second::table_bytes::set_number_at;
use second::unit_table::COUNT;
use std::hint::black_box;

/// The calls that are recorded of each kind.
const RECORDED: u32 = 100;

/// The steps of the network from one recorded call to the next.
const STEPS: usize = 3;

/// A call and the tables before it.
#[derive(Clone)]
pub struct Recorded {
    tables: Tables,
    meter: Vec<u8>,
    call: Call,
}

/// All calls of a kind, made by one side; answers the sum of the answers.
type Side = fn(&mut [Recorded]) -> u64;

/// Defines the kinds of calls, with a function of its own for each side, by which
/// its instructions are counted. The names keep them from being one function.
macro_rules! kinds {
    ($($kind:literal: $product:ident, $second:ident;)*) => {
        $(
            /// The product's calls of this kind.
            #[no_mangle]
            #[inline(never)]
            pub fn $product(calls: &mut [Recorded]) -> u64 {
                black_box(stringify!($product));
                by_product(calls)
            }

            /// The second program's calls of this kind.
            #[no_mangle]
            #[inline(never)]
            pub fn $second(calls: &mut [Recorded]) -> u64 {
                black_box(stringify!($second));
                by_second(calls)
            }
        )*
        const KINDS: &[(&str, Side, Side)] = &[$(($kind, $product, $second)),*];
    };
}

kinds! {
    "bytes": meter_bytes, second_meter_bytes;
    "network": meter_network, second_meter_network;
    "meter": meter_meter, second_meter_meter;
    "enter": meter_enter, second_meter_enter;
    "move": meter_move, second_meter_move;
    "drop": meter_drop, second_meter_drop;
    "entered": meter_entered, second_meter_entered;
}

fn by_product(calls: &mut [Recorded]) -> u64 {
    let mut sum = 0;
    for it in calls {
        sum += black_box(it.call.of_product(&it.tables, &mut it.meter));
    }
    sum
}

fn by_second(calls: &mut [Recorded]) -> u64 {
    let mut sum = 0;
    for it in calls {
        sum += black_box(it.call.of_second_on_tables(&it.tables, &mut it.meter));
    }
    sum
}

/// A mesh of so many units at different times, with two units whose link is up.
fn networks(count: u32) -> Vec<(Network, u32, u32)> {
    let mut site = Site::formed("mesh", count);
    let mut networks = Vec::new();
    for number in 0..RECORDED {
        let (unit, destination) = (number % count, (number + 1) % count);
        let mut steps = 0;
        while steps < STEPS || !site.network.is_up(unit as u8, destination as u8) {
            let step = site.next();
            site.take(step);
            steps += 1;
        }
        networks.push((site.network.clone(), unit, destination));
    }
    networks
}

/// A meter with half of its places taken. The frame in a unit's place is at that
/// unit, for the next one.
fn half_full(network: &Network) -> Meter {
    let count = u32::from(network.count());
    let mut meter = Meter::default();
    for place in 0..FRAMES as u32 / 2 {
        let unit = place % count;
        let entered = meter.enter(network, 1_000, unit, (unit + 1) % count);
        entered.expect("a legal frame");
    }
    meter
}

/// A call of a kind.
fn recorded(kind: &str, network: &Network, unit: u32, destination: u32) -> Recorded {
    let mut tables = Tables::of(network);
    let mut meter = laid_out(&half_full(network));
    let frame = unit;
    let call = match kind {
        "bytes" => {
            tables.set_number(COUNT, 0);
            Call::Drop(frame)
        }
        "network" => {
            set_number_at(&mut meter, PLACES + SIZE, u32::MAX);
            Call::Drop(frame)
        }
        "meter" => Call::Drop(FRAMES as u32),
        "enter" => Call::Enter(1_000, unit, destination),
        // A destination whose link is up is a successor: its copy puts it at 0.
        "move" => Call::Move(frame, destination),
        "drop" => Call::Drop(frame),
        _ => Call::Entered,
    };
    Recorded {
        tables,
        meter,
        call,
    }
}

/// Each side once over each kind of call; what they answer and leave is compared.
/// Prints each kind with the number of its calls.
pub fn once(count: u32) {
    let networks = networks(count);
    for &(kind, with_product, with_second) in KINDS {
        let calls = networks
            .iter()
            .map(|(network, unit, destination)| recorded(kind, network, *unit, *destination));
        let mut product: Vec<Recorded> = calls.collect();
        let mut second = product.clone();
        let (ours, theirs) = (with_product(&mut product), with_second(&mut second));
        assert_eq!(ours, theirs, "both sides answer the same to {kind}");
        let alike = product.iter().zip(&second).all(|(a, b)| a.meter == b.meter);
        assert!(alike, "both sides leave the same meters after {kind}");
        println!("{kind} {RECORDED}");
    }
}
