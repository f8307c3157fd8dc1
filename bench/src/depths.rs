//! The calls whose stack is measured: events of hubs and of networks, and all
//! questions on the tables that they met; and all calls on meters.

use crate::site::{Site, Step};
use crate::stack::{self, Measured};
use crate::{networks_measured, record};
use hubs::call::Call as HubCall;
use meters::call::{fields, Call as MeterCall, FIGURES};
use networks::call::{Call as NetworkCall, Trace, PATH};
use second::limits::FIRMWARE_ROOM;
use second::meter::Meter;
use second::meter_table::laid_out;
use second::network_tables::Tables;
use std::collections::BTreeMap;

/// Of so many recorded events one has its table asked everything.
const ASKED_EVERY: usize = 50;

/// The steps of each network that are measured.
const STEPS: usize = 400;

/// The most bytes of stack of each function of a hub, over all networks.
pub fn of_hubs() -> BTreeMap<&'static str, usize> {
    most(hub_calls)
}

/// The most bytes of stack of each function of a network.
pub fn of_networks() -> BTreeMap<&'static str, usize> {
    most(network_calls)
}

/// The most bytes of stack of each function of a meter.
pub fn of_meters() -> BTreeMap<&'static str, usize> {
    most(meter_calls)
}

fn most(calls: impl Fn(&str, u32) -> Vec<Measured>) -> BTreeMap<&'static str, usize> {
    let mut most = BTreeMap::new();
    for (shape, count) in networks_measured() {
        for (name, used) in stack::used(calls(shape, count)) {
            let kept = most.entry(name).or_insert(0);
            *kept = used.max(*kept);
        }
    }
    most
}

fn hub_calls(shape: &str, count: u32) -> Vec<Measured> {
    let mut calls = Vec::new();
    for (number, event) in record::events(shape, count).into_iter().enumerate() {
        if number % ASKED_EVERY == 0 {
            let questions = [
                HubCall::State,
                HubCall::Distance(1),
                HubCall::Feasible(1),
                HubCall::Successors(1),
                HubCall::Link(1),
                HubCall::Awaits(1),
            ];
            let asked = questions.map(|call| hub_call(event.table.clone(), call));
            calls.extend(asked);
        }
        calls.push(hub_call(event.table, event.call));
    }
    calls
}

fn hub_call(before: Vec<u8>, call: HubCall) -> Measured {
    let (mut table, mut out) = (before.clone(), vec![0; FIRMWARE_ROOM]);
    Measured {
        name: call.name(),
        call: Box::new(move || {
            table.copy_from_slice(&before);
            call.of_product(&mut table, &mut out);
        }),
    }
}

fn network_calls(shape: &str, count: u32) -> Vec<Measured> {
    let mut site = Site::formed(shape, count);
    let mut calls = Vec::new();
    for number in 0..STEPS {
        let step = site.next();
        let tables = Tables::of(&site.network);
        if number % ASKED_EVERY == 0 {
            let asked = questions(count).map(|call| network_call(tables.clone(), call));
            calls.extend(asked);
        }
        calls.push(network_call(tables, event(step)));
        site.take(step);
    }
    calls
}

fn event(step: Step) -> NetworkCall {
    match step {
        Step::Up(a, b, of_a, of_b) => NetworkCall::Up(a, b, of_a, of_b),
        Step::Cost(a, b, cost) => NetworkCall::Cost(a, b, cost),
        Step::Down(a, b) => NetworkCall::Down(a, b),
        Step::Deliver(a, b) => NetworkCall::Deliver(a, b),
    }
}

fn questions(count: u32) -> [NetworkCall; 7] {
    [
        NetworkCall::State(0),
        NetworkCall::Distance(0, 1),
        NetworkCall::Feasible(0, 1),
        NetworkCall::Successors(0, 1),
        NetworkCall::Link(0, 1),
        NetworkCall::Awaits(0, 1),
        NetworkCall::Trace(Trace {
            start: 0,
            destination: count - 1,
            choices: vec![0; count as usize],
            places: PATH,
        }),
    ]
}

fn network_call(before: Tables, call: NetworkCall) -> Measured {
    let (mut tables, mut path) = (before.clone(), [0; PATH]);
    // A trace is named without its ending.
    let name = call.kind(0);
    Measured {
        name,
        call: Box::new(move || {
            tables.units.copy_from_slice(&before.units);
            tables.queues.copy_from_slice(&before.queues);
            call.of_product(&mut tables, &mut path);
        }),
    }
}

/// All calls on a meter with one frame, over some of the tables of a network.
fn meter_calls(shape: &str, count: u32) -> Vec<Measured> {
    let mut site = Site::formed(shape, count);
    let mut calls = Vec::new();
    for number in 0..STEPS {
        let step = site.next();
        if number % ASKED_EVERY == 0 {
            let mut meter = Meter::default();
            let entered = meter.enter(&site.network, 1, 0, 1);
            entered.expect("a legal frame");
            let changes = [
                MeterCall::Enter(1, 0, 1),
                MeterCall::Move(0, 1),
                MeterCall::Drop(0),
            ];
            let asked = changes.into_iter().chain(FIGURES).chain(fields(0));
            let tables = Tables::of(&site.network);
            calls.extend(asked.map(|call| meter_call(tables.clone(), laid_out(&meter), call)));
        }
        site.take(step);
    }
    calls
}

fn meter_call(tables: Tables, before: Vec<u8>, call: MeterCall) -> Measured {
    let mut meter = before.clone();
    Measured {
        // Named without what became of a frame.
        name: call.kind(0, false),
        call: Box::new(move || {
            meter.copy_from_slice(&before);
            call.of_product(&tables, &mut meter);
        }),
    }
}
