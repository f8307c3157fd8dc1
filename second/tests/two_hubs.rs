//! The life of two hubs that docs/FIRMWARE.md tells, byte by byte.

use second::refusal::Refusal;
use second::tree::Distance;
use second::unit::{Outbox, Unit};

const FROM_0: [u8; 8] = [1, 0, 2, 1, 1, 0, 0, 5];
const FROM_1: [u8; 8] = [1, 1, 2, 1, 0, 1, 0, 7];
const DEARER: [u8; 8] = [1, 0, 2, 1, 1, 0, 0, 9];
const SEEN_BY_0: [u8; 4] = [1, 0, 1, 0];
const SEEN_BY_1: [u8; 4] = [1, 1, 1, 0];

/// What stands in the buffer after an event: each neighbour's number, then its
/// message.
fn buffer(event: Result<Outbox, Refusal>) -> Vec<u8> {
    let mut bytes = Vec::new();
    for (to, message) in event.unwrap() {
        bytes.push(to);
        bytes.extend(message.to_bytes(2).unwrap());
    }
    bytes
}

fn to(neighbour: u8, message: &[u8]) -> Vec<u8> {
    [&[neighbour], message].concat()
}

/// Whether the hub is ACTIVE, then distance and feasible distance of the other
/// one.
fn view(hub: &Unit) -> (bool, Distance, Distance) {
    let other = 1 - hub.number;
    (hub.is_active(), hub.distance(other), hub.feasible[&other])
}

fn finite(active: bool, distance: u32, feasible: u32) -> (bool, Distance, Distance) {
    (
        active,
        Distance::Finite(distance),
        Distance::Finite(feasible),
    )
}

/// Both hubs after the link is up and all four frames have arrived.
fn linked() -> (Unit, Unit) {
    let mut hub_0 = Unit::fresh(2, 0).unwrap();
    let mut hub_1 = Unit::fresh(2, 1).unwrap();
    assert_eq!(buffer(hub_0.up(1, 5)), to(1, &FROM_0));
    assert_eq!(buffer(hub_1.up(0, 7)), to(0, &FROM_1));
    assert_eq!(view(&hub_0), finite(true, 5, 5));
    assert_eq!(view(&hub_1), finite(true, 7, 7));
    assert_eq!(hub_0.successors[&1], [1].into());
    assert_eq!(hub_1.successors[&0], [0].into());
    assert_eq!(buffer(hub_1.message_bytes(0, &FROM_0)), to(0, &SEEN_BY_1));
    assert!(hub_1.is_active());
    assert_eq!(buffer(hub_0.message_bytes(1, &FROM_1)), to(1, &SEEN_BY_0));
    assert!(hub_0.is_active());
    assert_eq!(buffer(hub_0.message_bytes(1, &SEEN_BY_1)), []);
    assert_eq!(buffer(hub_1.message_bytes(0, &SEEN_BY_0)), []);
    assert_eq!(view(&hub_0), finite(false, 5, 5));
    assert_eq!(view(&hub_1), finite(false, 7, 7));
    (hub_0, hub_1)
}

/// The same after the cost from hub 0 became 9.
fn dearer() -> (Unit, Unit) {
    let (mut hub_0, mut hub_1) = linked();
    assert_eq!(buffer(hub_0.cost(1, 9)), to(1, &DEARER));
    assert_eq!(view(&hub_0), finite(true, 9, 5));
    assert_eq!(buffer(hub_1.message_bytes(0, &DEARER)), to(0, &SEEN_BY_1));
    assert_eq!(view(&hub_1), finite(false, 7, 7));
    assert_eq!(buffer(hub_0.message_bytes(1, &SEEN_BY_1)), []);
    assert_eq!(view(&hub_0), finite(false, 9, 9));
    (hub_0, hub_1)
}

#[test]
fn link_up_cost_and_down() {
    let (mut hub_0, mut hub_1) = dearer();
    assert_eq!(buffer(hub_0.down(1)), []);
    assert_eq!(buffer(hub_1.down(0)), []);
    assert_eq!(Ok(&hub_0), Unit::fresh(2, 0).as_ref());
    assert_eq!(Ok(&hub_1), Unit::fresh(2, 1).as_ref());
    assert_eq!(hub_1.message_bytes(0, &DEARER), Err(6));
}

#[test]
fn refusals() {
    let (mut hub_0, mut hub_1) = dearer();
    assert_eq!(hub_0.message_bytes(1, &SEEN_BY_1), Err(10));
    assert_eq!(hub_1.message_bytes(0, &DEARER), Err(11));
    assert_eq!(hub_1.message_bytes(0, &DEARER[..7]), Err(9));
    assert_eq!(hub_0.message_bytes(1, &DEARER), Err(9));
    assert_eq!(hub_0.up(1, 5), Err(5));
    assert_eq!(hub_0.cost(1, 0), Err(4));
    assert_eq!(hub_0.cost(0, 1), Err(3));
    assert_eq!(hub_0.cost(2, 1), Err(3));
    assert_eq!(buffer(hub_0.cost(1, 9)), []);
}
