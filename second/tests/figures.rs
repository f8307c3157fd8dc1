//! The figures to check by: P1 to P12, the printed script and the easy slips.

use second::message::{self, Message};
use second::network::Network;
use second::script;
use second::tracer::Ending;
use second::tree::{Differences, Distance, Link, UnitNumber};

fn network(count: u32) -> Network {
    Network::fresh(count).unwrap()
}

/// Distance, feasible distance and successors of a unit for a destination.
fn view(network: &Network, unit: u32, j: u32) -> (Distance, Distance, Vec<UnitNumber>) {
    let successors = network.successors(unit, j).unwrap();
    (
        network.distance(unit, j).unwrap(),
        network.feasible(unit, j).unwrap(),
        successors.iter().copied().collect(),
    )
}

fn finite(
    distance: u32,
    feasible: u32,
    successors: &[UnitNumber],
) -> (Distance, Distance, Vec<UnitNumber>) {
    (
        Distance::Finite(distance),
        Distance::Finite(feasible),
        successors.to_vec(),
    )
}

fn bytes(network: &Network, from: UnitNumber, to: UnitNumber) -> Vec<Vec<u8>> {
    let count = u32::from(network.count());
    let queue = network.queues.queue(from, to);
    queue.iter().map(|m| m.to_bytes(count).unwrap()).collect()
}

fn deliver_all(network: &mut Network) {
    while let Some((from, to)) = first_waiting(network) {
        network.deliver(from.into(), to.into()).unwrap();
    }
}

fn first_waiting(network: &Network) -> Option<(UnitNumber, UnitNumber)> {
    let mut waiting = network.queues.waiting();
    waiting.next().map(|(from, to, _)| (from, to))
}

/// Two units, up 0-1 at costs 5 and 7.
fn pair() -> Network {
    let mut network = network(2);
    network.up(0, 1, 5, 7).unwrap();
    network
}

/// Both directions alike, 0-1 at 1, 1-2 at 1, 0-2 at 5, all delivered.
fn triangle() -> Network {
    let mut network = network(3);
    network.up(0, 1, 1, 1).unwrap();
    network.up(1, 2, 1, 1).unwrap();
    network.up(0, 2, 5, 5).unwrap();
    deliver_all(&mut network);
    network
}

/// The triangle after the cost from 1 to 2 became 10.
fn dearer_triangle() -> Network {
    let mut network = triangle();
    network.cost(1, 2, 10).unwrap();
    network
}

#[test]
fn p1_counts() {
    for count in [0, 1, 17, 258, u32::MAX] {
        assert_eq!(Network::fresh(count), Err(1));
        assert_eq!(message::read(count, &[1, 0, 1, 0]), Err(1));
        assert_eq!(message::write(count, 1, 0, &[], &mut [0; 4], 0), Err(1));
    }
    for count in 2..=16 {
        assert_eq!(u32::from(network(count).count()), count);
        assert!(message::read(count, &[1, 0, 1, 0]).is_ok());
        assert_eq!(message::write(count, 1, 0, &[], &mut [0; 4], 0), Ok(4));
    }
}

#[test]
fn p2_costs() {
    for cost in [0, 65_536, u32::MAX] {
        assert_eq!(network(2).up(0, 1, cost, 1), Err(4));
        assert_eq!(network(2).up(0, 1, 1, cost), Err(4));
        assert_eq!(pair().cost(0, 1, cost), Err(4));
    }
    for cost in [1, 65_535] {
        assert_eq!(network(2).up(0, 1, cost, cost), Ok(()));
        assert_eq!(pair().cost(1, 0, cost), Ok(()));
    }
}

#[test]
fn p3_two_units() {
    let network = pair();
    assert!(network.unit(0).is_active());
    assert_eq!(view(&network, 0, 1), finite(5, 5, &[1]));
    assert!(network.unit(1).is_active());
    assert_eq!(view(&network, 1, 0), finite(7, 7, &[0]));
    assert_eq!(view(&network, 0, 0), finite(0, 0, &[]));
}

#[test]
fn p4_bytes_of_the_first_message() {
    assert_eq!(bytes(&pair(), 0, 1), [[1, 0, 2, 1, 1, 0, 0, 5]]);
}

#[test]
fn p5_acknowledgment_while_active() {
    let mut network = pair();
    network.deliver(0, 1).unwrap();
    assert!(network.unit(1).is_active());
    let queue = bytes(&network, 1, 0);
    assert_eq!(queue.len(), 2);
    assert_eq!(queue[1], [1, 1, 1, 0]);
}

/// After P5 the update, which came first, is delivered first: unit 0 goes on
/// awaiting the acknowledgment behind it.
#[test]
fn queues_are_first_in_first_out() {
    let mut network = pair();
    network.deliver(0, 1).unwrap();
    network.deliver(1, 0).unwrap();
    assert!(network.unit(0).is_active());
    assert_eq!(network.unit(0).neighbours[&1].copy, network.unit(1).tree);
    assert_eq!(bytes(&network, 1, 0), [[1, 1, 1, 0]]);
    network.deliver(1, 0).unwrap();
    assert!(!network.unit(0).is_active());
}

#[test]
fn p6_down_leaves_nothing() {
    let mut network = pair();
    network.down(0, 1).unwrap();
    let nothing = (Distance::Unreachable, Distance::Unreachable, vec![]);
    for (unit, other) in [(0, 1), (1, 0)] {
        assert!(!network.unit(unit as UnitNumber).is_active());
        assert_eq!(view(&network, unit, other), nothing);
    }
    assert!(network.queues.all_empty());
    assert_eq!(network, Network::fresh(2).unwrap());
}

#[test]
fn p7_two_successors() {
    let network = triangle();
    assert_eq!(view(&network, 0, 2), finite(2, 2, &[1, 2]));
}

#[test]
fn p8_an_equal_distance_is_no_successor() {
    let network = triangle();
    assert_eq!(view(&network, 0, 1), finite(1, 1, &[1]));
    let copy_of_2 = &network.unit(0).neighbours[&2].copy;
    assert_eq!(copy_of_2.distance(1), Distance::Finite(1));
}

#[test]
fn p9_tracing() {
    let network = triangle();
    let mut path = [99; 4];
    let lowest = network.trace(0, 2, &[0, 0], &mut path);
    assert_eq!(lowest, Ok(Ending::Arrived { hops: 2 }));
    assert_eq!(path, [0, 1, 2, 99]);
    let mut path = [99; 4];
    let highest = network.trace(0, 2, &[1, 1], &mut path);
    assert_eq!(highest, Ok(Ending::Arrived { hops: 1 }));
    assert_eq!(path, [0, 2, 99, 99]);
}

#[test]
fn p10_feasible_stays_when_the_distance_rises() {
    let network = dearer_triangle();
    assert_eq!(view(&network, 1, 2), finite(10, 1, &[2]));
    let sent = Message {
        sender: 1,
        acknowledgment: false,
        update: Some(Differences::from([(2, Some(Link { head: 1, cost: 10 }))])),
    };
    assert_eq!(network.queues.queue(1, 0), [&sent]);
    assert_eq!(network.queues.queue(1, 2), [&sent]);
}

#[test]
fn p11_the_neighbour_learns_it() {
    let mut network = dearer_triangle();
    network.deliver(1, 0).unwrap();
    assert_eq!(view(&network, 0, 2), finite(5, 2, &[2]));
}

#[test]
fn p12_acknowledged_and_active_again() {
    let mut network = dearer_triangle();
    for (from, to) in [(1, 0), (0, 1), (1, 2), (2, 1)] {
        network.deliver(from, to).unwrap();
    }
    assert_eq!(view(&network, 1, 2), finite(6, 6, &[0, 2]));
    assert!(network.unit(1).is_active());
}

/// After P3 the cost 0 to 1 becomes 9 at unit 0. Taking the old distances aside
/// after the recomputation would give the feasible distance 9.
#[test]
fn slip_old_distances_are_taken_before_recomputing() {
    let mut network = pair();
    network.cost(0, 1, 9).unwrap();
    for (from, to) in [(0, 1), (1, 0), (1, 0)] {
        network.deliver(from, to).unwrap();
    }
    assert_eq!(view(&network, 0, 1), finite(9, 5, &[1]));
}

/// While ACTIVE the cost is noted but tree and feasible distance stay.
#[test]
fn slip_no_recomputing_while_active() {
    let mut network = pair();
    network.cost(0, 1, 2).unwrap();
    assert_eq!(view(&network, 0, 1), finite(5, 5, &[1]));
    assert_eq!(network.unit(0).neighbours[&1].cost, 2);
    assert_eq!(network.queues.queue(0, 1).len(), 1);
}

/// Unit 1 awaits 0 and 2. When 2 goes down and 0 acknowledges, in either
/// order, it is through.
#[test]
fn slip_no_waiting_for_a_neighbour_that_went_down() {
    let mut down_first = dearer_triangle();
    down_first.down(1, 2).unwrap();
    assert!(down_first.unit(1).is_active(), "0 is still awaited");
    down_first.deliver(1, 0).unwrap();
    down_first.deliver(0, 1).unwrap();
    let awaited = |network: &Network| network.unit(1).neighbours[&0].awaited;
    assert_eq!(down_first.distance(1, 2), Ok(Distance::Finite(6)));
    assert!(awaited(&down_first), "its new tree is on its way");

    let mut down_last = dearer_triangle();
    down_last.deliver(1, 0).unwrap();
    down_last.deliver(0, 1).unwrap();
    assert_eq!(down_last.distance(1, 2), Ok(Distance::Finite(10)));
    down_last.down(1, 2).unwrap();
    assert_eq!(down_last.distance(1, 2), Ok(Distance::Finite(6)));
    assert!(awaited(&down_last), "its new tree is on its way");
}

#[test]
fn the_printed_script() {
    let input = b"units 2\nup 0 1 5 7\ndeliver 0 1\ndeliver 0 1\nshow\n";
    let expected = "ok\nok\nok\nrefused 8\nunit 0 active\n0 1 5 5 1\nunit 1 active\n1 0 7 7 0\n";
    let mut output = Vec::new();
    script::run(&mut &input[..], &mut output).unwrap();
    assert_eq!(String::from_utf8(output).unwrap(), expected);
}

/// A fresh network has nothing to show, and `show` says `-` for it.
#[test]
fn show_of_a_fresh_network() {
    let mut output = Vec::new();
    script::run(&mut &b"units 2\nshow"[..], &mut output).unwrap();
    let expected = "ok\nunit 0 passive\n0 1 - - -\nunit 1 passive\n1 0 - - -\n";
    assert_eq!(String::from_utf8(output).unwrap(), expected);
}
