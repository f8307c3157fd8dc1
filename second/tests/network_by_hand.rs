//! Networks set up by hand, fit but reached by no sequence of events: refusals
//! that no script meets, and all endings of the tracer.

use second::limits::QUEUE_ROOM;
use second::message::Message;
use second::network::Network;
use second::refusal::Refusal;
use second::tracer::Ending;
use second::tree::{Differences, Distance, Link, UnitNumber};

fn update(sender: UnitNumber, unit: UnitNumber, link: Option<Link>) -> Message {
    Message {
        sender,
        acknowledgment: false,
        update: Some(Differences::from([(unit, link)])),
    }
}

fn acknowledgment(sender: UnitNumber) -> Message {
    Message {
        sender,
        acknowledgment: true,
        update: None,
    }
}

/// A chain 0-1-2 at costs 1, all delivered.
fn chain() -> Network {
    let mut network = Network::fresh(3).unwrap();
    network.up(0, 1, 1, 1).unwrap();
    network.up(1, 2, 1, 1).unwrap();
    drain(&mut network);
    network
}

fn drain(network: &mut Network) {
    loop {
        let mut waiting = network.queues.waiting();
        let Some((from, to)) = waiting.next().map(|(from, to, _)| (from, to)) else {
            break;
        };
        drop(waiting);
        network.deliver(from.into(), to.into()).unwrap();
    }
}

/// The refusal of a step on a fit network, which stays as it was.
fn refused(
    network: &Network,
    step: impl FnOnce(&mut Network) -> Result<(), Refusal>,
) -> Option<Refusal> {
    assert!(network.is_fit());
    let mut after = network.clone();
    let number = step(&mut after).err()?;
    assert_eq!(after, *network, "refused with {number} and changed");
    Some(number)
}

fn fill(network: &mut Network, from: UnitNumber, to: UnitNumber, messages: usize) {
    for _ in 0..messages {
        network.queues.push(from, to, acknowledgment(from));
    }
}

#[test]
fn deliveries_that_only_strange_queues_hold() {
    let mut network = chain();
    network.queues.push(0, 1, acknowledgment(0));
    assert_eq!(refused(&network, |it| it.deliver(0, 1)), Some(10));

    let mut network = chain();
    let known = Link { head: 0, cost: 1 };
    network.queues.push(0, 1, update(0, 1, Some(known)));
    assert_eq!(refused(&network, |it| it.deliver(0, 1)), Some(11));

    let mut network = chain();
    network.queues.push(0, 1, update(0, 1, None));
    assert_eq!(refused(&network, |it| it.deliver(0, 1)), Some(12));
    assert_eq!(refused(&network, |it| it.deliver(1, 0)), Some(8));
    assert_eq!(refused(&network, |it| it.deliver(0, 2)), Some(6));
    assert_eq!(refused(&network, |it| it.deliver(0, 3)), Some(3));
}

/// The event at unit 1 would send to 2, whose queue is full.
#[test]
fn a_full_queue_refuses_events() {
    let mut network = chain();
    fill(&mut network, 1, 2, QUEUE_ROOM);
    assert_eq!(refused(&network, |it| it.cost(1, 0, 9)), Some(13));
    assert_eq!(refused(&network, |it| it.down(0, 1)), Some(13));
    assert_eq!(refused(&network, |it| it.cost(1, 0, 1)), None, "no news");
    assert_eq!(refused(&network, |it| it.cost(0, 1, 9)), None, "not to 2");
    assert_eq!(refused(&network, |it| it.down(2, 1)), None, "emptied first");
    assert_eq!(
        refused(&network, |it| it.up(0, 2, 9, 9)),
        None,
        "no news at 1"
    );
    network.queues.pop(1, 2);
    assert_eq!(refused(&network, |it| it.cost(1, 0, 9)), None, "the last");
}

/// Link up: one end's messages fit, the other's don't, whichever is named
/// first. The costs are so low that both ends have news for 1.
#[test]
fn a_full_queue_at_either_end_refuses_link_up() {
    let mut network = chain();
    network.cost(0, 1, 5).unwrap();
    network.cost(2, 1, 5).unwrap();
    drain(&mut network);
    for from in [0, 2] {
        let mut network = network.clone();
        fill(&mut network, from, 1, QUEUE_ROOM);
        assert_eq!(refused(&network, |it| it.up(0, 2, 1, 1)), Some(13));
        assert_eq!(refused(&network, |it| it.up(2, 0, 1, 1)), Some(13));
    }
    assert_eq!(refused(&network, |it| it.up(0, 2, 1, 1)), None);
}

/// An acknowledgment needs a place as well. 10 to 12 come before 13.
#[test]
fn a_full_queue_refuses_deliveries() {
    let mut network = chain();
    fill(&mut network, 1, 0, QUEUE_ROOM);
    let news = Link {
        head: 0,
        cost: 60_000,
    };
    network.queues.push(0, 1, update(0, 2, Some(news)));
    assert_eq!(refused(&network, |it| it.deliver(0, 1)), Some(13));
    let mut strange = network.clone();
    strange.queues.pop(0, 1);
    strange.queues.push(0, 1, update(0, 1, None));
    assert_eq!(refused(&strange, |it| it.deliver(0, 1)), Some(12));
    network.queues.pop(1, 0);
    assert_eq!(refused(&network, |it| it.deliver(0, 1)), None);
}

/// Units 0 and 1 of 4 each believe that the other is nearer to 3. Unit 2 is
/// linked to both and has nothing.
fn circle() -> Network {
    let mut network = Network::fresh(4).unwrap();
    network.up(0, 1, 1, 1).unwrap();
    network.up(0, 2, 1, 1).unwrap();
    network.up(1, 2, 1, 1).unwrap();
    for (unit, other) in [(0, 1), (1, 0)] {
        let tables = &mut network.units[unit];
        tables.feasible.insert(3, Distance::Finite(9));
        let copy = &mut tables.neighbours.get_mut(&other).unwrap().copy;
        copy.entries = [(
            3,
            Link {
                head: other,
                cost: 8,
            },
        )]
        .into();
        tables.successors.insert(3, [other].into());
    }
    assert!(network.is_fit());
    network
}

#[test]
fn endings_of_the_tracer() {
    let network = circle();
    let trace = |start, dest| {
        let mut path = [99; 6];
        let ending = network.trace(start, dest, &[0; 3], &mut path).unwrap();
        (ending, path)
    };
    let circling = (Ending::Circling { hops: 3 }, [0, 1, 0, 1, 99, 99]);
    assert_eq!(trace(0, 3), circling);
    let stranded = (Ending::Stranded { hops: 0 }, [2, 99, 99, 99, 99, 99]);
    assert_eq!(trace(2, 3), stranded);
    let there = (Ending::Arrived { hops: 0 }, [3, 99, 99, 99, 99, 99]);
    assert_eq!(trace(3, 3), there);
    assert_eq!(trace(0, 2).0, Ending::Arrived { hops: 1 });
}

/// After the count less one hops the destination is looked at before the hops:
/// a chain of all units arrives and doesn't circle.
#[test]
fn the_last_hop_may_arrive() {
    let mut path = [99; 3];
    let ending = chain().trace(2, 0, &[0, 0], &mut path);
    assert_eq!(ending, Ok(Ending::Arrived { hops: 2 }));
    assert_eq!(path, [2, 1, 0]);
}

/// A chain 0-1-2-3 of which the last link has just gone: 2 has no successor,
/// while 0 and 1 don't know yet.
#[test]
fn a_trace_strands_on_the_way() {
    let mut network = Network::fresh(4).unwrap();
    for a in 0..3 {
        network.up(a, a + 1, 1, 1).unwrap();
    }
    drain(&mut network);
    network.down(2, 3).unwrap();
    let mut path = [99; 4];
    let ending = network.trace(0, 3, &[0; 3], &mut path);
    assert_eq!(ending, Ok(Ending::Stranded { hops: 2 }));
    assert_eq!(path, [0, 1, 2, 99]);
}

/// Choices are taken modulo the number of successors.
#[test]
fn choices_beyond_the_number_of_successors() {
    let mut network = Network::fresh(3).unwrap();
    network.up(0, 1, 1, 1).unwrap();
    network.up(1, 2, 1, 1).unwrap();
    network.up(0, 2, 5, 5).unwrap();
    drain(&mut network);
    for choice in 0..=255 {
        let mut path = [99; 3];
        let ending = network.trace(0, 2, &[choice, 255], &mut path);
        let hops = if choice % 2 == 0 { 2 } else { 1 };
        assert_eq!(ending, Ok(Ending::Arrived { hops }), "choice {choice}");
    }
}

#[test]
fn refusals_of_the_tracer() {
    let network = chain();
    let refused = |start, dest, choices: &[u8], places: usize| {
        let mut path = vec![99; places];
        let number = network.trace(start, dest, choices, &mut path).err();
        assert!(path.iter().all(|&place| place == 99));
        number
    };
    assert_eq!(refused(3, 0, &[0, 0], 3), Some(3));
    assert_eq!(refused(0, 3, &[0, 0], 3), Some(3));
    assert_eq!(refused(256, 0, &[], 0), Some(3), "before 7");
    assert_eq!(refused(0, 2, &[0, 0], 2), Some(7));
    assert_eq!(refused(0, 2, &[0], 3), Some(7));
    assert_eq!(refused(0, 0, &[0], 3), Some(7), "even for no hop");
    let mut path = [99; 3];
    assert!(network.trace(0, 0, &[0, 0], &mut path).is_ok());
}

#[test]
fn queries_outside_the_count() {
    let network = chain();
    assert_eq!(network.distance(0, 3), Err(3));
    assert_eq!(network.feasible(3, 0), Err(3));
    assert_eq!(network.successors(0, 256), Err(3));
    assert_eq!(network.link(3, 0), Err(3));
    assert_eq!(network.awaits(0, 3), Err(3));
    assert_eq!(network.distance(1, 1), Ok(Distance::ZERO));
    assert_eq!(network.feasible(1, 1), Ok(Distance::ZERO));
    assert!(network.successors(1, 1).unwrap().is_empty());
}

/// The cost from each end, and who is awaited, while the link is up; neither
/// before, after, nor to itself.
#[test]
fn links_and_waits() {
    let mut network = Network::fresh(3).unwrap();
    assert_eq!(network.link(0, 1), Ok(None));
    network.up(0, 1, 5, 7).unwrap();
    assert_eq!(network.link(0, 1), Ok(Some(5)));
    assert_eq!(network.link(1, 0), Ok(Some(7)));
    assert_eq!(network.link(0, 0), Ok(None));
    assert_eq!(network.awaits(0, 1), Ok(true));
    assert_eq!(network.awaits(0, 0), Ok(false));
    assert_eq!(network.awaits(0, 2), Ok(false));
    drain(&mut network);
    assert_eq!(network.awaits(0, 1), Ok(false));
    network.cost(0, 1, 9).unwrap();
    assert_eq!(network.link(0, 1), Ok(Some(9)));
    assert_eq!(network.awaits(0, 1), Ok(true));
    assert_eq!(network.awaits(1, 0), Ok(false));
    network.down(0, 1).unwrap();
    assert_eq!(network.link(0, 1), Ok(None));
    assert_eq!(network.awaits(0, 1), Ok(false));
}

/// What fitness of a network means beyond that of its units.
#[test]
fn unfit_networks() {
    let broken = |change: fn(&mut Network)| {
        let mut network = chain();
        change(&mut network);
        !network.is_fit()
    };
    assert!(broken(|it| drop(it.units.pop())));
    assert!(broken(|it| it.units.swap(0, 2)));
    assert!(broken(|it| drop(it.units[0].down(1))), "one end only");
    assert!(broken(|it| it.queues.push(0, 2, acknowledgment(0))), "down");
    assert!(
        broken(|it| it.queues.push(0, 1, acknowledgment(2))),
        "sender"
    );
    assert!(
        broken(|it| it.queues.push(0, 1, update(0, 0, None))),
        "layout"
    );
    assert!(broken(|it| fill(it, 0, 1, QUEUE_ROOM + 1)), "too many");
    assert!(!broken(|it| fill(it, 0, 1, QUEUE_ROOM)), "full");
}
