//! What holds after every event of any script: no choice of successors circles,
//! feasible distances fall along successors and bound the distances, and when
//! all is quiet the distances are the true shortest ones.

use second::network::Network;
use second::script::{parse, Command, Runner};
use second::tracer::Ending;
use second::tree::{Distance, UnitNumber};
use shared::generator;
use shared::rng::Rng;
use std::collections::BTreeSet;
use std::io;

/// How often the checks found something to check.
#[derive(Default)]
struct Seen {
    events: usize,
    successors: usize,
    quiet: usize,
    traces_of_many_hops: usize,
    feasible_below_distance: usize,
    longest_queue: usize,
}

/// All units that some choice of successors for j leads to from k, and k.
fn reachable(network: &Network, j: UnitNumber, k: UnitNumber) -> BTreeSet<UnitNumber> {
    let mut reached = BTreeSet::from([k]);
    let mut open = vec![k];
    while let Some(at) = open.pop() {
        for &next in &network.unit(at).successors[&j] {
            if reached.insert(next) {
                open.push(next);
            }
        }
    }
    reached
}

/// Whether some choice of successors for j leads from a unit back to it.
fn circles(network: &Network, j: UnitNumber, i: UnitNumber) -> bool {
    let successors = &network.unit(i).successors[&j];
    successors
        .iter()
        .any(|&k| reachable(network, j, k).contains(&i))
}

/// The circles, the fall of feasible distances and their bounds.
fn check_safety(network: &Network, seen: &mut Seen) {
    for unit in &network.units {
        let i = unit.number;
        assert_eq!(unit.feasible[&i], Distance::ZERO);
        assert_eq!(unit.distance(i), Distance::ZERO);
        assert!(unit.successors[&i].is_empty());
        for j in 0..network.count() {
            assert!(unit.feasible[&j] <= unit.distance(j), "{i} to {j}");
            seen.feasible_below_distance += usize::from(unit.feasible[&j] < unit.distance(j));
            assert!(!circles(network, j, i), "{i} to {j}");
            for &k in &unit.successors[&j] {
                let (here, there) = (unit.feasible[&j], network.unit(k).feasible[&j]);
                assert!(there < here, "{i} over {k} to {j}: {there} from {here}");
                seen.successors += 1;
            }
        }
    }
}

/// A unit never has more than one update and one acknowledgment on the way to
/// a neighbour, so no queue passes 2 and no script meets refusal 13.
fn check_queues(network: &Network, seen: &mut Seen) {
    for (from, to, queue) in network.queues.waiting() {
        assert!(queue.len() <= 2, "{from} to {to}: {}", queue.len());
        seen.longest_queue = seen.longest_queue.max(queue.len());
    }
}

/// True shortest distances over the up links, by way of all units in turn.
fn true_distances(network: &Network) -> Vec<Vec<Distance>> {
    let units = network.units.len();
    let mut table = vec![vec![Distance::Unreachable; units]; units];
    for unit in &network.units {
        let i = usize::from(unit.number);
        table[i][i] = Distance::ZERO;
        for (&k, neighbour) in &unit.neighbours {
            table[i][usize::from(k)] = Distance::Finite(neighbour.cost.into());
        }
    }
    for way in 0..units {
        for i in 0..units {
            for j in 0..units {
                if let (Distance::Finite(a), Distance::Finite(b)) = (table[i][way], table[way][j]) {
                    table[i][j] = table[i][j].min(Distance::Finite(a + b));
                }
            }
        }
    }
    table
}

/// With all units PASSIVE and all queues empty, distances and feasible
/// distances are the true shortest ones and the successors are the neighbours
/// that are truly nearer.
fn check_quiet(network: &Network, seen: &mut Seen) {
    if !network.queues.all_empty() || network.units.iter().any(|unit| unit.is_active()) {
        return;
    }
    seen.quiet += 1;
    let shortest = true_distances(network);
    for unit in &network.units {
        let i = usize::from(unit.number);
        for j in 0..network.count() {
            let distance = shortest[i][usize::from(j)];
            assert_eq!(unit.distance(j), distance, "{i} to {j}");
            assert_eq!(unit.feasible[&j], distance, "{i} to {j}");
            let nearer = |k: &&UnitNumber| shortest[usize::from(**k)][usize::from(j)] < distance;
            let expected = unit.neighbours.keys().filter(nearer).copied();
            assert!(
                unit.successors[&j].iter().copied().eq(expected),
                "{i} to {j}"
            );
        }
    }
}

/// The tracer along random choices: it never circles, and its path is one of
/// successors, to the hop where it says that it ended.
fn check_trace(network: &Network, rng: &mut Rng, seen: &mut Seen) {
    let count = u32::from(network.count());
    let (start, dest) = (rng.between(0, count - 1), rng.between(0, count - 1));
    let choices: Vec<u8> = (1..count).map(|_| rng.next_bits() as u8).collect();
    let mut path = vec![200; count as usize + 1];
    let ending = network.trace(start, dest, &choices, &mut path).unwrap();
    let hops = match ending {
        Ending::Arrived { hops } => {
            assert_eq!(u32::from(path[hops]), dest);
            hops
        }
        Ending::Stranded { hops } => {
            assert!(network
                .successors(path[hops].into(), dest)
                .unwrap()
                .is_empty());
            hops
        }
        Ending::Circling { .. } => panic!("{start} to {dest} circles: {path:?}"),
    };
    assert_eq!(u32::from(path[0]), start);
    for hop in path[..=hops].windows(2) {
        assert!(network
            .successors(hop[0].into(), dest)
            .unwrap()
            .contains(&hop[1]));
    }
    assert!(path[hops + 1..].iter().all(|&place| place == 200));
    seen.traces_of_many_hops += usize::from(hops > 1);
}

/// Link up and link down have the same result "in either order".
fn check_either_order(before: &Network, command: Command, after: &Network) {
    let mut swapped = before.clone();
    match command {
        Command::Up(a, b, ca, cb) => swapped.up(b, a, cb, ca).unwrap(),
        Command::Down(a, b) => swapped.down(b, a).unwrap(),
        _ => return,
    }
    assert_eq!(swapped, *after, "{command:?}");
}

/// Answers a line, then checks the network that it left.
fn check_line(runner: &mut Runner, line: &[u8], rng: &mut Rng, seen: &mut Seen) {
    let before = runner.network().cloned();
    let mut answer = Vec::new();
    runner.answer(line, &mut answer).unwrap();
    let Some(network) = runner.network() else {
        return;
    };
    if answer != b"ok\n" {
        assert_eq!(Some(network), before.as_ref(), "{line:?}");
        return;
    }
    assert!(network.is_fit(), "{line:?}");
    if let (Some(before), Some(command)) = (&before, parse(line)) {
        check_either_order(before, command, network);
    }
    seen.events += 1;
    check_network(network, rng, seen);
}

fn check_network(network: &Network, rng: &mut Rng, seen: &mut Seen) {
    check_safety(network, seen);
    check_queues(network, seen);
    check_quiet(network, seen);
    check_trace(network, rng, seen);
}

/// Delivers in any order until all is quiet, which happens in the end.
fn check_drain(mut network: Network, rng: &mut Rng, seen: &mut Seen) {
    let quiet_before = seen.quiet;
    for _ in 0..50_000 {
        let waiting = network.queues.waiting();
        let queues: Vec<_> = waiting.map(|(from, to, _)| (from, to)).collect();
        let Some(&(from, to)) = rng.pick(&queues) else {
            break;
        };
        network.deliver(from.into(), to.into()).unwrap();
    }
    assert!(network.queues.all_empty());
    check_quiet(&network, seen);
    assert_eq!(seen.quiet, quiet_before + 1, "empty queues but ACTIVE");
}

fn check_scripts(seeds: std::ops::Range<u64>) -> Seen {
    let mut seen = Seen::default();
    for seed in seeds {
        let script = generator::script(seed, None);
        let mut rng = Rng::new(seed ^ 0x5eed);
        let mut runner = Runner::default();
        for line in script.split(|&byte| byte == b'\n') {
            check_line(&mut runner, line, &mut rng, &mut seen);
        }
        if let Some(network) = runner.network() {
            check_drain(network.clone(), &mut rng, &mut seen);
        }
    }
    seen
}

/// The checks above looked at enough to mean something.
fn assert_seen(seen: &Seen) {
    assert!(seen.events > 10_000, "{} events", seen.events);
    assert!(seen.successors > 100_000, "{} successors", seen.successors);
    assert!(seen.quiet > 500, "{} times quiet", seen.quiet);
    assert!(seen.traces_of_many_hops > 1_000, "traces");
    assert!(seen.feasible_below_distance > 10_000, "feasible distances");
    assert_eq!(seen.longest_queue, 2);
}

#[test]
fn scripts_of_low_seeds() {
    assert_seen(&check_scripts(0..120));
}

#[test]
fn scripts_of_high_seeds() {
    assert_seen(&check_scripts(1_000_000..1_000_120));
}

/// The search for circles finds one where there is one.
#[test]
fn a_circle_is_found() {
    let mut network = Network::fresh(3).unwrap();
    network.up(0, 1, 1, 1).unwrap();
    network.up(1, 2, 1, 1).unwrap();
    assert!((0..3).all(|i| !circles(&network, 2, i)));
    network.units[0].successors.insert(2, [1].into());
    network.units[1].successors.insert(2, [0, 2].into());
    assert!(circles(&network, 2, 0));
    assert!(circles(&network, 2, 1));
    assert!(!circles(&network, 2, 2));
}

/// A line in a script file and the same line through streams answer alike.
#[test]
fn streams_and_single_lines_agree() {
    for seed in 0..60 {
        let script = generator::script(seed, None);
        let mut whole = Vec::new();
        let mut input = io::BufReader::with_capacity(37, &script[..]);
        second::script::run(&mut input, &mut whole).unwrap();
        let mut runner = Runner::default();
        let mut single = Vec::new();
        let body = script.strip_suffix(b"\n").unwrap_or(&script);
        for line in body.split(|&byte| byte == b'\n') {
            runner.answer(line, &mut single).unwrap();
        }
        assert!(whole == single, "seed {seed}");
    }
}
