//! The meter by hand: each call and each refusal, where frames go, and which
//! tables are fit.

use second::limits::{FRAMES, LAST_HOP, MOST_ENTERED};
use second::meter::{Fate, Frame, Meter};
use second::meter_table::{
    self, laid_out, place_at, word_name, BYTES, DELIVERED, DESTINATION, DROPPED, ENTERED, HOPS,
    SIZE, UNIT, WORDS,
};
use second::network::Network;
use second::refusal::Refusal;
use second::table_bytes::{number_at, set_number_at};

fn drain(network: &mut Network) {
    loop {
        let mut waiting = network.queues.waiting();
        let Some((from, to)) = waiting.next().map(|(from, to, _)| (from, to)) else {
            break;
        };
        drop(waiting);
        network.deliver(from.into(), to.into()).unwrap();
    }
}

/// A chain 0-1-2 at costs 1, all delivered.
fn chain() -> Network {
    let mut network = Network::fresh(3).unwrap();
    network.up(0, 1, 1, 1).unwrap();
    network.up(1, 2, 1, 1).unwrap();
    drain(&mut network);
    network
}

/// The figures: entered, delivered, dropped, held. The first is the sum of the
/// others.
fn figures(meter: &Meter) -> [u64; 4] {
    let figures = [
        meter.entered,
        meter.delivered,
        meter.dropped,
        meter.bytes_held(),
    ];
    assert_eq!(figures[0], figures[1] + figures[2] + figures[3]);
    figures
}

/// The refusal of a call, which leaves the meter as it was.
fn refused(
    meter: &Meter,
    call: impl FnOnce(&mut Meter) -> Result<Fate, Refusal>,
) -> Option<Refusal> {
    let mut after = meter.clone();
    let number = call(&mut after).err()?;
    assert_eq!(after, *meter, "refused with {number} and changed");
    Some(number)
}

/// A meter that holds as many frames as it has places, each of one byte.
fn full(network: &Network) -> Meter {
    let mut meter = Meter::default();
    for place in 0..FRAMES as u8 {
        assert_eq!(meter.enter(network, 1, 0, 2), Ok(Fate::Held(place)));
    }
    meter
}

#[test]
fn a_frame_enters_moves_and_is_delivered() {
    let network = chain();
    let mut meter = Meter::default();
    assert_eq!(meter.enter(&network, 700, 0, 2), Ok(Fate::Held(0)));
    assert_eq!(figures(&meter), [700, 0, 0, 700]);
    assert_eq!(meter.move_on(&network, 0, 1), Ok(Fate::Held(0)));
    let frame = Frame {
        size: 700,
        unit: 1,
        destination: 2,
        hops: 1,
    };
    assert_eq!(meter.held(0), Ok((0, frame)));
    assert_eq!(meter.move_on(&network, 0, 2), Ok(Fate::Delivered));
    assert_eq!(figures(&meter), [700, 700, 0, 0]);
    assert_eq!(meter.held(0), Err(16));
}

/// Without a link there is no successor, but a frame may enter and be dropped.
#[test]
fn a_frame_is_dropped() {
    let network = Network::fresh(2).unwrap();
    let mut meter = Meter::default();
    meter.enter(&network, 5, 1, 0).unwrap();
    assert_eq!(refused(&meter, |it| it.move_on(&network, 0, 0)), Some(16));
    assert_eq!(meter.drop_frame(0), Ok(Fate::Dropped));
    assert_eq!(figures(&meter), [5, 0, 5, 0]);
    assert_eq!(refused(&meter, |it| it.drop_frame(0)), Some(16));
}

/// It counts as entered and delivered, and takes no place.
#[test]
fn a_frame_entered_at_its_destination() {
    let network = chain();
    let mut meter = Meter::default();
    assert_eq!(meter.enter(&network, 65_535, 1, 1), Ok(Fate::Delivered));
    assert_eq!(figures(&meter), [65_535, 65_535, 0, 0]);
    assert_eq!(meter.frames.len(), 0);
}

/// "A frame takes the lowest of 64 places that is free"; "a freed place is used
/// again".
#[test]
fn freed_places_are_used_again() {
    let network = chain();
    let mut meter = full(&network);
    meter.drop_frame(40).unwrap();
    meter.drop_frame(7).unwrap();
    assert_eq!(meter.enter(&network, 2, 0, 1), Ok(Fate::Held(7)));
    assert_eq!(meter.enter(&network, 2, 0, 1), Ok(Fate::Held(40)));
    assert_eq!(refused(&meter, |it| it.enter(&network, 2, 0, 1)), Some(14));
}

/// 14 "exactly when 64 are held", also for a frame that would take no place.
#[test]
fn no_free_place() {
    let network = chain();
    let meter = full(&network);
    assert_eq!(refused(&meter, |it| it.enter(&network, 1, 1, 1)), Some(14));
    assert_eq!(refused(&meter, |it| it.enter(&network, 0, 0, 1)), Some(14));
    assert_eq!(refused(&meter, |it| it.enter(&network, 0, 3, 1)), Some(3));
    assert_eq!(refused(&meter, |it| it.enter(&network, 0, 0, 3)), Some(3));
    let mut fewer = meter.clone();
    fewer.move_on(&network, 63, 1).unwrap();
    assert_eq!(refused(&fewer, |it| it.enter(&network, 1, 0, 1)), Some(14));
    fewer.move_on(&network, 63, 2).unwrap();
    assert_eq!(refused(&fewer, |it| it.enter(&network, 1, 0, 1)), None);
}

/// 15 up to the last byte, and for a size as it is given before 16.
#[test]
fn no_more_bytes_enter() {
    let network = chain();
    let meter = Meter {
        entered: MOST_ENTERED - 10,
        delivered: MOST_ENTERED - 10,
        ..Meter::default()
    };
    assert_eq!(refused(&meter, |it| it.enter(&network, 10, 0, 1)), None);
    assert_eq!(refused(&meter, |it| it.enter(&network, 11, 0, 1)), Some(15));
    assert_eq!(refused(&meter, |it| it.enter(&network, 11, 1, 1)), Some(15));
    assert_eq!(
        refused(&meter, |it| it.enter(&network, u32::MAX, 0, 1)),
        Some(15)
    );
    assert_eq!(refused(&meter, |it| it.enter(&network, 0, 0, 1)), Some(16));
}

#[test]
fn sizes_and_units() {
    let network = chain();
    let meter = Meter::default();
    let enter =
        |size, unit, destination| refused(&meter, |it| it.enter(&network, size, unit, destination));
    assert_eq!(enter(0, 0, 1), Some(16));
    assert_eq!(enter(1, 0, 1), None);
    assert_eq!(enter(65_535, 0, 1), None);
    assert_eq!(enter(65_536, 0, 1), Some(16));
    assert_eq!(enter(u32::MAX, 0, 1), Some(16));
    assert_eq!(enter(0, 3, 0), Some(3));
    assert_eq!(enter(0, 0, 256), Some(3));
}

#[test]
fn refusals_of_moves_and_drops() {
    let network = chain();
    let mut meter = Meter::default();
    meter.enter(&network, 9, 0, 2).unwrap();
    let moved = |place, to| refused(&meter, |it| it.move_on(&network, place, to));
    assert_eq!(moved(0, 1), None);
    assert_eq!(moved(0, 2), Some(16), "no neighbour");
    assert_eq!(moved(0, 0), Some(16), "itself");
    assert_eq!(moved(1, 1), Some(16), "a free place");
    assert_eq!(moved(64, 1), Some(16), "no place");
    assert_eq!(moved(256, 1), Some(16), "place 0 once cut to 8 bits");
    assert_eq!(moved(u32::MAX, 3), Some(3), "before 16");
    for place in [1, 63, 64, 256, u32::MAX] {
        assert_eq!(refused(&meter, |it| it.drop_frame(place)), Some(16));
    }
}

/// What was a successor when the frame entered is none any more.
#[test]
fn only_present_successors() {
    let mut network = chain();
    let mut meter = Meter::default();
    meter.enter(&network, 9, 0, 2).unwrap();
    network.down(0, 1).unwrap();
    assert_eq!(refused(&meter, |it| it.move_on(&network, 0, 1)), Some(16));
}

/// A frame for 2 that 0 and 1 hand to and fro while costs change: whichever has
/// it, its own link to 2 becomes the dearer one.
#[test]
fn the_64th_hop() {
    let mut network = Network::fresh(3).unwrap();
    for (a, b) in [(0, 1), (0, 2), (1, 2)] {
        network.up(a, b, 1, 1).unwrap();
    }
    drain(&mut network);
    let mut meter = Meter::default();
    meter.enter(&network, 9, 0, 2).unwrap();
    for hop in 1..=u32::from(LAST_HOP) {
        let (at, to) = ((hop - 1) % 2, hop % 2);
        network.cost(to, 2, 1).unwrap();
        network.cost(at, 2, 100).unwrap();
        drain(&mut network);
        if hop == u32::from(LAST_HOP) {
            let frame = meter.held(0).unwrap().1;
            assert_eq!((frame.hops, frame.unit), (63, 1));
            let mut other = meter.clone();
            assert_eq!(other.move_on(&network, 0, 2), Ok(Fate::Delivered));
            assert_eq!(figures(&other), [9, 9, 0, 0]);
            assert_eq!(meter.move_on(&network, 0, to), Ok(Fate::Dropped));
        } else {
            assert_eq!(meter.move_on(&network, 0, to), Ok(Fate::Held(0)), "{hop}");
        }
    }
    assert_eq!(figures(&meter), [9, 0, 9, 0]);
}

/// The index rule, number by number.
#[test]
fn tables_by_hand() {
    let network = chain();
    let mut meter = Meter {
        entered: (5 << 32) + 7,
        delivered: 5 << 32,
        dropped: 4,
        ..Meter::default()
    };
    let frame = Frame {
        size: 3,
        unit: 1,
        destination: 2,
        hops: 63,
    };
    meter.frames.insert(63, frame);
    let mut table = vec![0; BYTES];
    for (at, number) in [
        (0, 5),
        (1, 7),
        (2, 5),
        (5, 4),
        (258, 3),
        (259, 1),
        (260, 2),
        (261, 63),
    ] {
        set_number_at(&mut table, at, number);
    }
    assert_eq!(BYTES, 1_048);
    assert_eq!(laid_out(&meter), table);
    assert_eq!(meter_table::read(&network, &table), Ok(meter));
    let empty = Meter::default();
    assert_eq!(meter_table::read(&network, &[0; BYTES]), Ok(empty));
    assert_eq!(word_name(3), "delivered, low");
    assert_eq!(word_name(260), "frame 63, destination");
}

/// A place that is freed holds zeros again.
#[test]
fn a_freed_place_holds_zeros() {
    let network = chain();
    let mut meter = Meter::default();
    meter.enter(&network, 9, 0, 2).unwrap();
    meter.move_on(&network, 0, 1).unwrap();
    meter.drop_frame(0).unwrap();
    let table = laid_out(&meter);
    assert!((place_at(0)..WORDS).all(|at| number_at(&table, at) == 0));
}

/// A frame of 9 bytes at 0 for 2 in place 4, and what may be changed in its
/// table. The figures follow a size where it is to be judged alone.
#[test]
fn fit_and_unfit_tables() {
    let network = chain();
    let mut meter = Meter {
        entered: 30,
        delivered: 20,
        dropped: 1,
        ..Meter::default()
    };
    let frame = Frame {
        size: 9,
        unit: 0,
        destination: 2,
        hops: 0,
    };
    meter.frames.insert(4, frame);
    let (fit, at) = (laid_out(&meter), place_at(4));
    let most = MOST_ENTERED;
    let (high, low) = ((most >> 32) as u32, most as u32);
    let whole = |number: u32| [(at + SIZE, number), (ENTERED + 1, 21 + number)];
    let cases: [(&str, &[(usize, u32)], bool); 22] = [
        ("nothing", &[], true),
        ("largest", &whole(65_535), true),
        ("too large", &whole(65_536), false),
        ("no size", &whole(0), false),
        ("no frame", &[(at, 0), (at + 2, 0), (1, 21)], true),
        ("another unit", &[(at + UNIT, 1)], true),
        ("no unit", &[(at + UNIT, 3)], false),
        ("unit of 9 bits", &[(at + UNIT, 256)], false),
        ("another destination", &[(at + DESTINATION, 1)], true),
        ("no destination", &[(at + DESTINATION, 3)], false),
        ("at its destination", &[(at + DESTINATION, 0)], false),
        ("most hops", &[(at + HOPS, 63)], true),
        ("too many hops", &[(at + HOPS, 64)], false),
        ("hops of 9 bits", &[(at + HOPS, 256)], false),
        ("hops in a free place", &[(at + 4 + HOPS, 1)], false),
        ("entered", &[(ENTERED + 1, 31)], false),
        ("delivered", &[(DELIVERED + 1, 19)], false),
        ("dropped", &[(DROPPED + 1, 2)], false),
        ("two that add up", &[(3, 19), (5, 2)], true),
        (
            "most bytes",
            &[(0, high), (1, low), (2, high), (3, low - 10)],
            true,
        ),
        (
            "a byte more",
            &[(0, high), (1, low + 1), (2, high), (3, low - 9)],
            false,
        ),
        // 2^64 and 30 bytes, as if they were 30.
        (
            "a sum past 64 bits",
            &[(2, u32::MAX), (3, u32::MAX - 8), (5, 30)],
            false,
        ),
    ];
    for (what, changes, is_fit) in cases {
        let mut table = fit.clone();
        for &(at, number) in changes {
            set_number_at(&mut table, at, number);
        }
        let read = meter_table::read(&network, &table);
        assert_eq!(read.is_ok(), is_fit, "{what}");
        if let Ok(meter) = read {
            assert_eq!(laid_out(&meter), table, "{what}");
        }
    }
}

#[test]
fn lengths() {
    let network = chain();
    for bytes in [0, BYTES - 4, BYTES - 1, BYTES + 1, BYTES + 4] {
        assert_eq!(meter_table::read(&network, &vec![0; bytes]), Err(2));
    }
}

/// The same table over a network of fewer units.
#[test]
fn fitness_depends_on_the_network() {
    let mut meter = Meter::default();
    meter.enter(&chain(), 9, 0, 2).unwrap();
    let table = laid_out(&meter);
    assert!(meter_table::read(&chain(), &table).is_ok());
    let two = Network::fresh(2).unwrap();
    assert_eq!(meter_table::read(&two, &table), Err(2));
}
