//! One unit used alone: what each event sends, and what it refuses.

use second::limits::{GREATEST_DISTANCE, HIGHEST_COST, UNITS};
use second::message::Message;
use second::refusal::Refusal;
use second::tree::{Differences, Distance, Link, UnitNumber};
use second::unit::{Outbox, Unit};

type Change = (UnitNumber, Option<Link>);

fn set(unit: UnitNumber, head: UnitNumber, cost: u16) -> Change {
    (unit, Some(Link { head, cost }))
}

fn update(sender: UnitNumber, acknowledgment: bool, changes: &[Change]) -> Message {
    Message {
        sender,
        acknowledgment,
        update: Some(changes.iter().copied().collect::<Differences>()),
    }
}

fn acknowledgment(sender: UnitNumber) -> Message {
    Message {
        sender,
        acknowledgment: true,
        update: None,
    }
}

fn outbox(messages: &[(UnitNumber, Message)]) -> Outbox {
    messages.iter().cloned().collect()
}

/// Unit 0 of 4 with neighbours 1 at cost 3 and 2 at cost 4, PASSIVE.
fn unit() -> Unit {
    let mut unit = Unit::fresh(4, 0).unwrap();
    unit.up(1, 3).unwrap();
    unit.message(1, &acknowledgment(1)).unwrap();
    unit.up(2, 4).unwrap();
    unit.message(1, &acknowledgment(1)).unwrap();
    unit.message(2, &acknowledgment(2)).unwrap();
    assert!(!unit.is_active() && unit.is_fit());
    unit
}

/// The refusal of an event that leaves the unit as it was.
fn refused(unit: &Unit, event: impl FnOnce(&mut Unit) -> Result<Outbox, Refusal>) -> Refusal {
    let mut after = unit.clone();
    let number = event(&mut after).unwrap_err();
    assert_eq!(after, *unit, "refused with {number} and changed");
    number
}

#[test]
fn fresh_units() {
    assert_eq!(Unit::fresh(1, 0), Err(1));
    let too_many = UNITS as u32 + 1;
    assert_eq!(Unit::fresh(too_many, too_many + 3), Err(1));
    assert_eq!(Unit::fresh(4, 4), Err(3));
    let unit = Unit::fresh(4, 3).unwrap();
    assert!(unit.is_fit() && !unit.is_active());
    assert_eq!(unit.feasible[&3], Distance::ZERO);
    assert_eq!(unit.feasible[&0], Distance::Unreachable);
}

/// The new neighbour is sent the whole tree, the others the differences.
#[test]
fn link_up_while_passive() {
    let mut unit = unit();
    let sent = unit.up(3, 9).unwrap();
    let whole = update(0, false, &[set(1, 0, 3), set(2, 0, 4), set(3, 0, 9)]);
    let difference = update(0, false, &[set(3, 0, 9)]);
    let expected = [(1, difference.clone()), (2, difference), (3, whole)];
    assert_eq!(sent, outbox(&expected));
    assert!(unit.neighbours.values().all(|neighbour| neighbour.awaited));
}

/// While ACTIVE the new neighbour is sent the tree as it stands, without the
/// new link, and nobody else is sent anything.
#[test]
fn link_up_while_active() {
    let mut unit = unit();
    unit.cost(1, 2).unwrap();
    let sent = unit.up(3, 9).unwrap();
    let whole = update(0, false, &[set(1, 0, 2), set(2, 0, 4)]);
    assert_eq!(sent, outbox(&[(3, whole)]));
    assert_eq!(unit.distance(3), Distance::Unreachable);
    assert!(unit.neighbours[&3].awaited);
}

/// A tree without entries is sent too, as an update without entries, and its
/// acknowledgment is awaited. Such an ACTIVE unit is not reached by events.
#[test]
fn an_empty_tree_is_sent_as_an_empty_update() {
    let mut unit = unit();
    unit.tree.entries.clear();
    unit.neighbours.get_mut(&1).unwrap().awaited = true;
    let sent = unit.up(3, 9).unwrap();
    assert_eq!(sent, outbox(&[(3, update(0, false, &[]))]));
    assert!(unit.neighbours[&3].awaited);
}

/// "The same cost again is a legal event"; nothing changes and nothing is sent.
#[test]
fn the_same_cost_again() {
    let mut after = unit();
    assert_eq!(after.cost(1, 3), Ok(Outbox::new()));
    assert_eq!(after, unit());
}

/// An update that changes the tree is acknowledged in the message that tells
/// the sender so; the other neighbour's has no acknowledgment.
#[test]
fn acknowledged_together_with_an_update() {
    let mut unit = unit();
    let sent = unit.message(1, &update(1, false, &[set(3, 1, 1)])).unwrap();
    let changes = [set(3, 1, 1)];
    let expected = [
        (1, update(0, true, &changes)),
        (2, update(0, false, &changes)),
    ];
    assert_eq!(sent, outbox(&expected));
}

/// An update that changes nothing in the tree, one that comes while ACTIVE and
/// one without entries are acknowledged in a message of their own.
#[test]
fn acknowledged_alone() {
    let mut unit = unit();
    let alone = outbox(&[(1, acknowledgment(0))]);
    let dear = update(1, false, &[set(2, 1, 60_000)]);
    assert_eq!(unit.message(1, &dear), Ok(alone.clone()));
    assert_eq!(unit.message(1, &update(1, false, &[])), Ok(alone.clone()));
    unit.cost(1, 2).unwrap();
    let news = update(1, false, &[set(3, 1, 1)]);
    assert_eq!(unit.message(1, &news), Ok(alone));
    assert_eq!(unit.distance(3), Distance::Unreachable, "not yet");
}

/// Both in one message, and it is the last one awaited: the unit is through
/// with the old update, recomputes with the new copy and sends again.
#[test]
fn acknowledgment_and_update_in_one() {
    let mut unit = unit();
    unit.cost(1, 2).unwrap();
    assert_eq!(unit.message(2, &acknowledgment(2)), Ok(Outbox::new()));
    let sent = unit.message(1, &update(1, true, &[set(3, 1, 1)])).unwrap();
    let changes = [set(3, 1, 1)];
    let expected = [
        (1, update(0, true, &changes)),
        (2, update(0, false, &changes)),
    ];
    assert_eq!(sent, outbox(&expected));
    assert!(unit.is_active());
}

/// When the last link goes down, nobody is left to believe a feasible distance.
#[test]
fn the_last_link_down() {
    let mut unit = unit();
    let sent = unit.down(1).unwrap();
    assert_eq!(sent, outbox(&[(2, update(0, false, &[(1, None)]))]));
    assert_eq!(unit.feasible[&1], Distance::Finite(3), "2 may believe it");
    assert_eq!(unit.down(2), Ok(Outbox::new()));
    assert_eq!(unit, Unit::fresh(4, 0).unwrap());
}

/// Tables that no sequence has reached: without neighbours and with an empty
/// tree, but with a feasible distance. The tree doesn't change when a link is
/// lost whose unit it never held, so E does not apply and the smaller stays.
#[test]
fn no_neighbour_but_the_tree_unchanged() {
    let mut unit = Unit::fresh(2, 0).unwrap();
    unit.up(1, 5).unwrap();
    unit.tree.entries.clear();
    unit.neighbours.get_mut(&1).unwrap().awaited = false;
    unit.feasible.insert(1, Distance::Finite(7));
    assert!(unit.is_fit());
    unit.down(1).unwrap();
    assert_eq!(unit.feasible[&1], Distance::Finite(7));
}

#[test]
fn refusals_of_up_cost_and_down() {
    let unit = unit();
    assert_eq!(refused(&unit, |unit| unit.up(0, 0)), 3);
    assert_eq!(refused(&unit, |unit| unit.up(4, 0)), 3);
    assert_eq!(refused(&unit, |unit| unit.up(1, 0)), 4);
    assert_eq!(refused(&unit, |unit| unit.up(3, HIGHEST_COST + 1)), 4);
    assert_eq!(refused(&unit, |unit| unit.up(1, 1)), 5);
    assert_eq!(refused(&unit, |unit| unit.cost(0, 0)), 3);
    assert_eq!(refused(&unit, |unit| unit.cost(3, 0)), 4);
    assert_eq!(refused(&unit, |unit| unit.cost(3, 1)), 6);
    assert_eq!(refused(&unit, |unit| unit.down(256)), 3);
    assert_eq!(refused(&unit, |unit| unit.down(3)), 6);
}

#[test]
fn refusals_of_messages() {
    let mut unit = unit();
    let news = update(1, false, &[set(3, 1, 1)]);
    unit.message(1, &news).unwrap();
    unit.message(1, &acknowledgment(1)).unwrap();
    let number = |from, message: &Message| refused(&unit, |unit| unit.message(from, message));
    assert_eq!(number(0, &news), 3);
    assert_eq!(number(4, &news), 3);
    assert_eq!(number(3, &news), 6);
    assert_eq!(number(2, &news), 9, "not from the neighbour it came by");
    assert_eq!(number(1, &update(1, false, &[set(3, 3, 1)])), 9);
    assert_eq!(number(1, &acknowledgment(1)), 10);
    assert_eq!(number(1, &update(1, true, &[set(3, 1, 1)])), 10);
    assert_eq!(number(1, &news), 11);
    assert_eq!(number(1, &update(1, false, &[(2, None)])), 11);
    let mixed = update(1, false, &[set(2, 0, 1), set(3, 1, 1)]);
    assert_eq!(number(1, &mixed), 11, "before 12");
    assert_eq!(number(1, &update(1, false, &[set(2, 0, 1)])), 12, "loose");
    let circle = update(1, false, &[set(2, 3, 1), set(3, 2, 1)]);
    assert_eq!(number(1, &circle), 12);
    let over_this_unit = update(1, false, &[set(0, 1, 1), set(2, 0, 1), (3, None)]);
    assert!(unit.clone().message(1, &over_this_unit).is_ok());
}

/// An entry that hangs on another entry of the same message is no loose end,
/// but losing a head that others hang on is.
#[test]
fn the_copy_is_judged_after_all_entries() {
    let mut unit = unit();
    let chain = update(1, false, &[set(2, 3, 1), set(3, 1, 1)]);
    unit.message(1, &chain).unwrap();
    unit.message(1, &acknowledgment(1)).unwrap();
    let loose = update(1, false, &[(3, None)]);
    assert_eq!(refused(&unit, |unit| unit.message(1, &loose)), 12);
    let both = update(1, false, &[(2, None), (3, None)]);
    assert!(unit.message(1, &both).is_ok());
}

#[test]
fn refusals_of_bytes() {
    let unit = unit();
    let number = |from, bytes: &[u8]| refused(&unit, |unit| unit.message_bytes(from, bytes));
    assert_eq!(number(4, &[]), 3);
    assert_eq!(number(0, &[]), 3);
    assert_eq!(number(3, &[]), 6);
    assert_eq!(number(1, &[]), 9);
    assert_eq!(number(1, &[1, 2, 1, 0]), 9, "from 2 by the link to 1");
    assert_eq!(number(1, &[1, 1, 1, 0]), 10);
    assert_eq!(number(1, &[1, 1, 2, 1, 2, 255, 0, 0]), 11);
    assert_eq!(number(1, &[1, 1, 2, 1, 2, 3, 0, 1]), 12);
    let sent = unit.clone().message_bytes(1, &[1, 1, 2, 1, 3, 1, 0, 1]);
    assert_eq!(sent.unwrap()[&1], update(0, true, &[set(3, 1, 1)]));
}

/// What fitness means, broken in each part.
#[test]
fn unfit_tables() {
    let broken = |change: fn(&mut Unit)| {
        let mut unit = unit();
        change(&mut unit);
        !unit.is_fit()
    };
    assert!(broken(|unit| unit.count = UNITS as u8 + 1));
    assert!(broken(|unit| unit.number = 3));
    assert!(broken(|unit| unit.neighbours.get_mut(&1).unwrap().cost = 0));
    assert!(broken(|unit| unit
        .neighbours
        .get_mut(&1)
        .unwrap()
        .copy
        .root = 2));
    assert!(broken(|unit| unit.tree.root = 1));
    assert!(broken(
        |unit| unit.tree.entries.get_mut(&1).unwrap().head = 3
    ));
    assert!(broken(
        |unit| *unit.feasible.get_mut(&0).unwrap() = Distance::Finite(1)
    ));
    const TOO_FAR: Distance = Distance::Finite(GREATEST_DISTANCE + 1);
    assert!(broken(|unit| *unit.feasible.get_mut(&3).unwrap() = TOO_FAR));
    const FARTHEST: Distance = Distance::Finite(GREATEST_DISTANCE);
    assert!(!broken(
        |unit| *unit.feasible.get_mut(&3).unwrap() = FARTHEST
    ));
    assert!(broken(|unit| unit.feasible.retain(|&j, _| j != 3)));
    assert!(broken(|unit| unit.successors.get_mut(&1).unwrap().clear()));
    assert!(!broken(|_| ()));
}
