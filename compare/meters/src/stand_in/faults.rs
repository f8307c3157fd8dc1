//! Faults that the comparison has to find.

use crate::border;
use crate::call::Call;
use second::limits::{ACCEPTED, FRAMES, LARGEST_FRAME, LAST_HOP, MOST_ENTERED};
use second::meter::{Fate, Frame, Meter, Place};
use second::meter_table::{
    place_at, BYTES, DELIVERED, DESTINATION, DROPPED, ENTERED, HOPS, PLACE, SIZE, UNIT,
};
use second::network::Network;
use second::table_bytes::{number_at, set_number_at};

/// Where a fault comes in: the meter's length, or the meter as it is seen before
/// the call, so that something isn't noticed; a rule for calls on fit tables; or what comes out.
#[derive(Clone, Copy)]
pub enum Change {
    AnyLength,
    Blind(fn(&mut [u8])),
    Rule(fn(Call, &Network, &mut Meter) -> Option<u64>),
    Answer(fn(Call, u64) -> u64),
    Outcome(fn(&Call, &[u8], &mut [u8])),
    Refusal(fn(&mut [u8])),
    Fresh(fn(&mut [u8])),
}

/// A fault, by its name.
pub type Fault = (&'static str, Change);

/// All faults.
pub const FAULTS: [Fault; 27] = [
    ("other lengths are fit", Change::AnyLength),
    ("sums are cut to 64 bits", Change::Blind(wrap)),
    ("high numbers are not added", Change::Blind(add_low_only)),
    ("more than 10^15 is fit", Change::Blind(lower)),
    ("65,536 bytes are fit", Change::Blind(cut_sizes)),
    ("64 hops are fit", Change::Blind(cut_hops)),
    ("hops of one byte", Change::Blind(cut_high_hops)),
    ("at its destination is fit", Change::Blind(forget_arrived)),
    ("numbers in a free place are fit", Change::Blind(clear_free)),
    ("units of one byte", Change::Blind(cut_units)),
    (
        "delivered at once while 64 are held",
        Change::Rule(deliver_when_full),
    ),
    ("the highest free place", Change::Rule(take_highest)),
    ("places are not used again", Change::Rule(take_next)),
    (
        "delivered at once is not entered",
        Change::Rule(forget_entry),
    ),
    ("16 before 15", Change::Rule(size_first)),
    ("10^15 itself may not enter", Change::Rule(one_byte_less)),
    ("a move to any neighbour", Change::Rule(move_anywhere)),
    ("the hops are looked at first", Change::Rule(drop_first)),
    ("a 65th hop", Change::Rule(hold_on)),
    ("hops are not counted", Change::Outcome(keep_hops)),
    ("a freed place keeps its hops", Change::Outcome(leave_hops)),
    ("dropped as delivered", Change::Outcome(count_delivered)),
    ("a refusal changes a byte", Change::Refusal(spoil)),
    (
        "places of one byte",
        Change::Rule(|call, network, meter| match call {
            Call::Drop(place) => Some(Call::Drop(place % 256).of_second(network, meter)),
            _ => None,
        }),
    ),
    (
        "figures of 32 bits",
        Change::Answer(|call, answer| match call {
            Call::Delivered => answer & u64::from(u32::MAX),
            _ => answer,
        }),
    ),
    (
        "hops of a free place are 0",
        Change::Answer(|call, answer| match (call, answer) {
            (Call::Hops(_), 16) => ACCEPTED.into(),
            _ => answer,
        }),
    ),
    (
        "a fresh byte stays",
        Change::Fresh(|table| table[BYTES - 1] = 1),
    ),
];

fn figure(table: &[u8], at: usize) -> u64 {
    u64::from(number_at(table, at)) << 32 | u64::from(number_at(table, at + 1))
}

fn set_figure(table: &mut [u8], at: usize, figure: u64) {
    set_number_at(table, at, (figure >> 32) as u32);
    set_number_at(table, at + 1, figure as u32);
}

/// The sum of all sizes, and the index of each place.
fn held(table: &[u8]) -> (u64, impl Iterator<Item = usize>) {
    let places = || (0..FRAMES as Place).map(place_at);
    let sizes = places().map(|at| u64::from(number_at(table, at + SIZE)));
    (sizes.sum(), places())
}

/// The figures as the sum of what is entered allows: as if any sum that is right
/// in some bits were right.
fn mend(table: &mut [u8], is_right: impl Fn(u64) -> bool) {
    if table.len() != BYTES {
        return;
    }
    let (held, _) = held(table);
    let settled = figure(table, DELIVERED).wrapping_add(figure(table, DROPPED));
    let sum = settled.wrapping_add(held);
    let entered = figure(table, ENTERED);
    if is_right(sum.wrapping_sub(entered)) && held <= entered {
        set_figure(table, DELIVERED, entered - held);
        set_figure(table, DROPPED, 0);
    }
}

fn wrap(table: &mut [u8]) {
    let wide = |table: &[u8]| {
        let figures = [DELIVERED, DROPPED].map(|at| u128::from(figure(table, at)));
        figures.iter().sum::<u128>() > u128::from(u64::MAX)
    };
    if table.len() == BYTES && wide(table) {
        mend(table, |off| off == 0);
    }
}

fn add_low_only(table: &mut [u8]) {
    mend(table, |off| off != 0 && off as u32 == 0);
}

/// As if no limit were held.
fn lower(table: &mut [u8]) {
    if table.len() != BYTES {
        return;
    }
    let over = figure(table, ENTERED).saturating_sub(MOST_ENTERED);
    let delivered = figure(table, DELIVERED);
    if over > 0 && over <= delivered {
        set_figure(table, ENTERED, MOST_ENTERED);
        set_figure(table, DELIVERED, delivered - over);
    }
}

/// Changes each place, given the index of its first number.
fn each_place(table: &mut [u8], change: impl Fn(&mut [u8], usize)) {
    if table.len() == BYTES {
        let (_, places) = held(table);
        places.for_each(|at| change(table, at));
    }
}

fn cut_sizes(table: &mut [u8]) {
    each_place(table, |table, at| {
        if number_at(table, at + SIZE) == LARGEST_FRAME + 1 {
            set_number_at(table, at + SIZE, LARGEST_FRAME);
            let entered = figure(table, ENTERED);
            set_figure(table, ENTERED, entered.wrapping_sub(1));
        }
    });
}

fn cut_hops(table: &mut [u8]) {
    each_place(table, |table, at| {
        if number_at(table, at + HOPS) == u32::from(LAST_HOP) {
            set_number_at(table, at + HOPS, u32::from(LAST_HOP) - 1);
        }
    });
}

fn cut_high_hops(table: &mut [u8]) {
    each_place(table, |table, at| {
        let hops = number_at(table, at + HOPS);
        set_number_at(table, at + HOPS, hops % 256);
    });
}

fn cut_units(table: &mut [u8]) {
    each_place(table, |table, at| {
        for number in [UNIT, DESTINATION] {
            let unit = number_at(table, at + number);
            set_number_at(table, at + number, unit % 256);
        }
    });
}

fn clear_place(table: &mut [u8], at: usize) {
    (at..at + PLACE).for_each(|at| set_number_at(table, at, 0));
}

fn forget_arrived(table: &mut [u8]) {
    each_place(table, |table, at| {
        let size = number_at(table, at + SIZE);
        if size > 0 && number_at(table, at + UNIT) == number_at(table, at + DESTINATION) {
            let delivered = figure(table, DELIVERED);
            set_figure(table, DELIVERED, delivered.wrapping_add(size.into()));
            clear_place(table, at);
        }
    });
}

fn clear_free(table: &mut [u8]) {
    each_place(table, |table, at| {
        if number_at(table, at + SIZE) == 0 {
            clear_place(table, at);
        }
    });
}

fn deliver_when_full(call: Call, _: &Network, meter: &mut Meter) -> Option<u64> {
    match call {
        Call::Enter(size @ 1..=LARGEST_FRAME, unit, destination)
            if unit == destination && meter.frames.len() == FRAMES =>
        {
            meter.entered += u64::from(size);
            meter.delivered += u64::from(size);
            Some(border::fate(Ok(Fate::Delivered)))
        }
        _ => None,
    }
}

/// An entry whose frame takes another place than the lowest.
fn enter_at(call: Call, network: &Network, meter: &mut Meter, place: Option<Place>) -> Option<u64> {
    let place = place.filter(|_| matches!(call, Call::Enter(..)))?;
    let mut after = meter.clone();
    let answer = call.of_second(network, &mut after);
    let taken = (answer.checked_sub(ACCEPTED.into())? as Place).min(FRAMES as Place);
    let frame: Frame = after.frames.remove(&taken)?;
    after.frames.insert(place, frame);
    *meter = after;
    Some(border::fate(Ok(Fate::Held(place))))
}

fn take_highest(call: Call, network: &Network, meter: &mut Meter) -> Option<u64> {
    let mut places = (0..FRAMES as Place).rev();
    let highest = places.find(|place| !meter.frames.contains_key(place));
    enter_at(call, network, meter, highest)
}

fn take_next(call: Call, network: &Network, meter: &mut Meter) -> Option<u64> {
    let last = meter.frames.last_key_value().map(|(&place, _)| place);
    let next = last.map(|place| place + 1);
    enter_at(
        call,
        network,
        meter,
        next.filter(|&it| it < FRAMES as Place),
    )
}

fn forget_entry(call: Call, network: &Network, meter: &mut Meter) -> Option<u64> {
    let mut after = meter.clone();
    let answer = call.of_second(network, &mut after);
    let delivered = border::fate(Ok(Fate::Delivered));
    (matches!(call, Call::Enter(..)) && answer == delivered).then_some(answer)
}

fn size_first(call: Call, network: &Network, meter: &mut Meter) -> Option<u64> {
    match call {
        Call::Enter(size, ..) if !(1..=LARGEST_FRAME).contains(&size) => {
            let answer = call.of_second(network, meter);
            Some(answer.max(if answer == 15 { 16 } else { 0 }))
        }
        _ => None,
    }
}

fn one_byte_less(call: Call, network: &Network, meter: &mut Meter) -> Option<u64> {
    match call {
        Call::Enter(size, ..) if meter.entered + u64::from(size) == MOST_ENTERED => {
            let answer = call.of_second(network, &mut meter.clone());
            Some(answer.min(15))
        }
        _ => None,
    }
}

fn move_anywhere(call: Call, network: &Network, meter: &mut Meter) -> Option<u64> {
    let Call::Move(place, to) = call else {
        return None;
    };
    let (place, frame) = meter.held(place).ok()?;
    let to = u8::try_from(to).ok()?;
    let is_neighbour = network.unit(frame.unit).neighbours.contains_key(&to);
    if !is_neighbour || to == frame.destination || frame.hops + 1 == LAST_HOP {
        return None;
    }
    let moved = meter.frames.get_mut(&place)?;
    (moved.unit, moved.hops) = (to, frame.hops + 1);
    Some(border::fate(Ok(Fate::Held(place))))
}

/// A move that is the last of its frame, with its place and its frame.
fn last_move(call: Call, network: &Network, meter: &Meter) -> Option<(Place, Frame, u8)> {
    let Call::Move(place, to) = call else {
        return None;
    };
    let (place, frame) = meter.held(place).ok()?;
    let accepted = call.of_second(network, &mut meter.clone()) >= ACCEPTED.into();
    let is_last = accepted && frame.hops + 1 == LAST_HOP;
    is_last.then_some((place, frame, to as u8))
}

fn drop_first(call: Call, network: &Network, meter: &mut Meter) -> Option<u64> {
    let (place, ..) = last_move(call, network, meter)?;
    Some(border::fate(meter.drop_frame(place.into())))
}

/// A frame is held once more, with as many hops as before.
fn hold_on(call: Call, network: &Network, meter: &mut Meter) -> Option<u64> {
    let (place, frame, to) = last_move(call, network, meter)?;
    if to == frame.destination {
        return None;
    }
    meter.frames.get_mut(&place)?.unit = to;
    Some(border::fate(Ok(Fate::Held(place))))
}

/// The index of the hops of the frame that a call names.
fn hops_at(call: &Call) -> Option<usize> {
    match *call {
        Call::Move(place, _) | Call::Drop(place) => Some(place_at(place as Place) + HOPS),
        _ => None,
    }
}

fn keep_hops(call: &Call, before: &[u8], after: &mut [u8]) {
    let at = hops_at(call).filter(|_| matches!(call, Call::Move(..)));
    if let Some(at) = at.filter(|&at| number_at(after, at) > 0) {
        set_number_at(after, at, number_at(before, at));
    }
}

fn leave_hops(call: &Call, before: &[u8], after: &mut [u8]) {
    let at = hops_at(call).filter(|&at| number_at(after, at - HOPS + SIZE) == 0);
    if let Some(at) = at {
        set_number_at(after, at, number_at(before, at));
    }
}

fn count_delivered(call: &Call, before: &[u8], after: &mut [u8]) {
    if let Call::Drop(_) = call {
        let size = figure(after, DROPPED) - figure(before, DROPPED);
        set_figure(after, DROPPED, figure(before, DROPPED));
        set_figure(after, DELIVERED, figure(before, DELIVERED) + size);
    }
}

fn spoil(table: &mut [u8]) {
    if let Some(last) = table.last_mut() {
        *last ^= 1;
    }
}
