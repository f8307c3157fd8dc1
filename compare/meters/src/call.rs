//! A call with its arguments, made on either side.

use crate::border;
use crate::product::{self, DELIVERED, DROPPED, HELD};
use second::limits::ACCEPTED;
use second::meter::Meter;
use second::meter_table::{self, laid_out};
use second::network::Network;
use second::network_tables::Tables;
use std::fmt;

/// A call on a meter: what happens to a frame, or a question.
#[derive(Clone, Copy, Debug, PartialEq, Eq)]
pub enum Call {
    /// A frame of a size enters at a unit, for a destination.
    Enter(u32, u32, u32),
    /// A frame moves to a unit.
    Move(u32, u32),
    /// A frame is dropped.
    Drop(u32),
    /// The bytes entered.
    Entered,
    /// The bytes delivered.
    Delivered,
    /// The bytes dropped.
    Dropped,
    /// The bytes held.
    Held,
    /// The number of frames held.
    Frames,
    /// The size of a frame.
    Size(u32),
    /// The unit that a frame is at.
    Unit(u32),
    /// The destination of a frame.
    Destination(u32),
    /// The hops that a frame has made.
    Hops(u32),
}

/// The questions about a whole meter.
pub const FIGURES: [Call; 5] = [
    Call::Entered,
    Call::Delivered,
    Call::Dropped,
    Call::Held,
    Call::Frames,
];

/// The questions about one frame.
pub fn fields(frame: u32) -> [Call; 4] {
    [
        Call::Size(frame),
        Call::Unit(frame),
        Call::Destination(frame),
        Call::Hops(frame),
    ]
}

impl Call {
    /// Whether it may change the meter.
    pub fn is_change(&self) -> bool {
        matches!(self, Call::Enter(..) | Call::Move(..) | Call::Drop(_))
    }

    /// What is called; of an accepted call what became of the frame too, and
    /// whether that was at its last hop.
    pub fn kind(&self, answer: u64, is_last_hop: bool) -> &'static str {
        let [held, delivered, dropped] = [HELD, DELIVERED, DROPPED].map(u64::from);
        match self {
            Call::Enter(..) if answer < held => "enter",
            Call::Enter(..) if answer < delivered => "enter, held",
            Call::Enter(..) => "enter, delivered",
            Call::Move(..) if answer < held => "move",
            Call::Move(..) if answer < delivered => "move, held",
            Call::Move(..) if answer < dropped && is_last_hop => "move 64, delivered",
            Call::Move(..) if answer < dropped => "move, delivered",
            Call::Move(..) => "move 64, dropped",
            Call::Drop(_) => "drop",
            Call::Entered => "entered",
            Call::Delivered => "delivered",
            Call::Dropped => "dropped",
            Call::Held => "held",
            Call::Frames => "frames",
            Call::Size(_) => "frame_size",
            Call::Unit(_) => "frame_unit",
            Call::Destination(_) => "frame_destination",
            Call::Hops(_) => "frame_hops",
        }
    }

    /// The product's answer.
    pub fn of_product(&self, tables: &Tables, meter: &mut [u8]) -> u64 {
        match *self {
            Call::Enter(size, unit, destination) => {
                product::enter(tables, meter, size, unit, destination).into()
            }
            Call::Move(frame, unit) => product::move_on(tables, meter, frame, unit).into(),
            Call::Drop(frame) => product::drop_frame(tables, meter, frame).into(),
            Call::Entered => product::entered(tables, meter),
            Call::Delivered => product::delivered(tables, meter),
            Call::Dropped => product::dropped(tables, meter),
            Call::Held => product::held(tables, meter),
            Call::Frames => product::frames(tables, meter),
            Call::Size(frame) => product::frame_size(tables, meter, frame).into(),
            Call::Unit(frame) => product::frame_unit(tables, meter, frame).into(),
            Call::Destination(frame) => product::frame_destination(tables, meter, frame).into(),
            Call::Hops(frame) => product::frame_hops(tables, meter, frame).into(),
        }
    }

    /// The second program's answer for a meter that it keeps itself.
    pub fn of_second(&self, network: &Network, meter: &mut Meter) -> u64 {
        match *self {
            Call::Enter(size, unit, destination) => {
                border::fate(meter.enter(network, size, unit, destination))
            }
            Call::Move(frame, unit) => border::fate(meter.move_on(network, frame, unit)),
            Call::Drop(frame) => border::fate(meter.drop_frame(frame)),
            Call::Entered => border::figure(meter.entered),
            Call::Delivered => border::figure(meter.delivered),
            Call::Dropped => border::figure(meter.dropped),
            Call::Held => border::figure(meter.bytes_held()),
            Call::Frames => border::figure(meter.frames.len() as u64),
            Call::Size(frame) => border::field(meter, frame, |it| it.size.into()),
            Call::Unit(frame) => border::field(meter, frame, |it| it.unit.into()),
            Call::Destination(frame) => border::field(meter, frame, |it| it.destination.into()),
            Call::Hops(frame) => border::field(meter, frame, |it| it.hops.into()),
        }
    }

    /// The second program's answer for tables: they are read, found fit or not,
    /// and the meter's is laid out again after an accepted call.
    pub fn of_second_on_tables(&self, tables: &Tables, table: &mut Vec<u8>) -> u64 {
        let read = || {
            let network = tables.read()?;
            let meter = meter_table::read(&network, table)?;
            Ok((network, meter))
        };
        let (network, mut meter) = match read() {
            Err(refusal) => return u32::into(refusal),
            Ok(both) => both,
        };
        let answer = self.of_second(&network, &mut meter);
        if self.is_change() && answer >= ACCEPTED.into() {
            *table = laid_out(&meter);
        }
        answer
    }
}

impl fmt::Display for Call {
    fn fmt(&self, f: &mut fmt::Formatter<'_>) -> fmt::Result {
        match self {
            Call::Enter(size, unit, destination) => {
                write!(f, "puntclover_meter_enter({size}, {unit}, {destination})")
            }
            Call::Move(frame, unit) => write!(f, "puntclover_meter_move({frame}, {unit})"),
            Call::Drop(frame)
            | Call::Size(frame)
            | Call::Unit(frame)
            | Call::Destination(frame)
            | Call::Hops(frame) => {
                write!(f, "puntclover_meter_{}({frame})", self.kind(0, false))
            }
            _ => write!(f, "puntclover_meter_{}()", self.kind(0, false)),
        }
    }
}
