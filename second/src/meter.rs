//! The meter over the routes: frames on their way through a network, and bytes
//! that add up.
//!
//! "A frame enters, moves one hop to a named present successor, or is dropped;
//! at its destination it is delivered. Bytes entered equal bytes delivered,
//! dropped and held after any sequence, each figure defined from the accepted
//! calls."
//!
//! The meter reads the network and never changes it.

use crate::limits::{FRAMES, LAST_HOP, MOST_ENTERED};
use crate::network::Network;
use crate::refusal::{legal_size, legal_unit, Refusal, ENTERED, FRAME, NO_PLACE};
use crate::tree::UnitNumber;
use std::collections::BTreeMap;

/// The number of a place, "whose number names" the frame in it.
pub type Place = u8;

/// A held frame: "each with a size of 1 to 65,535 bytes, the unit it is at and a
/// destination"; and the hops that it has made.
#[derive(Clone, Copy, Debug, PartialEq, Eq)]
pub struct Frame {
    /// Its bytes.
    pub size: u16,
    /// The unit that it is at.
    pub unit: UnitNumber,
    /// The unit that it is for.
    pub destination: UnitNumber,
    /// The hops that it has made.
    pub hops: u8,
}

/// The three figures and the held frames. The fields are open, so that meters
/// that no sequence has reached can be set up by hand.
#[derive(Clone, Debug, Default, PartialEq, Eq)]
pub struct Meter {
    /// The bytes of all frames that entered.
    pub entered: u64,
    /// The bytes of those that reached their destinations.
    pub delivered: u64,
    /// The bytes of those that were dropped.
    pub dropped: u64,
    /// The held frames by their places.
    pub frames: BTreeMap<Place, Frame>,
}

/// What became of a frame by an accepted call.
#[derive(Clone, Copy, Debug, PartialEq, Eq)]
pub enum Fate {
    /// It is held in this place.
    Held(Place),
    /// It is at its destination, and no longer held.
    Delivered,
    /// It is gone.
    Dropped,
}

impl Meter {
    /// A frame enters at a unit. "A frame takes the lowest of 64 places that is
    /// free"; "a frame entered at its destination is delivered at once" and
    /// takes none, but it too is refused while 64 are held. Refused with 3, 14,
    /// 15, 16.
    pub fn enter(
        &mut self,
        network: &Network,
        size: u32,
        unit: u32,
        destination: u32,
    ) -> Result<Fate, Refusal> {
        let unit = legal_unit(network.count(), unit)?;
        let destination = legal_unit(network.count(), destination)?;
        let place = self.lowest_free().ok_or(NO_PLACE)?;
        // The size as it is given: 15 comes before 16.
        if self.entered + u64::from(size) > MOST_ENTERED {
            return Err(ENTERED);
        }
        let frame = Frame {
            size: legal_size(size)?,
            unit,
            destination,
            hops: 0,
        };
        self.entered += u64::from(frame.size);
        Ok(self.settle(place, frame))
    }

    /// A frame "moves one hop to a named present successor". "At its 64th hop it
    /// is delivered if that hop reaches the destination, else dropped." Refused
    /// with 3, 16.
    pub fn move_on(&mut self, network: &Network, place: u32, to: u32) -> Result<Fate, Refusal> {
        let to = legal_unit(network.count(), to)?;
        let (place, frame) = self.held(place)?;
        let successors = &network.unit(frame.unit).successors[&frame.destination];
        if !successors.contains(&to) {
            return Err(FRAME);
        }
        self.frames.remove(&place);
        let moved = Frame {
            unit: to,
            hops: frame.hops + 1,
            ..frame
        };
        Ok(self.settle(place, moved))
    }

    /// A frame "is dropped". Refused with 16.
    pub fn drop_frame(&mut self, place: u32) -> Result<Fate, Refusal> {
        let (place, frame) = self.held(place)?;
        self.frames.remove(&place);
        self.dropped += u64::from(frame.size);
        Ok(Fate::Dropped)
    }

    /// The bytes of all held frames.
    pub fn bytes_held(&self) -> u64 {
        let sizes = self.frames.values().map(|frame| u64::from(frame.size));
        sizes.sum()
    }

    /// A held frame with its place. Refused with 16, "a frame that isn't held".
    pub fn held(&self, place: u32) -> Result<(Place, Frame), Refusal> {
        let place = Place::try_from(place).map_err(|_| FRAME)?;
        let frame = self.frames.get(&place).ok_or(FRAME)?;
        Ok((place, *frame))
    }

    /// "The lowest of 64 places that is free", none "exactly when 64 are held".
    fn lowest_free(&self) -> Option<Place> {
        (0..FRAMES as Place).find(|place| !self.frames.contains_key(place))
    }

    /// Where a frame stands that isn't in any place: the destination is looked at
    /// first, then the hops; else it takes the place.
    fn settle(&mut self, place: Place, frame: Frame) -> Fate {
        if frame.unit == frame.destination {
            self.delivered += u64::from(frame.size);
            Fate::Delivered
        } else if frame.hops == LAST_HOP {
            self.dropped += u64::from(frame.size);
            Fate::Dropped
        } else {
            self.frames.insert(place, frame);
            Fate::Held(place)
        }
    }
}
