//! Lines about frames, in scripts for the program with a meter.

use super::Generator;
use crate::draw::MOST;
use crate::malformed;
use crate::rng::Rng;
use second::limits::{FRAMES, LARGEST_FRAME, LAST_HOP};
use second::meter::Place;
use second::network::Network;
use second::script::GREATEST_NUMBER;
use second::tree::UnitNumber;

/// The cost that makes a unit hand its frames to another.
const DEAR: u32 = 100;

/// Lines enough to drive a frame until its last hop.
const DRIVE_LINES: usize = 1_200;

/// How often lines about frames come, and how often which.
#[derive(Clone, Copy)]
pub struct Traffic {
    /// After a line another one comes, in so many of 100 cases.
    share: u32,
    /// Frames enter, move and are dropped, in parts of the sum.
    enters: u32,
    moves: u32,
    drops: u32,
}

impl Traffic {
    /// Places fill up, are mostly free, or neither.
    pub fn draw(rng: &mut Rng) -> Traffic {
        let parts = [(60, 35, 5), (80, 15, 5), (30, 65, 5), (20, 60, 20)];
        let &(enters, moves, drops) = rng.pick(&parts).unwrap_or(&(1, 1, 1));
        Traffic {
            share: *rng.pick(&[10, 30, 50, 70, 85]).unwrap_or(&50),
            enters,
            moves,
            drops,
        }
    }
}

impl Generator {
    /// Lines about frames, none or some, where there is traffic.
    pub(super) fn perhaps_frames(&mut self) {
        let Some(traffic) = self.traffic else {
            return;
        };
        while self.rng.chance(traffic.share) {
            let line = match self.rng.between(0, 99) {
                0..=5 => b"page".to_vec(),
                6..=8 => malformed::meter_line(&mut self.rng),
                9..=18 => self.odd_frame_line().into_bytes(),
                _ => self.frame_line(traffic).into_bytes(),
            };
            self.single_line(line);
        }
    }

    /// What happens next to a frame. It is refused where all places are taken, or
    /// where no successor is there.
    fn frame_line(&mut self, traffic: Traffic) -> String {
        let Traffic {
            enters,
            moves,
            drops,
            ..
        } = traffic;
        let turn = self.rng.between(1, enters + moves + drops);
        match self.held() {
            Some(place) if turn <= moves => format!("move {place} {}", self.next_unit(place)),
            Some(place) if turn <= moves + drops => format!("drop {place}"),
            _ => format!("enter {} {} {}", self.size(), self.unit(), self.unit()),
        }
    }

    /// What happens to a frame, with numbers that lie at borders, so that several
    /// refusals may apply at once, or none.
    fn odd_frame_line(&mut self) -> String {
        match self.rng.between(0, 4) {
            0..=1 => {
                let size = self.odd_size();
                format!("enter {size} {} {}", self.odd_unit(), self.odd_unit())
            }
            2..=3 => format!("move {} {}", self.odd_place(), self.odd_unit()),
            _ => format!("drop {}", self.odd_place()),
        }
    }

    /// A legal size, often the least or the largest.
    fn size(&mut self) -> u32 {
        match self.rng.between(0, 5) {
            0 => 1,
            1 => LARGEST_FRAME,
            _ => self.rng.between(1, LARGEST_FRAME),
        }
    }

    /// A size, most often one that is none.
    fn odd_size(&mut self) -> u32 {
        let above = LARGEST_FRAME + 1;
        let legal = self.size();
        let any = self.rng.between(0, GREATEST_NUMBER);
        let odd = [
            legal,
            legal,
            0,
            above,
            above + legal,
            2 * above,
            any,
            GREATEST_NUMBER,
        ];
        *self.rng.pick(&odd).unwrap_or(&0)
    }

    fn count(&self) -> u32 {
        let network = self.network();
        network.map_or(self.plan.count, Network::count).into()
    }

    fn unit(&mut self) -> u32 {
        let count = self.count();
        self.rng.between(0, count - 1)
    }

    /// A unit's number, often one that is none.
    fn odd_unit(&mut self) -> u32 {
        let (count, legal) = (self.count(), self.unit());
        // Some that are legal once cut to 8 or 16 bits.
        let odd = [
            count,
            MOST,
            255,
            256 + legal,
            (1 << 16) + legal,
            GREATEST_NUMBER,
        ];
        match self.rng.chance(70) {
            true => legal,
            false => *self.rng.pick(&odd).unwrap_or(&count),
        }
    }

    /// The place of a held frame.
    fn held(&mut self) -> Option<u32> {
        let places: Vec<Place> = self.runner.meter().frames.keys().copied().collect();
        self.rng.pick(&places).map(|&place| place.into())
    }

    /// A place, most often one that is free or none.
    fn odd_place(&mut self) -> u32 {
        let places = FRAMES as u32;
        let some = self.held().unwrap_or(0);
        let any = self.rng.between(0, places - 1);
        let odd = [
            some,
            any,
            places - 1,
            places,
            places + some,
            256 + some,
            (1 << 16) + some,
            GREATEST_NUMBER,
        ];
        *self.rng.pick(&odd).unwrap_or(&places)
    }

    /// A successor for the frame in a place, any unit if there is none.
    fn next_unit(&mut self, place: u32) -> u32 {
        let frame = self.runner.meter().held(place).ok();
        let successors: Vec<UnitNumber> = match (self.network(), frame) {
            (Some(network), Some((_, frame))) => {
                let sets = &network.unit(frame.unit).successors;
                sets[&frame.destination].iter().copied().collect()
            }
            _ => Vec::new(),
        };
        match self.rng.pick(&successors) {
            Some(&to) => to.into(),
            None => self.unit(),
        }
    }

    /// A network in which a frame is driven, in some scripts with traffic, as far
    /// as there is room. The traffic waits for that.
    pub(super) fn perhaps_drive(&mut self) {
        let has_room = self.goal - self.lines >= DRIVE_LINES;
        if self.traffic.is_some() && has_room && self.rng.chance(60) {
            let traffic = self.traffic.take();
            self.drive();
            self.traffic = traffic;
        }
    }

    /// A frame goes to and fro between two units until its last hop, which may
    /// reach its destination: whichever unit has it, its own link to the
    /// destination becomes the dearer one, so that the other is a successor.
    fn drive(&mut self) {
        let count = self.rng.between(3, 5);
        let mut units: Vec<u32> = (0..count).collect();
        self.rng.shuffle(&mut units);
        let [mut at, mut other, destination] = [units[0], units[1], units[2]];
        self.line(format!("units {count}"));
        for (a, b) in [(at, other), (at, destination), (other, destination)] {
            self.line(format!("up {a} {b} 1 1"));
        }
        // Some frames stand before it, so that its place is any.
        let place = self.rng.between(0, 3);
        for _ in 0..=place {
            let size = self.size();
            self.line(format!("enter {size} {at} {destination}"));
        }
        for hop in 1..=LAST_HOP {
            self.line(format!("cost {other} {destination} 1"));
            self.line(format!("cost {at} {destination} {DEAR}"));
            self.drain();
            let arrives = hop == LAST_HOP && self.rng.chance(50);
            let to = if arrives { destination } else { other };
            self.line(format!("move {place} {to}"));
            (at, other) = (other, at);
        }
        self.line("page");
    }
}
