//! A network and its meter on both sides, and one step of both.

use crate::call::{fields, Call, FIGURES};
use crate::product;
use networks::call::Call as NetworkCall;
use networks::product as network_product;
use networks::run::{self, Run};
use second::limits::{ACCEPTED, FRAMES, LAST_HOP};
use second::meter::Meter;
use second::meter_table::{laid_out, word_name, BYTES};
use second::network::Network;
use second::network_tables::Tables;
use second::table_bytes::{numbers, EACH};
use shared::tally::Difference;
use std::fmt::Write as _;

/// The product's tables, and what the second program keeps beside them.
#[derive(Clone)]
pub struct Site {
    /// The product's tables of the network.
    pub tables: Tables,
    /// The second program's network.
    pub network: Network,
    /// The product's table of the meter.
    pub table: Vec<u8>,
    /// The second program's meter.
    pub meter: Meter,
}

impl Site {
    /// A network and a meter, set up by hand.
    pub fn of(network: Network, meter: Meter) -> Site {
        Site {
            tables: Tables::of(&network),
            table: laid_out(&meter),
            network,
            meter,
        }
    }

    /// A fresh network with a fresh meter.
    pub fn fresh(run: &mut Run, part: &'static str, count: u32) -> Result<Site, Difference> {
        let mut tables = Tables::zeros();
        let answer = network_product::fresh(count, &mut tables.units, &mut tables.queues);
        run.count(part, "fresh network", answer);
        let mut table = vec![u8::MAX; BYTES];
        let of_meter = product::fresh(&mut table);
        run.count(part, "fresh", of_meter);
        let network = Network::fresh(count).ok();
        let site = network.map(|network| Site::of(network, Meter::default()));
        let is_alike = |it: &Site| {
            (answer, of_meter) == (ACCEPTED, ACCEPTED) && it.tables == tables && it.table == table
        };
        site.filter(is_alike)
            .ok_or_else(|| run.difference(format!("{part}: fresh network of {count}, fresh meter")))
    }

    /// The count of units.
    pub fn count(&self) -> u32 {
        self.network.count().into()
    }

    /// A call on the network, on both sides. It finds too if a call on the meter
    /// has changed the network's tables.
    pub fn network_step(
        &mut self,
        run: &mut Run,
        part: &'static str,
        call: &NetworkCall,
    ) -> Result<(), Difference> {
        run.step(part, call, &mut self.tables, &mut self.network)
    }

    /// A call on the meter, on both sides.
    pub fn step(
        &mut self,
        run: &mut Run,
        part: &'static str,
        call: Call,
    ) -> Result<(), Difference> {
        let before = self.table.clone();
        let is_last_hop = self.is_last_hop(call);
        let answer = call.of_product(&self.tables, &mut self.table);
        let wanted = call.of_second(&self.network, &mut self.meter);
        run.count(part, call.kind(wanted, is_last_hop), counted(wanted));
        let laid_out = laid_out(&self.meter);
        if answer == wanted && self.table == laid_out {
            return Ok(());
        }
        let compared = Compared {
            answers: [answer, wanted],
            meters: [&self.table, &laid_out],
            before: &before,
        };
        Err(compared.difference(run, part, call, &self.tables))
    }

    /// Whether a move is the last that its frame may make.
    fn is_last_hop(&self, call: Call) -> bool {
        let Call::Move(place, _) = call else {
            return false;
        };
        let held = self.meter.held(place);
        held.is_ok_and(|(_, frame)| frame.hops + 1 == LAST_HOP)
    }

    /// All questions, about all places and some that are none.
    pub fn ask_all(&mut self, run: &mut Run, part: &'static str) -> Result<(), Difference> {
        let places = (0..=FRAMES as u32).chain([u32::MAX]);
        let questions = FIGURES.into_iter().chain(places.flat_map(fields));
        for question in questions {
            self.step(run, part, question)?;
        }
        Ok(())
    }
}

/// A call on tables that may be unfit, which both sides judge.
pub fn judge(
    run: &mut Run,
    (part, kind): (&'static str, &'static str),
    call: Call,
    tables: &Tables,
    table: &[u8],
) -> Result<(), Difference> {
    let (lent, mut ours, mut theirs) = (tables.clone(), table.to_vec(), table.to_vec());
    let answer = call.of_product(&lent, &mut ours);
    let wanted = call.of_second_on_tables(tables, &mut theirs);
    run.count(part, kind, counted(wanted));
    if answer == wanted && ours == theirs && lent == *tables {
        return Ok(());
    }
    let compared = Compared {
        answers: [answer, wanted],
        meters: [&ours, &theirs],
        before: table,
    };
    Err(compared.difference(run, kind, call, tables))
}

/// An answer as it is counted: a figure may be greater than any other answer.
fn counted(answer: u64) -> u32 {
    u32::try_from(answer).unwrap_or(u32::MAX)
}

/// What both sides answered and left, the product first.
struct Compared<'a> {
    answers: [u64; 2],
    meters: [&'a [u8]; 2],
    before: &'a [u8],
}

impl Compared<'_> {
    fn difference(&self, run: &Run, part: &str, call: Call, tables: &Tables) -> Difference {
        let [product, second] = self.answers;
        let mut text = format!("{part}: {call}\nproduct answers {product}, second {second}\n");
        let name = |byte: usize| word_name(byte / EACH);
        run::tell(&mut text, name, self.meters[0], self.meters[1]);
        let bytes = self.before.len();
        let _ = writeln!(text, "the meter before, {bytes} bytes:");
        run::show_places(&mut text, "meter", &numbers(self.before));
        run::show(&mut text, tables);
        run.difference(text.trim_end())
    }
}
