//! The tables of networks that scripts reach: laid out and read back by the
//! second program, whole and damaged.

use second::network_tables::{queue_at, Tables};
use second::script::Runner;
use second::unit_table::{entry_number, WORDS as UNIT};
use shared::generator;
use shared::rng::Rng;
use std::io;

/// Whether tables are read. Then the other judgement of them agrees, and the
/// network that they hold has no second layout.
fn is_fit(tables: &Tables) -> bool {
    let Ok(network) = tables.read() else {
        return false;
    };
    assert!(network.is_fit(), "the other judgement differs");
    assert_eq!(Tables::of(&network), *tables, "a second layout");
    true
}

/// With any number or byte changed tables are unfit, or those of another fit
/// network.
#[test]
fn reached_networks_and_any_damage() {
    let (mut fit, mut unfit) = (0, 0);
    for seed in 0..60 {
        let mut rng = Rng::new(seed);
        let mut runner = Runner::default();
        for line in generator::script(seed, Some(120)).split(|&byte| byte == b'\n') {
            runner.answer(line, &mut io::sink()).unwrap();
            let Some(network) = runner.network().filter(|_| rng.chance(20)) else {
                continue;
            };
            let mut tables = Tables::of(network);
            assert_eq!(tables.read().as_ref(), Ok(network));
            damage(&mut rng, network.count(), &mut tables);
            *(if is_fit(&tables) {
                &mut fit
            } else {
                &mut unfit
            }) += 1;
        }
    }
    assert!(fit > 20 && unfit > 500, "{fit} fit, {unfit} unfit");
}

/// One number or byte changed, most often in a place that is used.
fn damage(rng: &mut Rng, count: u8, tables: &mut Tables) {
    let last = u32::from(count) - 1;
    if rng.chance(50) {
        let unit = rng.between(0, last) as usize;
        let place = UNIT * unit + rng.between(0, UNIT as u32 - 1) as usize;
        let number = tables.number(place);
        let other = match rng.between(0, 3) {
            0 => number ^ 1 << rng.between(0, 31),
            1 => number.wrapping_add(1),
            _ => entry_number(rng.between(0, 3), rng.between(0, 3)),
        };
        tables.set_number(place, other);
    } else {
        let (from, to) = (rng.between(0, last), rng.between(0, last));
        let place = queue_at(from as u8, to as u8) + rng.between(0, 15) as usize;
        tables.queues[place] ^= 1 << rng.between(0, 7);
    }
}
