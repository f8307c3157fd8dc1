//! Lines that are no commands, most of them nearly commands.

use crate::draw::{self, MOST};
use crate::rng::Rng;
use second::limits::{FRAMES, HIGHEST_COST, LARGEST_FRAME};
use second::script::{LINE_ROOM, LONGEST_COMMAND};

/// Turns a good line into a malformed one.
type Spoil = fn(&mut Rng, Vec<u8>) -> Vec<u8>;

/// Ways to spoil a line.
const SPOILS: [Spoil; 16] = [
    double_space,
    leading_zero,
    ten_digits,
    trailing_space,
    leading_space,
    empty_line,
    unknown_word,
    nul_byte,
    carriage_return,
    high_byte,
    long_line,
    missing_argument,
    extra_argument,
    wrong_case,
    tab_for_space,
    signed_number,
];

/// A malformed line, without a line's end.
pub fn line(rng: &mut Rng) -> Vec<u8> {
    let good = good_line(rng);
    spoiled(rng, good)
}

/// A malformed line that would be one of a meter's commands.
pub fn meter_line(rng: &mut Rng) -> Vec<u8> {
    let good = good_meter_line(rng);
    spoiled(rng, good)
}

fn spoiled(rng: &mut Rng, good: Vec<u8>) -> Vec<u8> {
    let spoil = rng.between(0, SPOILS.len() as u32 - 1) as usize;
    SPOILS[spoil](rng, good)
}

/// A line that would be a command.
fn good_line(rng: &mut Rng) -> Vec<u8> {
    let (a, b) = (rng.between(0, MOST - 1), rng.between(0, MOST - 1));
    let cost = rng.between(1, HIGHEST_COST);
    let line = match rng.between(0, 5) {
        0 => format!("units {}", draw::count(rng)),
        1 => format!("up {a} {b} {cost} {cost}"),
        2 => format!("cost {a} {b} {cost}"),
        3 => format!("down {a} {b}"),
        4 => format!("deliver {a} {b}"),
        _ => "show".to_string(),
    };
    line.into_bytes()
}

/// A line that would be one of a meter's commands.
fn good_meter_line(rng: &mut Rng) -> Vec<u8> {
    let (a, b) = (rng.between(0, MOST - 1), rng.between(0, MOST - 1));
    let place = rng.between(0, FRAMES as u32 - 1);
    let line = match rng.between(0, 3) {
        0 => format!("enter {} {a} {b}", rng.between(1, LARGEST_FRAME)),
        1 => format!("move {place} {b}"),
        2 => format!("drop {place}"),
        _ => "page".to_string(),
    };
    line.into_bytes()
}

/// The line with its last word exchanged; one that has but one word gets a word
/// more.
fn with_last_word(mut line: Vec<u8>, word: &[u8]) -> Vec<u8> {
    match line.iter().rposition(|&byte| byte == b' ') {
        Some(space) => line.truncate(space + 1),
        None => line.push(b' '),
    }
    line.extend(word);
    line
}

/// Two spaces for one, or two at the end of a line without any.
fn double_space(rng: &mut Rng, mut line: Vec<u8>) -> Vec<u8> {
    let spaces: Vec<usize> = (0..line.len()).filter(|&at| line[at] == b' ').collect();
    match rng.pick(&spaces) {
        Some(&at) => line.insert(at, b' '),
        None => line.extend(b"  "),
    }
    line
}

fn leading_zero(rng: &mut Rng, line: Vec<u8>) -> Vec<u8> {
    let words: [&[u8]; 5] = [b"00", b"01", b"007", b"000000001", b"0000000001"];
    with_last_word(line, rng.pick(&words).unwrap_or(&words[0]))
}

/// Ten digits or more, below and above what fits 32 and 64 bits.
fn ten_digits(rng: &mut Rng, line: Vec<u8>) -> Vec<u8> {
    let words: [&[u8]; 5] = [
        b"1000000000",
        b"1234567890",
        b"4294967296",
        b"4294967298",
        b"18446744073709551618",
    ];
    with_last_word(line, rng.pick(&words).unwrap_or(&words[0]))
}

fn trailing_space(_: &mut Rng, mut line: Vec<u8>) -> Vec<u8> {
    line.push(b' ');
    line
}

fn leading_space(_: &mut Rng, mut line: Vec<u8>) -> Vec<u8> {
    line.insert(0, b' ');
    line
}

fn empty_line(_: &mut Rng, _: Vec<u8>) -> Vec<u8> {
    Vec::new()
}

fn unknown_word(rng: &mut Rng, line: Vec<u8>) -> Vec<u8> {
    let words: [&[u8]; 6] = [b"unit", b"shows", b"send", b"upp", b"x", b"# show"];
    let mut unknown = rng.pick(&words).unwrap_or(&words[0]).to_vec();
    let first_space = line.iter().position(|&byte| byte == b' ');
    unknown.extend(&line[first_space.unwrap_or(line.len())..]);
    unknown
}

/// The line with one byte put in somewhere, its beginning and end included.
fn with_byte(rng: &mut Rng, mut line: Vec<u8>, byte: u8) -> Vec<u8> {
    let at = rng.between(0, line.len() as u32) as usize;
    line.insert(at, byte);
    line
}

fn nul_byte(rng: &mut Rng, line: Vec<u8>) -> Vec<u8> {
    with_byte(rng, line, 0)
}

/// Mostly at the end, as in files from elsewhere.
fn carriage_return(rng: &mut Rng, mut line: Vec<u8>) -> Vec<u8> {
    if rng.chance(30) {
        return with_byte(rng, line, b'\r');
    }
    line.push(b'\r');
    line
}

fn high_byte(rng: &mut Rng, line: Vec<u8>) -> Vec<u8> {
    let byte = rng.between(128, 255) as u8;
    with_byte(rng, line, byte)
}

/// A good beginning, then one byte again and again: longer than the longest
/// command, around the second program's room for a line, and far beyond.
fn long_line(rng: &mut Rng, mut line: Vec<u8>) -> Vec<u8> {
    let (longest, room) = (LONGEST_COMMAND as u32, LINE_ROOM as u32);
    let length = match rng.between(0, 9) {
        0..=2 => rng.between(longest + 1, longest + 6),
        3..=6 => rng.between(room - 4, room + 6),
        7 | 8 => rng.between(100, 3_000),
        _ => rng.between(8_000, 70_000),
    };
    let byte = *rng.pick(b" 019ax\0\xff").unwrap_or(&b' ');
    line.resize(length as usize, byte);
    line
}

fn missing_argument(_: &mut Rng, mut line: Vec<u8>) -> Vec<u8> {
    let last_space = line.iter().rposition(|&byte| byte == b' ');
    line.truncate(last_space.unwrap_or(2));
    line
}

fn extra_argument(rng: &mut Rng, mut line: Vec<u8>) -> Vec<u8> {
    line.extend(format!(" {}", rng.between(0, 20)).bytes());
    line
}

fn wrong_case(rng: &mut Rng, mut line: Vec<u8>) -> Vec<u8> {
    if rng.chance(50) {
        line.make_ascii_uppercase();
    } else {
        line[0].make_ascii_uppercase();
    }
    line
}

fn tab_for_space(_: &mut Rng, mut line: Vec<u8>) -> Vec<u8> {
    match line.iter().position(|&byte| byte == b' ') {
        Some(at) => line[at] = b'\t',
        None => line.push(b'\t'),
    }
    line
}

fn signed_number(rng: &mut Rng, line: Vec<u8>) -> Vec<u8> {
    let words: [&[u8]; 5] = [b"+1", b"-1", b"-0", b"1.0", b"0x1"];
    with_last_word(line, rng.pick(&words).unwrap_or(&words[0]))
}

#[cfg(test)]
mod tests {
    use super::*;
    use second::script::parse;

    #[test]
    fn every_spoil_spoils_every_line() {
        let mut rng = Rng::new(3);
        for spoil in SPOILS {
            for _ in 0..300 {
                for good in [good_line(&mut rng), good_meter_line(&mut rng)] {
                    assert!(parse(&good).is_some(), "{good:?}");
                    let spoiled = spoil(&mut rng, good.clone());
                    assert_eq!(parse(&spoiled), None, "{good:?} to {spoiled:?}");
                    assert!(!spoiled.contains(&b'\n'), "{spoiled:?}");
                }
            }
        }
    }
}
