//! What was compared so far, by the answers.

use second::limits::ACCEPTED;
use std::collections::BTreeMap;
use std::fmt::Write as _;

/// A difference, readable. It ends the run.
#[derive(Debug)]
pub struct Difference(pub String);

/// The calls of each part and kind.
#[derive(Default)]
pub struct Tallies {
    tallies: BTreeMap<(&'static str, &'static str), Tally>,
}

/// The calls of one part and kind, by their answers.
#[derive(Default)]
struct Tally {
    accepted: u64,
    refused: BTreeMap<u32, u64>,
}

impl Tallies {
    /// Counts a call of a part of the comparison.
    pub fn count(&mut self, part: &'static str, kind: &'static str, answer: u32) {
        let tally = self.tallies.entry((part, kind)).or_default();
        if answer < ACCEPTED {
            *tally.refused.entry(answer).or_default() += 1;
        } else {
            tally.accepted += 1;
        }
    }

    /// The calls of the parts and kinds that are wanted.
    pub fn total(&self, wanted: impl Fn(&str, &str) -> bool) -> u64 {
        let wanted = self.tallies.iter().filter(|(it, _)| wanted(it.0, it.1));
        wanted.map(|(_, tally)| tally.all()).sum()
    }

    /// How often the wanted parts and kinds were refused with a number.
    pub fn refused(&self, number: u32, wanted: impl Fn(&str, &str) -> bool) -> u64 {
        let wanted = self.tallies.iter().filter(|(it, _)| wanted(it.0, it.1));
        wanted.filter_map(|(_, it)| it.refused.get(&number)).sum()
    }

    /// How often the wanted parts and kinds were accepted.
    pub fn accepted(&self, wanted: impl Fn(&str, &str) -> bool) -> u64 {
        let wanted = self.tallies.iter().filter(|(it, _)| wanted(it.0, it.1));
        wanted.map(|(_, tally)| tally.accepted).sum()
    }

    /// What was compared, a line for each kind: the accepted calls, then the
    /// refused ones by their number.
    pub fn report(&self) {
        let wide = |of: fn(&(&str, &str)) -> usize| self.tallies.keys().map(of).max().unwrap_or(0);
        let (part_wide, kind_wide) = (wide(|it| it.0.len()) + 1, wide(|it| it.1.len()) + 1);
        for ((part, kind), tally) in &self.tallies {
            let refused = tally.refused.iter().fold(String::new(), |mut text, it| {
                let _ = write!(text, " {}:{}", it.0, it.1);
                text
            });
            let accepted = tally.accepted;
            println!("{part:part_wide$}{kind:kind_wide$}{accepted:>9} accepted, refused{refused}");
        }
    }
}

impl Tally {
    fn all(&self) -> u64 {
        self.accepted + self.refused.values().sum::<u64>()
    }
}

/// A number with a comma after each group of three digits.
pub fn grouped(number: u64) -> String {
    let digits = number.to_string();
    let mut text = String::new();
    for (place, digit) in digits.chars().enumerate() {
        if place > 0 && (digits.len() - place).is_multiple_of(3) {
            text.push(',');
        }
        text.push(digit);
    }
    text
}

#[cfg(test)]
mod tests {
    use super::*;

    #[test]
    fn calls_are_counted_by_their_answers() {
        let mut tallies = Tallies::default();
        for answer in [ACCEPTED, 3, 2, 3, u32::MAX] {
            tallies.count("life", "up", answer);
        }
        tallies.count("life", "down", 3);
        assert_eq!(tallies.total(|part, _| part == "life"), 6);
        assert_eq!(tallies.refused(3, |_, kind| kind == "up"), 2);
        assert_eq!(tallies.accepted(|_, _| true), 2);
        assert_eq!(tallies.total(|part, _| part == "network"), 0);
    }

    #[test]
    fn digits_in_groups() {
        assert_eq!(grouped(7), "7");
        assert_eq!(grouped(1_234), "1,234");
        assert_eq!(grouped(123_456_789), "123,456,789");
    }
}
