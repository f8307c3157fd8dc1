//! What was compared: scripts and lines, and the answers to each command.

use second::script::{parse, LINE_ROOM};
use shared::tally::grouped;
use std::collections::BTreeMap;
use std::fmt::Write as _;

/// What a part of the comparison has to meet.
#[derive(Clone, Copy, Default)]
pub struct Wanted {
    /// Each of these answers to each of these commands.
    answers: &'static [(&'static str, &'static [&'static str])],
    /// At least so many lines.
    lines: u64,
    /// At least so many accepted commands about frames.
    accepted: u64,
}

/// What became of a frame.
const ACCEPTED: [&str; 3] = ["held", "delivered", "dropped"];

/// Where there is a meter, every answer to its commands but one. Refusal 15 can't
/// be met: 10^15 bytes enter on no fewer than 15,000 million lines, as a line has
/// at most 65,535. A frame that moves is dropped at its 64th hop.
pub const FATES: Wanted = Wanted {
    answers: &[
        (
            "enter",
            &[
                "held",
                "delivered",
                "refused 2",
                "refused 3",
                "refused 14",
                "refused 16",
            ],
        ),
        (
            "move",
            &[
                "held",
                "delivered",
                "dropped",
                "refused 2",
                "refused 3",
                "refused 16",
            ],
        ),
        ("drop", &["dropped", "refused 2", "refused 16"]),
        ("page", &["page", "refused 2"]),
        ("no command", &["bad line"]),
    ],
    lines: 200_000,
    accepted: 20_000,
};

/// Where there is none, its commands are bad lines.
pub const UNKNOWN: Wanted = Wanted {
    answers: &[
        ("enter", &["bad line"]),
        ("move", &["bad line"]),
        ("drop", &["bad line"]),
        ("page", &["bad line"]),
    ],
    lines: 1,
    accepted: 0,
};

/// What was compared so far.
#[derive(Default)]
pub struct Counts {
    scripts: u64,
    /// Scripts whose last line has no end.
    open: u64,
    lines: u64,
    /// Lines longer than the second program's room for a line.
    long: u64,
    bytes: u64,
    /// By command and answer.
    answers: BTreeMap<(String, String), u64>,
}

impl Counts {
    /// Counts a script.
    pub fn count_script(&mut self, input: &[u8]) {
        self.scripts += 1;
        self.open += u64::from(input.last().is_some_and(|&byte| byte != b'\n'));
    }

    /// Counts a line of it, with what was printed for it.
    pub fn count_line(&mut self, line: &[u8], printed: &[u8]) {
        self.lines += 1;
        self.long += u64::from(line.len() > LINE_ROOM);
        self.bytes += printed.len() as u64;
        let command = match parse(line) {
            Some(_) => first_word(line),
            None => "no command".to_string(),
        };
        *self.answers.entry((command, kind(printed))).or_default() += 1;
    }

    /// How often a command was answered so.
    fn number(&self, command: &str, answer: &str) -> u64 {
        let key = (command.to_string(), answer.to_string());
        self.answers.get(&key).copied().unwrap_or(0)
    }

    /// How many commands about frames were accepted.
    fn accepted(&self) -> u64 {
        let accepted = self.answers.iter();
        let accepted = accepted.filter(|((_, answer), _)| ACCEPTED.contains(&answer.as_str()));
        accepted.map(|(_, number)| number).sum()
    }

    /// How much was compared.
    pub fn sizes(&self) -> String {
        format!(
            "{} scripts, {} with an open end, {} lines, {} longer than {LINE_ROOM} bytes, \
             {} bytes printed",
            grouped(self.scripts),
            grouped(self.open),
            grouped(self.lines),
            grouped(self.long),
            grouped(self.bytes)
        )
    }

    /// The wanted answers, a line for each command.
    pub fn answers(&self, wanted: &Wanted) -> String {
        let mut text = String::new();
        for (command, answers) in wanted.answers {
            let counted = answers.iter().map(|answer| {
                let number = self.number(command, answer);
                format!("{answer}: {}", grouped(number))
            });
            let _ = writeln!(text, "  {command}: {}", Vec::from_iter(counted).join(", "));
        }
        if wanted.accepted > 0 {
            let accepted = grouped(self.accepted());
            let _ = writeln!(text, "  {accepted} commands about frames accepted");
        }
        text
    }

    /// What has to be met and was not.
    pub fn not_met(&self, wanted: &Wanted) -> Vec<String> {
        let mut missing = Vec::new();
        for (command, answers) in wanted.answers {
            let unmet = answers.iter().filter(|it| self.number(command, it) == 0);
            missing.extend(unmet.map(|answer| format!("{command} answered by {answer}")));
        }
        for (what, number, fewest) in [
            ("scripts with an open end", self.open, 1),
            ("long lines", self.long, 1),
            ("lines", self.lines, wanted.lines),
            (
                "accepted commands about frames",
                self.accepted(),
                wanted.accepted,
            ),
        ] {
            if number < fewest {
                missing.push(format!("{fewest} {what}, but {number}"));
            }
        }
        missing
    }
}

/// A refusal and `bad line` whole, of others the first word; what a table or a
/// page begins with stands for it.
fn kind(printed: &[u8]) -> String {
    let first = first_word(printed);
    match first.as_str() {
        "refused" | "bad" => String::from_utf8_lossy(printed).trim_end().to_string(),
        "unit" => "table".to_string(),
        "entered" => "page".to_string(),
        _ => first,
    }
}

fn first_word(text: &[u8]) -> String {
    let end = text.iter().position(u8::is_ascii_whitespace);
    let word = &text[..end.unwrap_or(text.len())];
    String::from_utf8_lossy(word).into_owned()
}

#[cfg(test)]
mod tests {
    use super::*;

    #[test]
    fn kinds_of_answers() {
        assert_eq!(kind(b"refused 14\n"), "refused 14");
        assert_eq!(kind(b"bad line\n"), "bad line");
        assert_eq!(kind(b"held 63\n"), "held");
        assert_eq!(kind(b"unit 0 passive\n0 1 - - -\n"), "table");
        assert_eq!(kind(b"entered 5\ndelivered 5\n"), "page");
    }

    #[test]
    fn what_is_not_met_is_told() {
        let mut counts = Counts::default();
        counts.count_script(b"drop 0\nx");
        counts.count_line(b"drop 0", b"bad line\n");
        counts.count_line(&[b'x'; LINE_ROOM + 1], b"bad line\n");
        assert_eq!(counts.number("drop", "bad line"), 1);
        assert_eq!(counts.number("no command", "bad line"), 1);
        assert_eq!(counts.not_met(&Wanted::default()), Vec::<String>::new());
        let unknown = ["enter", "move", "page"].map(|it| format!("{it} answered by bad line"));
        assert_eq!(counts.not_met(&UNKNOWN), unknown);
        let few = counts.not_met(&FATES);
        assert!(
            few.contains(&"drop answered by dropped".to_string()),
            "{few:?}"
        );
        assert!(few.contains(&"200000 lines, but 2".to_string()), "{few:?}");
    }
}
