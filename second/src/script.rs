//! Scripts: a command on each line, an answer to each command.
//!
//! There are two programs. One knows a network alone; the other has a meter over
//! it as well, and knows the meter's commands besides.
//!
//! A line ends at byte 10. A last line without it counts if it has at least one
//! byte. All other bytes, carriage return and NUL too, are bytes of the line.

use crate::meter::{Fate, Meter};
use crate::network::Network;
use crate::refusal::{Refusal, UNFIT};
use crate::tree::UnitNumber;
use crate::unit::Unit;
use std::io::{self, BufRead, ErrorKind, Write};

/// "Decimals of at most 9 digits."
pub const DIGITS: usize = 9;

/// The greatest number of so many digits.
pub const GREATEST_NUMBER: u32 = 10_u32.pow(DIGITS as u32) - 1;

/// The bytes of the longest command, `up` with four decimals after spaces.
pub const LONGEST_COMMAND: usize = "up".len() + 4 * (1 + DIGITS);

/// The bytes kept of a line, more than the longest command has: what has filled
/// this room is a bad line, and so is its beginning that was kept.
pub const LINE_ROOM: usize = 64;

/// A line that is a command.
#[derive(Clone, Copy, Debug, PartialEq, Eq)]
pub enum Command {
    /// `units n`: a fresh network of n units.
    Units(u32),
    /// `up a b ca cb`: a link up, with the costs from a and from b.
    Up(u32, u32, u32, u32),
    /// `cost a b c`: the cost from a to b.
    Cost(u32, u32, u32),
    /// `down a b`: a link down.
    Down(u32, u32),
    /// `deliver a b`: the first message from a to b.
    Deliver(u32, u32),
    /// `show`: the tables.
    Show,
    /// `enter size unit destination`: a frame enters.
    Enter(u32, u32, u32),
    /// `move frame unit`: a frame moves one hop.
    Move(u32, u32),
    /// `drop frame`: a frame is dropped.
    Drop(u32),
    /// `page`: the meter's figures and its frames.
    Page,
}

impl Command {
    /// Whether it is known only where there is a meter.
    pub fn is_for_meter(&self) -> bool {
        use Command::{Drop, Enter, Move, Page};
        matches!(self, Enter(..) | Move(..) | Drop(_) | Page)
    }
}

/// The command on a line, a meter's included, if it is one: words joined by
/// single spaces, nothing before or after. Two spaces in a row make an empty
/// word, which is neither a command's name nor a decimal.
pub fn parse(line: &[u8]) -> Option<Command> {
    let words: Vec<&[u8]> = line.split(|&byte| byte == b' ').collect();
    let (name, arguments) = words.split_first()?;
    let numbers: Option<Vec<u32>> = arguments.iter().map(|word| decimal(word)).collect();
    match (*name, numbers?.as_slice()) {
        (b"units", &[n]) => Some(Command::Units(n)),
        (b"up", &[a, b, ca, cb]) => Some(Command::Up(a, b, ca, cb)),
        (b"cost", &[a, b, c]) => Some(Command::Cost(a, b, c)),
        (b"down", &[a, b]) => Some(Command::Down(a, b)),
        (b"deliver", &[a, b]) => Some(Command::Deliver(a, b)),
        (b"show", &[]) => Some(Command::Show),
        (b"enter", &[size, unit, destination]) => Some(Command::Enter(size, unit, destination)),
        (b"move", &[frame, unit]) => Some(Command::Move(frame, unit)),
        (b"drop", &[frame]) => Some(Command::Drop(frame)),
        (b"page", &[]) => Some(Command::Page),
        _ => None,
    }
}

/// "Decimals of at most 9 digits without leading zeros"; the single digit 0 is
/// a decimal.
fn decimal(word: &[u8]) -> Option<u32> {
    let has_leading_zero = word.len() > 1 && word[0] == b'0';
    let all_digits = word.iter().all(u8::is_ascii_digit);
    if word.is_empty() || word.len() > DIGITS || has_leading_zero || !all_digits {
        return None;
    }
    let append = |number, &digit: &u8| number * 10 + u32::from(digit - b'0');
    Some(word.iter().fold(0, append))
}

/// Answers one line after the other, and keeps the network between them.
#[derive(Clone, Debug, Default)]
pub struct Runner {
    network: Option<Network>,
    has_meter: bool,
    meter: Meter,
}

impl Runner {
    /// One that keeps a meter over the network too.
    pub fn with_meter() -> Runner {
        Runner {
            has_meter: true,
            ..Runner::default()
        }
    }

    /// The present network, if there was a good `units`.
    pub fn network(&self) -> Option<&Network> {
        self.network.as_ref()
    }

    /// The present meter, which stays fresh where its commands are unknown.
    pub fn meter(&self) -> &Meter {
        &self.meter
    }

    /// Answers a line: "`ok`, `refused n` or, for any other line, `bad line`";
    /// to an accepted command about a frame, what became of the frame. An
    /// accepted `show` prints its table alone, an accepted `page` its page.
    pub fn answer(&mut self, line: &[u8], output: &mut impl Write) -> io::Result<()> {
        let known = |it: &Command| self.has_meter || !it.is_for_meter();
        let Some(command) = parse(line).filter(known) else {
            return writeln!(output, "bad line");
        };
        match (command, &self.network) {
            (Command::Show, Some(network)) => return show(network, output),
            (Command::Page, Some(_)) => return page(&self.meter, output),
            _ => {}
        }
        match self.execute(command) {
            Ok(None) => writeln!(output, "ok"),
            Ok(Some(Fate::Held(place))) => writeln!(output, "held {place}"),
            Ok(Some(Fate::Delivered)) => writeln!(output, "delivered"),
            Ok(Some(Fate::Dropped)) => writeln!(output, "dropped"),
            Err(number) => writeln!(output, "refused {number}"),
        }
    }

    /// Runs a command, and gives what became of the frame that it is about.
    /// "Before a good `units`, which starts afresh each time, other commands
    /// answer `refused 2`." It starts the meter afresh too. A refused `units`
    /// leaves both as they are.
    fn execute(&mut self, command: Command) -> Result<Option<Fate>, Refusal> {
        if let Command::Units(count) = command {
            self.network = Some(Network::fresh(count)?);
            self.meter = Meter::default();
            return Ok(None);
        }
        let network = self.network.as_mut().ok_or(UNFIT)?;
        match command {
            Command::Up(a, b, ca, cb) => network.up(a, b, ca, cb)?,
            Command::Cost(a, b, c) => network.cost(a, b, c)?,
            Command::Down(a, b) => network.down(a, b)?,
            Command::Deliver(a, b) => network.deliver(a, b)?,
            Command::Enter(size, unit, destination) => {
                let fate = self.meter.enter(network, size, unit, destination)?;
                return Ok(Some(fate));
            }
            Command::Move(frame, unit) => {
                return self.meter.move_on(network, frame, unit).map(Some)
            }
            Command::Drop(frame) => return self.meter.drop_frame(frame).map(Some),
            Command::Units(_) | Command::Show | Command::Page => {}
        }
        Ok(None)
    }

    /// Answers a whole script from one stream onto another. Of a line no more
    /// than [`LINE_ROOM`] bytes are held, however long it is.
    pub fn run(mut self, input: &mut impl BufRead, output: &mut impl Write) -> io::Result<()> {
        let mut line = Vec::with_capacity(LINE_ROOM);
        while next_line(input, &mut line)? {
            self.answer(&line, output)?;
        }
        output.flush()
    }
}

/// "Show prints for each unit its number and state, then for each other
/// destination" a line.
pub fn show(network: &Network, output: &mut impl Write) -> io::Result<()> {
    for unit in &network.units {
        let state = if unit.is_active() {
            "active"
        } else {
            "passive"
        };
        writeln!(output, "unit {} {state}", unit.number)?;
        for destination in (0..network.count()).filter(|&j| j != unit.number) {
            show_destination(unit, destination, output)?;
        }
    }
    Ok(())
}

/// "Unit, destination, distance, feasible distance, successors joined by
/// commas; `-` for unreachable or none."
fn show_destination(unit: &Unit, j: UnitNumber, output: &mut impl Write) -> io::Result<()> {
    let successors: Vec<String> = unit.successors[&j].iter().map(u8::to_string).collect();
    let successors = match successors.as_slice() {
        [] => "-".to_string(),
        some => some.join(","),
    };
    let (distance, feasible) = (unit.distance(j), unit.feasible[&j]);
    writeln!(
        output,
        "{} {j} {distance} {feasible} {successors}",
        unit.number
    )
}

/// The meter's figures, then a line for each held frame, by rising place.
pub fn page(meter: &Meter, output: &mut impl Write) -> io::Result<()> {
    writeln!(output, "entered {}", meter.entered)?;
    writeln!(output, "delivered {}", meter.delivered)?;
    writeln!(output, "dropped {}", meter.dropped)?;
    writeln!(output, "held {}", meter.bytes_held())?;
    writeln!(output, "frames {}", meter.frames.len())?;
    for (place, frame) in &meter.frames {
        writeln!(
            output,
            "frame {place} size {} at {} to {} hops {}",
            frame.size, frame.unit, frame.destination, frame.hops
        )?;
    }
    Ok(())
}

/// Answers a whole script, where there is no meter.
pub fn run(input: &mut impl BufRead, output: &mut impl Write) -> io::Result<()> {
    Runner::default().run(input, output)
}

/// Reads the next line, without its byte 10 and cut to the room. Answers
/// whether there was one.
fn next_line(input: &mut impl BufRead, line: &mut Vec<u8>) -> io::Result<bool> {
    line.clear();
    let mut has_bytes = false;
    loop {
        let bytes = match input.fill_buf() {
            Err(error) if error.kind() == ErrorKind::Interrupted => continue,
            bytes => bytes?,
        };
        if bytes.is_empty() {
            return Ok(has_bytes);
        }
        has_bytes = true;
        let end = bytes.iter().position(|&byte| byte == b'\n');
        let part = &bytes[..end.unwrap_or(bytes.len())];
        let room = LINE_ROOM - line.len();
        line.extend(part.iter().take(room));
        let used = part.len() + usize::from(end.is_some());
        input.consume(used);
        if end.is_some() {
            return Ok(true);
        }
    }
}

#[cfg(test)]
mod tests {
    use super::*;
    use crate::limits::FRAMES;
    use std::io::BufReader;

    fn answers(script: &[u8], buffer: usize) -> String {
        let mut output = Vec::new();
        run(&mut BufReader::with_capacity(buffer, script), &mut output).unwrap();
        String::from_utf8(output).unwrap()
    }

    #[test]
    fn good_lines_parse() {
        assert_eq!(parse(b"units 12"), Some(Command::Units(12)));
        assert_eq!(parse(b"up 0 1 5 7"), Some(Command::Up(0, 1, 5, 7)));
        assert_eq!(
            parse(b"up 999999999 999999999 999999999 999999999"),
            Some(Command::Up(999999999, 999999999, 999999999, 999999999))
        );
        assert_eq!(parse(b"cost 2 1 65535"), Some(Command::Cost(2, 1, 65535)));
        assert_eq!(parse(b"down 10 0"), Some(Command::Down(10, 0)));
        assert_eq!(parse(b"deliver 0 1"), Some(Command::Deliver(0, 1)));
        assert_eq!(parse(b"show"), Some(Command::Show));
        assert_eq!(parse(b"enter 700 0 2"), Some(Command::Enter(700, 0, 2)));
        assert_eq!(parse(b"move 63 15"), Some(Command::Move(63, 15)));
        assert_eq!(parse(b"drop 0"), Some(Command::Drop(0)));
        assert_eq!(parse(b"page"), Some(Command::Page));
    }

    #[test]
    fn other_lines_do_not() {
        let bad: [&[u8]; 36] = [
            b"",
            b" ",
            b" show",
            b"show ",
            b"show 1",
            b"Show",
            b"SHOW",
            b"shows",
            b"show\r",
            b"show\0",
            b"units",
            b"units ",
            b"units  2",
            b"units 2 ",
            b"units 02",
            b"units 00",
            b"units 2 2",
            b"units 1234567890",
            b"units +2",
            b"units -2",
            b"units 2\r",
            b"units\t2",
            b"units \xff",
            b"up 0 1 5",
            b"up 0 1 5 7 9",
            b"deliver 0",
            b"enter 1 2",
            b"enter 1 2 3 4",
            b"enter 01 2 3",
            b"move 1",
            b"move 1  2",
            b"drop",
            b"drop 1 2",
            b"drop 1234567890",
            b"page 1",
            b"pages",
        ];
        for line in bad {
            assert_eq!(parse(line), None, "{line:?}");
        }
    }

    #[test]
    fn a_last_line_needs_a_byte_but_no_newline() {
        assert_eq!(answers(b"", 16), "");
        assert_eq!(answers(b"units 2", 16), "ok\n");
        assert_eq!(answers(b"units 2\n", 16), "ok\n");
        assert_eq!(answers(b"units 2\n\n", 16), "ok\nbad line\n");
        assert_eq!(answers(b"\n", 16), "bad line\n");
        assert_eq!(answers(b"\0", 16), "bad line\n");
    }

    #[test]
    fn lines_of_any_length_over_buffers_of_any_size() {
        let mut script = b"units 2\n".to_vec();
        script.extend([b'7'; 100_000]);
        script.extend(b"\nunits 3");
        script.extend([b' '; 300]);
        script.extend(b"\nup 0 1 5 7\nshow");
        let expected = "ok\nbad line\nbad line\nok\nunit 0 active\n0 1 5 5 1\n\
                        unit 1 active\n1 0 7 7 0\n";
        for buffer in [1, 2, 7, 64, 65, 8192] {
            assert_eq!(answers(&script, buffer), expected, "buffer of {buffer}");
        }
    }

    #[test]
    fn before_units_and_after_a_refused_one() {
        let before = b"show\nup 0 0 0 0\nup 0\nunits 1\ndeliver 0 1\ncost 0 1 1\ndown 0 1\n";
        assert_eq!(
            answers(before, 16),
            "refused 2\nrefused 2\nbad line\nrefused 1\nrefused 2\nrefused 2\nrefused 2\n"
        );
        let after = b"units 2\nup 0 1 5 7\nunits 1\ndeliver 0 1\nunits 2\ndeliver 0 1\n";
        assert_eq!(answers(after, 16), "ok\nok\nrefused 1\nok\nok\nrefused 6\n");
    }

    /// Where several refusals apply, the lowest is given.
    #[test]
    fn the_lowest_refusal_is_given() {
        let script = b"units 3\nup 0 1 5 7\nup 0 0 0 0\nup 0 3 0 1\nup 0 1 0 1\nup 0 1 1 65536\n\
                       up 1 0 1 1\ncost 0 0 0\ncost 0 2 0\ncost 0 2 1\ncost 3 0 1\ndown 1 1\n\
                       down 1 2\ndown 1 3\ndeliver 2 2\ndeliver 0 3\ndeliver 0 2\n\
                       deliver 0 1\ndeliver 0 1\n";
        assert_eq!(
            answers(script, 16),
            "ok\nok\nrefused 3\nrefused 3\nrefused 4\nrefused 4\n\
             refused 5\nrefused 3\nrefused 4\nrefused 6\nrefused 3\nrefused 3\n\
             refused 6\nrefused 3\nrefused 3\nrefused 3\nrefused 6\n\
             ok\nrefused 8\n"
        );
    }
    fn answers_with_meter(script: &[u8]) -> String {
        let mut output = Vec::new();
        Runner::with_meter()
            .run(&mut &*script, &mut output)
            .unwrap();
        String::from_utf8(output).unwrap()
    }

    /// A frame to its destination, one on its way, one dropped; then the page.
    #[test]
    fn frames_with_a_meter() {
        let script = b"units 3\nup 0 1 1 1\nenter 700 0 1\nenter 65535 1 1\nenter 1 2 0\n\
                       enter 9 0 1\nmove 0 1\ndrop 1\nenter 8 1 2\npage\nshow 1\npage";
        let page = "entered 66253\ndelivered 66235\ndropped 1\nheld 17\nframes 2\n\
                    frame 0 size 8 at 1 to 2 hops 0\nframe 2 size 9 at 0 to 1 hops 0\n";
        let before = "ok\nok\nheld 0\ndelivered\nheld 1\nheld 2\ndelivered\ndropped\nheld 0\n";
        assert_eq!(
            answers_with_meter(script),
            format!("{before}{page}bad line\n{page}")
        );
    }

    /// The meter's own refusals, the lowest where several apply: 3 before 14
    /// before 16.
    #[test]
    fn refusals_with_a_meter() {
        let mut script = b"units 2\nenter 0 2 0\nenter 0 0 2\nenter 65536 0 1\nenter 0 0 0\n\
                           move 0 2\nmove 0 1\ndrop 0\ndrop 64\ndrop 256\n"
            .to_vec();
        let mut expected = "ok\nrefused 3\nrefused 3\nrefused 16\nrefused 16\n\
                            refused 3\nrefused 16\nrefused 16\nrefused 16\nrefused 16\n"
            .to_string();
        for place in 0..FRAMES {
            script.extend(b"enter 1 0 1\n");
            expected.push_str(&format!("held {place}\n"));
        }
        script.extend(b"enter 0 2 0\nenter 0 0 0\nmove 63 1\ndrop 63\nenter 0 0 0\n");
        expected.push_str("refused 3\nrefused 14\nrefused 16\ndropped\nrefused 16\n");
        assert_eq!(answers_with_meter(&script), expected);
    }

    /// Before a good `units` each of its commands is refused with 2; each good
    /// `units` makes the meter fresh, and a refused one doesn't.
    #[test]
    fn a_meter_begins_with_units() {
        let before = b"enter 1 0 0\nmove 0 0\ndrop 0\npage\nenter 1 0\nunits 1\npage\n";
        assert_eq!(
            answers_with_meter(before),
            "refused 2\nrefused 2\nrefused 2\nrefused 2\nbad line\nrefused 1\nrefused 2\n"
        );
        let after = b"units 2\nenter 5 0 1\nunits 17\ndrop 0\nunits 2\npage\n";
        assert_eq!(
            answers_with_meter(after),
            "ok\nheld 0\nrefused 1\ndropped\nok\n\
             entered 0\ndelivered 0\ndropped 0\nheld 0\nframes 0\n"
        );
    }

    /// Without a meter its commands are lines like any other, before `units` too.
    #[test]
    fn without_a_meter_its_commands_are_bad_lines() {
        let script = b"page\nunits 2\nenter 5 0 1\nmove 0 1\ndrop 0\npage\n";
        assert_eq!(
            answers(script, 16),
            "bad line\nok\nbad line\nbad line\nbad line\nbad line\n"
        );
    }
}
