//! A day read line by line, and its sheet.

use crate::channel::{Channel, Note, Verb, LEAST_PERIOD, MOST_PERIOD, MOST_SERVERS};
use crate::text::{
    fields, identity, number, priority, read_timecode, write_timecode, Refusal, LINE_BYTES,
};

/// "At most 65,535 lines."
pub const MOST_LINES: usize = 65_535;

/// A line with no fault of form, number or timecode.
enum Line {
    Period(u32),
    Server(u16, u8),
    Entry { time: u32, verb: Verb, first: u16, second: Option<u16> },
    End(u32),
}

/// How far the day has come.
#[derive(Clone, Copy, PartialEq)]
enum Place {
    Nothing,
    Period,
    Servers,
    Entries,
    Ended,
}

struct Day {
    place: Place,
    period: u32,
    table: Vec<(u16, u8)>,
    channel: Channel,
    sheet: String,
}

/// The sheet of a day, of any bytes.
pub fn sheet(input: &[u8]) -> Vec<u8> {
    let mut day = Day {
        place: Place::Nothing,
        period: 0,
        table: Vec::new(),
        channel: Channel::fresh(0, &[]),
        // "the header `time`, `server`, `what`"
        sheet: String::from("time\tserver\twhat\n"),
    };
    let mut rest = input;
    for line_number in 1.. {
        if rest.is_empty() {
            // 4: "input ended without `end` (line number one past the last)"
            if day.place != Place::Ended {
                day.refuse_input(line_number, 4);
            }
            break;
        }
        let answer = match rest.iter().position(|&byte| byte == b'\n') {
            // 1: "no line feed"
            None => Err(1),
            Some(end) => {
                let line = &rest[..end];
                rest = &rest[end + 1..];
                day.take_line(line_number, line)
            }
        };
        if let Err(refusal) = answer {
            // "ends the sheet"
            day.refuse_input(line_number, refusal);
            break;
        }
    }
    day.sheet.into_bytes()
}

/// 1 for the whole line; then "Fields are tested left to right for 2 and 3".
fn read_line(line: &[u8]) -> Result<Line, Refusal> {
    // 1: "too long"
    if line.len() > LINE_BYTES {
        return Err(1);
    }
    let fields = fields(line);
    let count_is = |count: usize| if fields.len() == count { Ok(()) } else { Err(1) };
    match fields[0] {
        b"period" => {
            count_is(2)?;
            Ok(Line::Period(number(fields[1], LEAST_PERIOD, MOST_PERIOD)?))
        }
        b"server" => {
            count_is(3)?;
            Ok(Line::Server(identity(fields[1])?, priority(fields[2])?))
        }
        b"end" => {
            count_is(2)?;
            Ok(Line::End(read_timecode(fields[1])?))
        }
        _ => {
            // any other line is an entry, `time verb identity [identity]`
            let word = fields.get(1).ok_or(1)?;
            let verb =
                Verb::ALL.into_iter().find(|verb| verb.word().as_bytes() == *word).ok_or(1)?;
            count_is(if verb.has_two() { 4 } else { 3 })?;
            let time = read_timecode(fields[0])?;
            let first = identity(fields[2])?;
            let second = if verb.has_two() { Some(identity(fields[3])?) } else { None };
            Ok(Line::Entry { time, verb, first, second })
        }
    }
}

impl Day {
    /// One line; an error is an input refusal.
    fn take_line(&mut self, line_number: usize, line: &[u8]) -> Result<(), Refusal> {
        let line = read_line(line)?;
        // 4: "a line beyond 65,535"; no line may follow `end`, which "is last"
        if line_number > MOST_LINES || self.place == Place::Ended {
            return Err(4);
        }
        match line {
            Line::Period(period) => self.take_period(period),
            Line::Server(identity, priority) => self.take_server(identity, priority),
            Line::Entry { time, verb, first, second } => {
                self.begin_entries()?;
                self.take_entry(time, verb, first, second)
            }
            Line::End(time) => {
                self.begin_entries()?;
                self.take_end(time);
                Ok(())
            }
        }
    }

    fn take_period(&mut self, period: u32) -> Result<(), Refusal> {
        // 4: "A line out of its place"
        if self.place != Place::Nothing {
            return Err(4);
        }
        self.period = period;
        self.place = Place::Period;
        Ok(())
    }

    fn take_server(&mut self, identity: u16, priority: u8) -> Result<(), Refusal> {
        // 4: "A line out of its place"
        if self.place != Place::Period && self.place != Place::Servers {
            return Err(4);
        }
        // 5: "Identity already in the table."
        if self.table.iter().any(|server| server.0 == identity) {
            return Err(5);
        }
        // 6: "A seventeenth server"
        if self.table.len() == MOST_SERVERS {
            return Err(6);
        }
        self.table.push((identity, priority));
        self.place = Place::Servers;
        Ok(())
    }

    /// What is tested "when entries or `end` begin".
    fn begin_entries(&mut self) -> Result<(), Refusal> {
        match self.place {
            // 4: "A line out of its place"
            Place::Nothing | Place::Ended => Err(4),
            // 6: "no server when entries or `end` begin"
            Place::Period => Err(6),
            Place::Servers => {
                // 7: "P below the number of servers"
                if (self.period as usize) < self.table.len() {
                    return Err(7);
                }
                self.channel = Channel::fresh(self.period, &self.table);
                self.place = Place::Entries;
                Ok(())
            }
            Place::Entries => Ok(()),
        }
    }

    fn take_entry(
        &mut self,
        time: u32,
        verb: Verb,
        first: u16,
        second: Option<u16>,
    ) -> Result<(), Refusal> {
        // 8: "Identity not in the table, or both identities the same."
        // "A line with an input refusal advances nothing."
        let place = self.channel.place(first).ok_or(8)?;
        let other = match second {
            None => place,
            Some(second) if second == first => return Err(8),
            Some(second) => self.channel.place(second).ok_or(8)?,
        };
        // "11 is tested before that advance"
        if time < self.channel.frame {
            self.refuse_state(first, 11);
            return Ok(());
        }
        // "Before an entry it advances to the entry's time"
        self.advance_to(time);
        // "12 to 15 after it"
        let mut notes = Vec::new();
        match self.channel.act(verb, place, other, &mut notes) {
            Ok(()) => self.print(&notes),
            // "the day goes on"
            Err(refusal) => self.refuse_state(first, refusal),
        }
        Ok(())
    }

    fn take_end(&mut self, time: u32) {
        // 11: "Time before the present frame."; such a day "still needs one"
        if time < self.channel.frame {
            // "identity 0 for `end`"
            self.refuse_state(0, 11);
            return;
        }
        // "which advances to that time and is last"
        self.advance_to(time);
        self.place = Place::Ended;
    }

    fn advance_to(&mut self, time: u32) {
        let mut notes = Vec::new();
        while self.channel.frame < time {
            notes.clear();
            self.channel.advance(&mut notes);
            self.print(&notes);
        }
    }

    fn present_time(&self) -> String {
        write_timecode(self.channel.frame).expect("a day does not pass its last frame")
    }

    /// "the timecode, the identity, and a word"
    fn print(&mut self, notes: &[Note]) {
        if notes.is_empty() {
            return;
        }
        let time = self.present_time();
        for note in notes {
            self.sheet += &format!("{time}\t{}\t{}\n", note.identity, note.word);
        }
    }

    /// "prints with the present time and the entry's first identity"
    fn refuse_state(&mut self, identity: u16, refusal: Refusal) {
        let time = self.present_time();
        self.sheet += &format!("{time}\t{identity}\trefused-{refusal}\n");
    }

    /// "prints `line`, its line number, `refused-` and the number"
    fn refuse_input(&mut self, line_number: usize, refusal: Refusal) {
        self.sheet += &format!("line\t{line_number}\trefused-{refusal}\n");
    }
}
