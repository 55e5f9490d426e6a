//! A day, read whole before it is played. One that would end its sheet with an input refusal is not
//! played; whether it would can be told from its lines alone.

use crate::playout::{timecode_read, ACCEPTED};

pub const VERBS: [&str; 8] =
    ["start", "ready", "unready", "pass", "crash", "restart", "cut", "mend"];

/// The number of a refusal.
pub type Number = u32;

const MOST_LINES: usize = 65_535;
const MOST_SERVERS: usize = 16;
const LINE_BYTES: usize = 64;

pub struct Day {
    pub period: u32,
    /// Identity and priority, in rising identity.
    pub servers: Vec<(u16, u8)>,
    /// In the order of their lines; an `end` that is not the last is refused.
    pub entries: Vec<Entry>,
}

pub struct Entry {
    pub time: u32,
    pub what: What,
}

pub enum What {
    Verb { word: &'static str, first: u16, second: Option<u16> },
    End,
}

enum Line {
    Period(u32),
    Server(u16, u8),
    Entry(Entry),
}

/// The day of the bytes; or the line that is refused, and its number.
pub fn read(bytes: &[u8]) -> Result<Day, (usize, Number)> {
    let mut reader = Reader { period: None, servers: Vec::new(), entries: Vec::new(), end: None };
    let mut rest = bytes;
    let mut at = 0;
    while !rest.is_empty() {
        at += 1;
        // 1: no line feed
        let length = rest.iter().position(|&byte| byte == b'\n').ok_or((at, 1))?;
        let line = read_line(&rest[..length]).map_err(|number| (at, number))?;
        reader.take(line, at).map_err(|number| (at, number))?;
        rest = &rest[length + 1..];
    }
    // 4: no `end` that was taken
    if !reader.ended() {
        return Err((at + 1, 4));
    }
    let mut servers = reader.servers;
    servers.sort_unstable();
    Ok(Day { period: reader.period.unwrap_or(0), servers, entries: reader.entries })
}

// One line by itself: 1, then 2 and 3 from left to right

fn read_line(line: &[u8]) -> Result<Line, Number> {
    let fields: Vec<&[u8]> = line.split(|&byte| byte == b'\t').collect();
    let form = |right: bool| if right { Ok(()) } else { Err(1_u32) };
    form(line.len() <= LINE_BYTES)?;
    match fields[0] {
        b"period" => {
            form(fields.len() == 2)?;
            Ok(Line::Period(number(fields[1], 2, 250)?))
        }
        b"server" => {
            form(fields.len() == 3)?;
            Ok(Line::Server(identity(fields[1])?, number(fields[2], 0, 255)? as u8))
        }
        b"end" => {
            form(fields.len() == 2)?;
            Ok(Line::Entry(Entry { time: time(fields[1])?, what: What::End }))
        }
        _ => {
            let named = fields.get(1).copied().unwrap_or_default();
            let word = VERBS.into_iter().find(|word| word.as_bytes() == named).ok_or(1_u32)?;
            let two = matches!(word, "pass" | "cut" | "mend");
            form(fields.len() == if two { 4 } else { 3 })?;
            let time = time(fields[0])?;
            let first = identity(fields[2])?;
            let second = if two { Some(identity(fields[3])?) } else { None };
            Ok(Line::Entry(Entry { time, what: What::Verb { word, first, second } }))
        }
    }
}

fn number(digits: &[u8], least: u32, most: u32) -> Result<u32, Number> {
    let plain = digits.iter().all(u8::is_ascii_digit);
    if !plain || digits.is_empty() || (digits.len() > 1 && digits[0] == b'0') {
        return Err(2);
    }
    let text = std::str::from_utf8(digits).map_err(|_| 2_u32)?;
    text.parse().ok().filter(|number| (least..=most).contains(number)).ok_or(2)
}

fn identity(digits: &[u8]) -> Result<u16, Number> {
    number(digits, 1, 65_535).map(|number| number as u16)
}

fn time(label: &[u8]) -> Result<u32, Number> {
    let read = timecode_read(label);
    if read.number == ACCEPTED {
        Ok(read.frame)
    } else {
        Err(read.number)
    }
}

// One line after another: 4 to 8

struct Reader {
    period: Option<u32>,
    servers: Vec<(u16, u8)>,
    entries: Vec<Entry>,
    /// The time reached, and whether the day has come to its end.
    end: Option<(u32, bool)>,
}

impl Reader {
    fn ended(&self) -> bool {
        matches!(self.end, Some((_, true)))
    }

    fn take(&mut self, line: Line, at: usize) -> Result<(), Number> {
        if at > MOST_LINES || self.ended() {
            return Err(4);
        }
        match line {
            Line::Period(period) => {
                if self.period.is_some() {
                    return Err(4);
                }
                self.period = Some(period);
            }
            Line::Server(identity, priority) => {
                if self.period.is_none() || self.end.is_some() {
                    return Err(4);
                }
                if self.knows(identity) {
                    return Err(5);
                }
                if self.servers.len() == MOST_SERVERS {
                    return Err(6);
                }
                self.servers.push((identity, priority));
            }
            Line::Entry(entry) => self.take_entry(entry)?,
        }
        Ok(())
    }

    fn knows(&self, identity: u16) -> bool {
        self.servers.iter().any(|&(known, _)| known == identity)
    }

    fn take_entry(&mut self, entry: Entry) -> Result<(), Number> {
        let period = self.period.ok_or(4_u32)?;
        if self.servers.is_empty() {
            return Err(6);
        }
        if (period as usize) < self.servers.len() {
            return Err(7);
        }
        if let What::Verb { first, second, .. } = entry.what {
            let strange = second.is_some_and(|second| second == first || !self.knows(second));
            if !self.knows(first) || strange {
                return Err(8);
            }
        }
        // 11 is a matter of the state, and the day goes on
        let (now, _) = self.end.unwrap_or((0, false));
        if entry.time >= now {
            self.end = Some((entry.time, matches!(entry.what, What::End)));
        } else {
            self.end = Some((now, false));
        }
        self.entries.push(entry);
        Ok(())
    }
}
