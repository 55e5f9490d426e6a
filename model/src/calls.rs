//! Lists of calls as text, and their answers by the plain rules.

use crate::channel::{Channel, Role, Verb, LEAST_PERIOD, MOST_PERIOD, MOST_SERVERS};
use crate::text::{fields, number, write_timecode, Refusal, LAST_FRAME};

/// No lent slice of a list is longer.
pub const MOST_LENT: usize = 50_000_000;

/// What a line of a list asks for, by its first number.
#[derive(Clone, Copy, Debug, PartialEq, Eq)]
pub enum What {
    /// 0: a new empty table.
    Table,
    /// 1: one more server in the table.
    Server { identity: u16, priority: u8 },
    /// 2: the fresh channel of the table.
    Fresh { period: u32 },
    /// 3: a verb; those with one identity do not look at the second.
    Act { verb: Verb, first: u16, second: u16 },
    /// 4: advance by one frame.
    Frame,
    /// 5: advance to a time.
    Time { time: u32 },
    /// 6: the sheet line of a refusal.
    Refused { identity: u16, number: u8 },
}

#[derive(Clone, Copy, Debug, PartialEq, Eq)]
pub struct Call {
    pub what: What,
    /// Bytes of the lent slice.
    pub len: usize,
}

impl Call {
    fn text(&self) -> String {
        let (op, x, y, z) = match self.what {
            What::Table => (0, 0, 0, 0),
            What::Server { identity, priority } => (1, identity.into(), priority.into(), 0),
            What::Fresh { period } => (2, period, 0, 0),
            What::Act { verb, first, second } => {
                let z = Verb::ALL.iter().position(|&known| known == verb).expect("one of all");
                (3, first.into(), second.into(), z)
            }
            What::Frame => (4, 0, 0, 0),
            What::Time { time } => (5, time, 0, 0),
            What::Refused { identity, number } => (6, identity.into(), number.into(), 0),
        };
        format!("{op}\t{x}\t{y}\t{z}\t{}\n", self.len)
    }

    fn read(line: &[u8]) -> Option<Call> {
        let fields = fields(line);
        let [op, x, y, z, len] = fields.as_slice() else {
            return None;
        };
        let up_to = |field: &[u8], most: u32| number(field, 0, most).ok();
        let what = match *op {
            b"0" => {
                up_to(x, 0)?;
                up_to(y, 0)?;
                What::Table
            }
            b"1" => {
                What::Server { identity: up_to(x, 65_535)? as u16, priority: up_to(y, 255)? as u8 }
            }
            b"2" => {
                up_to(y, 0)?;
                What::Fresh { period: up_to(x, 300)? }
            }
            b"3" => What::Act {
                verb: Verb::ALL[up_to(z, 7)? as usize],
                first: up_to(x, 65_535)? as u16,
                second: up_to(y, 65_535)? as u16,
            },
            b"4" => {
                up_to(x, 0)?;
                up_to(y, 0)?;
                What::Frame
            }
            b"5" => {
                up_to(y, 0)?;
                What::Time { time: up_to(x, u32::MAX)? }
            }
            b"6" => {
                What::Refused { identity: up_to(x, 65_535)? as u16, number: up_to(y, 99)? as u8 }
            }
            _ => return None,
        };
        if !matches!(what, What::Act { .. }) {
            up_to(z, 0)?;
        }
        let most = if what.is_call() { MOST_LENT as u32 } else { 0 };
        Some(Call { what, len: up_to(len, most)? as usize })
    }
}

impl What {
    /// A call on the channel, with a lent slice.
    pub fn is_call(self) -> bool {
        matches!(self, What::Act { .. } | What::Frame | What::Time { .. } | What::Refused { .. })
    }
}

pub fn write(calls: &[Call]) -> Vec<u8> {
    calls.iter().flat_map(|call| call.text().into_bytes()).collect()
}

/// The calls of a text, or the number of the first line that is none.
pub fn read(text: &[u8]) -> Result<Vec<Call>, usize> {
    let mut calls = Vec::new();
    let mut rest = text;
    while !rest.is_empty() {
        let bad = calls.len() + 1;
        let end = rest.iter().position(|&byte| byte == b'\n').ok_or(bad)?;
        calls.push(Call::read(&rest[..end]).ok_or(bad)?);
        rest = &rest[end + 1..];
    }
    Ok(calls)
}

/// What a call hands back and writes, if its lent slice is long enough.
pub type Outcome = Result<(Channel, Vec<u8>), Refusal>;

/// "Each call takes a channel's state and hands back the next."
pub fn outcome(channel: &Channel, what: What) -> Outcome {
    let mut next = channel.clone();
    let mut text = Vec::new();
    match what {
        What::Act { verb, first, second } => {
            let second = if verb.has_two() { Some(second) } else { None };
            // 2: "0 means nobody", so it is out of range, whatever the other identity is
            if first == 0 || second == Some(0) {
                return Err(2);
            }
            // 8: "Identity not in the table, or both identities the same."
            if second == Some(first) {
                return Err(8);
            }
            let place = channel.place(first).ok_or(8)?;
            let other = match second {
                None => place,
                Some(second) => channel.place(second).ok_or(8)?,
            };
            let mut notes = Vec::new();
            next.act(verb, place, other, &mut notes)?;
            for note in notes {
                text.extend(line(next.frame, note.identity, note.word).into_bytes());
            }
        }
        What::Frame => {
            // 16: "Advance at frame 2,159,999."
            if channel.frame >= LAST_FRAME {
                return Err(16);
            }
            one_frame(&mut next, &mut text);
        }
        What::Time { time } => {
            // 3: "outside the day"
            if time > LAST_FRAME {
                return Err(3);
            }
            // 11: "Time before the present frame."
            if time < channel.frame {
                return Err(11);
            }
            // "an accepted one over several frames is as many advances"
            while next.frame < time {
                one_frame(&mut next, &mut text);
            }
        }
        What::Refused { identity, number } => {
            text.extend(line(next.frame, identity, &format!("refused-{number}")).into_bytes());
        }
        What::Table | What::Server { .. } | What::Fresh { .. } => {
            unreachable!("these make a channel and do not act on one")
        }
    }
    Ok((next, text))
}

fn one_frame(channel: &mut Channel, text: &mut Vec<u8>) {
    let mut notes = Vec::new();
    channel.advance(&mut notes);
    for note in notes {
        text.extend(line(channel.frame, note.identity, note.word).into_bytes());
    }
}

/// "the timecode, the identity, and a word"
fn line(frame: u32, identity: u16, word: &str) -> String {
    let time = write_timecode(frame).expect("a channel does not pass its last frame");
    format!("{time}\t{identity}\t{word}\n")
}

/// What stands under one line of a list.
#[derive(Clone, Debug, PartialEq, Eq)]
pub enum Answer {
    /// To a server and to a fresh channel.
    Table { number: Refusal, servers: usize },
    /// To a call on the channel.
    Call { number: Refusal, written: Vec<u8>, kept: usize, frame: u32, roles: String },
}

impl Answer {
    #[cfg(test)]
    pub fn number(&self) -> Refusal {
        match *self {
            Answer::Table { number, .. } | Answer::Call { number, .. } => number,
        }
    }

    pub fn text(&self) -> Vec<u8> {
        match self {
            Answer::Table { number, servers } => format!("{number}\t{servers}\n").into_bytes(),
            Answer::Call { number, written, kept, frame, roles } => {
                let head = format!("{number}\t{}\t{kept}\t{frame}\t{roles}\n", written.len());
                [head.as_bytes(), written].concat()
            }
        }
    }
}

/// The table of a list, and the channel that its calls have led to.
#[derive(Default)]
pub struct Plain {
    pub table: Vec<(u16, u8)>,
    pub channel: Option<Channel>,
}

impl Plain {
    /// A new table has no answer. A call needs a channel.
    pub fn answer(&mut self, call: &Call) -> Option<Answer> {
        let number = match call.what {
            What::Table => {
                *self = Plain::default();
                return None;
            }
            What::Server { identity, priority } => self.add(identity, priority),
            What::Fresh { period } => self.fresh(period),
            what => {
                let channel = self.channel.as_ref().expect("a channel before its calls");
                let outcome = outcome(channel, what);
                return Some(self.settle(outcome, call.len));
            }
        };
        Some(Answer::Table { number, servers: self.table.len() })
    }

    /// The lowest number of those that hold, or 0.
    fn add(&mut self, identity: u16, priority: u8) -> Refusal {
        if identity == 0 {
            // 2: out of range
            2
        } else if self.table.iter().any(|server| server.0 == identity) {
            // 5: "Identity already in the table."
            5
        } else if self.table.len() == MOST_SERVERS {
            // 6: "A seventeenth server"
            6
        } else {
            self.table.push((identity, priority));
            0
        }
    }

    /// The lowest number of those that hold, or 0. A refused one leaves the channel there was.
    fn fresh(&mut self, period: u32) -> Refusal {
        if !(LEAST_PERIOD..=MOST_PERIOD).contains(&period) {
            // 2: out of range
            2
        } else if self.table.is_empty() {
            // 6: "no server when entries or `end` begin"
            6
        } else if (period as usize) < self.table.len() {
            // 7: "P below the number of servers"
            7
        } else {
            self.channel = Some(Channel::fresh(period, &self.table));
            0
        }
    }

    /// The answer to a call with this outcome and a lent slice of `len` bytes.
    pub fn settle(&mut self, outcome: Outcome, len: usize) -> Answer {
        let (number, written) = match outcome {
            Ok((next, written)) if written.len() <= len => {
                self.channel = Some(next);
                (0, written)
            }
            // 9: "shorter than what the call would otherwise write"
            Ok(_) => (9, Vec::new()),
            // "returns its number and the same channel, and writes to no lent slice"
            Err(refusal) => (refusal, Vec::new()),
        };
        let channel = self.channel.as_ref().expect("a channel before its calls");
        let kept = len - written.len();
        Answer::Call { number, written, kept, frame: channel.frame, roles: roles(channel) }
    }
}

/// One digit a server, in rising identity.
fn roles(channel: &Channel) -> String {
    channel.servers.iter().map(|server| char::from(b'0' + role_digit(server.role))).collect()
}

/// The digit of each role.
pub const DOWN: u8 = 0;
pub const IDLE: u8 = 1;
pub const SYNC: u8 = 2;
pub const BACKUP: u8 = 3;
pub const PROSPECT: u8 = 4;
pub const PRIMARY: u8 = 5;

pub fn role_digit(role: Role) -> u8 {
    match role {
        Role::Down => DOWN,
        Role::Idle => IDLE,
        Role::Sync => SYNC,
        Role::Backup { .. } => BACKUP,
        Role::Prospect { .. } => PROSPECT,
        Role::Primary { .. } => PRIMARY,
    }
}

/// The answers to a list, one after another. An error is the number of a line that calls without a
/// channel.
pub fn answers(calls: &[Call]) -> Result<Vec<u8>, usize> {
    let mut plain = Plain::default();
    let mut text = Vec::new();
    for (at, call) in calls.iter().enumerate() {
        if call.what.is_call() && plain.channel.is_none() {
            return Err(at + 1);
        }
        if let Some(answer) = plain.answer(call) {
            text.extend(answer.text());
        }
    }
    Ok(text)
}
