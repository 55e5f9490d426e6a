//! A day played by a group of processes, one for each server: `group DAY PROGRAM..`. The servers are
//! started from the programs in turn, by rising identity; examples/c/server.c says what such a
//! program reads and answers. Before frame 0 the group hands the number of each server's rules to
//! all others, and plays nothing where one of them ends at it. Then it keeps the clock and the
//! links, passes heartbeats on, and prints the whole sheet of the day.

mod day;
mod member;
#[allow(dead_code)]
#[path = "../../rust/src/playout.rs"]
mod playout;

use day::{Day, Entry, What};
use member::Member;
use std::io::{self, BufWriter, Write};
use std::process::ExitCode;

struct Group<W: Write> {
    frame: u32,
    /// In rising identity; links go by these places.
    members: Vec<Member>,
    /// `cut[a][b]` is the link from a to b.
    cut: Vec<Vec<bool>>,
    out: W,
}

impl<W: Write> Group<W> {
    fn start(day: &Day, programs: &[String], out: W) -> Result<Group<W>, String> {
        let mut members = Vec::new();
        for (&(identity, priority), program) in day.servers.iter().zip(programs.iter().cycle()) {
            members.push(Member::start(program, identity, priority, day.period)?);
        }
        compare(&mut members)?;
        let count = members.len();
        Ok(Group { frame: 0, members, cut: vec![vec![false; count]; count], out })
    }

    fn print(&mut self, lines: &[u8]) -> Result<(), String> {
        self.out.write_all(lines).map_err(|error| format!("the sheet cannot be written: {error}"))
    }

    /// A line of the group's own, with the present time.
    fn note(&mut self, identity: u16, word: &str) -> Result<(), String> {
        let mut label = [0; playout::LINE_BYTES];
        let written = playout::timecode_write(self.frame, &mut label);
        if written.number != playout::ACCEPTED {
            return Err(format!("frame {} has no timecode", self.frame));
        }
        self.print(&label[..written.written])?;
        self.print(format!("\t{identity}\t{word}\n").as_bytes())
    }

    fn place(&self, identity: u16) -> Result<usize, String> {
        let place = self.members.iter().position(|member| member.identity == identity);
        place.ok_or_else(|| format!("there is no server {identity}"))
    }

    /// What a server hears in the coming frame, from all others whose link to it is whole now. The
    /// senders take turns, one heartbeat each, and another one begins in every frame: an order
    /// that is not theirs by rank, and in which each one's heartbeats stay in the order sent.
    fn post(&self, hearer: usize) -> Vec<Vec<u8>> {
        let count = self.members.len();
        let senders: Vec<usize> = (0..count)
            .map(|turn| (self.frame as usize + turn) % count)
            .filter(|&sender| sender != hearer && !self.cut[sender][hearer])
            .collect();
        let most = senders.iter().map(|&sender| self.members[sender].sent.len()).max().unwrap_or(0);
        let mut heartbeats = Vec::new();
        for turn in 0..most {
            for &sender in &senders {
                heartbeats.extend(self.members[sender].sent.get(turn).cloned());
            }
        }
        heartbeats
    }

    /// The next frame. All are asked before the first answer is read; the answers come in rising
    /// identity.
    fn advance(&mut self) -> Result<(), String> {
        let posts: Vec<_> = (0..self.members.len()).map(|hearer| self.post(hearer)).collect();
        self.frame += 1;
        for (member, post) in self.members.iter_mut().zip(posts) {
            member.sent.clear();
            for heartbeat in post {
                member.tell(&heartbeat)?;
            }
            member.ask(b"tick\n")?;
        }
        for place in 0..self.members.len() {
            let lines = self.members[place].answer()?;
            self.print(&lines)?;
        }
        Ok(())
    }

    /// A line of the day. One that goes back is refused with 11 and changes nothing.
    fn take(&mut self, entry: &Entry) -> Result<(), String> {
        let first = match entry.what {
            What::Verb { first, .. } => first,
            What::End => 0,
        };
        if entry.time < self.frame {
            return self.note(first, "refused-11");
        }
        while self.frame < entry.time {
            self.advance()?;
        }
        match entry.what {
            What::End => Ok(()),
            What::Verb { word: "cut", first, second: Some(second) } => {
                self.set_link(first, second, true, "cut")
            }
            What::Verb { word: "mend", first, second: Some(second) } => {
                self.set_link(first, second, false, "mended")
            }
            What::Verb { word, first, second } => self.act(word, first, second),
        }
    }

    /// The links are the group's: 15 where the link is so already.
    fn set_link(&mut self, from: u16, to: u16, cut: bool, word: &str) -> Result<(), String> {
        let (a, b) = (self.place(from)?, self.place(to)?);
        if self.cut[a][b] == cut {
            return self.note(from, "refused-15");
        }
        self.cut[a][b] = cut;
        self.note(from, word)
    }

    /// All other verbs are the server's own, and so are 12, 13 and 14.
    fn act(&mut self, word: &str, first: u16, second: Option<u16>) -> Result<(), String> {
        let place = self.place(first)?;
        let line = match second {
            Some(second) => format!("{word}\t{second}\n"),
            None => format!("{word}\n"),
        };
        self.members[place].ask(line.as_bytes())?;
        let lines = self.members[place].answer()?;
        self.print(&lines)
    }

    fn run(&mut self, day: &Day) -> Result<(), String> {
        self.print(b"time\tserver\twhat\n")?;
        day.entries.iter().try_for_each(|entry| self.take(entry))?;
        self.out.flush().map_err(|error| format!("the sheet cannot be written: {error}"))
    }
}

/// Each server's rules, told to all others: an error where one of them does not play by them.
fn compare(members: &mut [Member]) -> Result<(), String> {
    let rules: Vec<Vec<u8>> = members.iter_mut().map(Member::rules).collect::<Result<_, _>>()?;
    let names: Vec<String> = members.iter().map(Member::name).collect();
    for (place, member) in members.iter_mut().enumerate() {
        for other in (0..rules.len()).filter(|&other| other != place) {
            if !member.plays_by(&rules[other]) {
                return Err(format!("{} does not play with {}", names[place], names[other]));
            }
        }
    }
    Ok(())
}

fn play(path: &str, programs: &[String]) -> Result<(), String> {
    let bytes = std::fs::read(path).map_err(|error| format!("{path} cannot be read: {error}"))?;
    let day = day::read(&bytes).map_err(|(line, number)| {
        format!("{path} is not played: line {line} would end its sheet with refused-{number}")
    })?;
    let mut group = Group::start(&day, programs, BufWriter::new(io::stdout().lock()))
        .map_err(|what| format!("{path} is not played: {what}"))?;
    group.run(&day)?;
    group.members.into_iter().try_for_each(Member::end)
}

fn main() -> ExitCode {
    let words: Vec<String> = std::env::args().skip(1).collect();
    let [path, programs @ ..] = words.as_slice() else {
        eprintln!("usage: group DAY PROGRAM..");
        return ExitCode::from(2);
    };
    if programs.is_empty() {
        eprintln!("usage: group DAY PROGRAM..");
        return ExitCode::from(2);
    }
    match play(path, programs) {
        Ok(()) => ExitCode::SUCCESS,
        Err(what) => {
            eprintln!("group: {what}");
            ExitCode::FAILURE
        }
    }
}
