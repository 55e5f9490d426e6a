//! One playout server of a channel, as a loop over the library: `server IDENTITY PRIORITY PERIOD`.
//!
//! At its start it prints the number of the rules that it plays by, `rules` and a number, and an
//! empty line. Then it reads lines from standard input:
//!
//! - `rules` and a number, that of another server. If it is this server's, the answer is an empty
//!   line. If it is another, or no number, the two cannot play together, and the program ends with
//!   status 1. A server that plays already, from its first tick or entry on, tells it on standard
//!   error, answers with an empty line and goes on: the one that joins must stay out;
//! - a heartbeat, to be heard in the coming frame. Senders may come in any order; those of one
//!   sender come in the order sent;
//! - `tick`, the next frame: it begins, what came is heard, the timers run;
//! - `start`, `ready`, `unready`, `crash`, `restart`, or `pass` and an identity: an entry of the
//!   present frame for this server.
//!
//! To `tick` and to each entry it answers with what happens, in its order: the lines of the sheet
//! about this server (three fields) and the heartbeats that it sends (four fields). Then comes an
//! empty line. An entry that no day may have (a pass to identity 0, or to itself) is told on
//! standard error, and its answer is the empty line alone. Any other line is told there too,
//! changes nothing and has no answer. So are heartbeats of this server itself, and those for a
//! frame beyond `HEARD`: told there, and left out.

#[allow(dead_code)]
mod playout;

use playout::{Front, Heartbeat, Written, ACCEPTED, HEARD, LINE_BYTES, TIME_PAST};
use std::io::{self, BufRead, BufWriter, Read, Write};
use std::process::ExitCode;

/// All that is kept between frames, and where answers go.
struct Server<W: Write> {
    front: Front,
    /// What is to be heard in the coming frame, from the highest sender to the lowest.
    inbox: Vec<Heartbeat>,
    /// Whether the first tick or entry has come.
    plays: bool,
    out: W,
}

/// What a line asks for.
enum Asked {
    /// The number of another server, as it was told.
    Rules(String),
    Tick,
    Verb(u32, u16),
    Heartbeat(Heartbeat),
}

impl<W: Write> Server<W> {
    // What it says

    /// The bytes that a call of the library wrote.
    fn print(&mut self, line: &[u8; LINE_BYTES], answer: Written) -> io::Result<()> {
        if answer.number != ACCEPTED {
            return Err(refused(answer.number));
        }
        self.out.write_all(&line[..answer.written])
    }

    /// An event: its lines of the sheet, and the heartbeat that it sends, if it sends one.
    fn tell(&mut self, event: u32, to: u16) -> io::Result<()> {
        let mut line = [0; LINE_BYTES];
        let lines = self.front.lines(event, &mut line);
        self.print(&line, lines)?;
        let sending = self.front.sends(event, to);
        if sending.number != ACCEPTED {
            return Err(refused(sending.number));
        }
        if sending.count == 1 {
            let sent = sending.heartbeat.write(&mut line);
            self.print(&line, sent)?;
        }
        Ok(())
    }

    /// The sheet's line of a refusal.
    fn tell_refusal(&mut self, number: u32) -> io::Result<()> {
        let mut line = [0; LINE_BYTES];
        let lines = self.front.refused(number, &mut line);
        self.print(&line, lines)
    }

    // What it does

    /// Puts a heartbeat behind all that are not lower: so one sender's stay in the order sent.
    fn keep(&mut self, heartbeat: Heartbeat) {
        let at = self.inbox.iter().position(|&kept| heartbeat.higher(kept));
        self.inbox.insert(at.unwrap_or(self.inbox.len()), heartbeat);
    }

    /// The next frame: it begins, all is heard, then the timers.
    fn tick(&mut self) -> io::Result<()> {
        let inbox = std::mem::take(&mut self.inbox);
        let number = self.front.begin();
        if number != ACCEPTED {
            // 16, the day is over: no frame comes in which anything could be heard
            return self.tell_refusal(number);
        }
        for heartbeat in inbox {
            let heard = self.front.hear(heartbeat);
            if heard.number != ACCEPTED {
                return Err(refused(heard.number));
            }
            self.tell(heard.event, 0)?;
        }
        let timed = self.front.tick();
        if timed.number != ACCEPTED {
            return Err(refused(timed.number));
        }
        self.tell(timed.silent, 0)?;
        self.tell(timed.beating, 0)?;
        self.tell(timed.rising, 0)
    }

    /// An entry of the present frame; `to` is who is passed to.
    fn act(&mut self, verb: u32, to: u16) -> io::Result<()> {
        let acted = self.front.act(verb, to);
        match acted.number {
            ACCEPTED => self.tell(acted.event, to),
            TIME_PAST.. => self.tell_refusal(acted.number),
            // no line of the sheet is about a server then
            number => {
                eprintln!("server: the entry is refused with {number}, which ends a day");
                Ok(())
            }
        }
    }

    /// Two servers whose rules differ must not play together: this one ends, unless it plays
    /// already.
    fn compare(&self, theirs: &str) -> io::Result<()> {
        let own = playout::rules().to_string();
        if theirs == own {
            return Ok(());
        }
        let differ = format!(
            "another server plays by rules {theirs}, this one by rules {own}: \
             build both with libraries of one number"
        );
        if !self.plays {
            return Err(io::Error::other(differ));
        }
        eprintln!("server: {differ}");
        Ok(())
    }

    // What it reads

    fn take(&mut self, asked: Asked) -> io::Result<()> {
        match asked {
            Asked::Heartbeat(heartbeat) => {
                self.keep(heartbeat);
                return Ok(());
            }
            Asked::Rules(theirs) => self.compare(&theirs)?,
            Asked::Tick => {
                self.plays = true;
                self.tick()?;
            }
            Asked::Verb(verb, to) => {
                self.plays = true;
                self.act(verb, to)?;
            }
        }
        self.out.write_all(b"\n")?;
        self.out.flush()
    }

    /// A line, with its line feed; or why it is left out.
    fn read(&self, line: &[u8]) -> Result<Asked, String> {
        match line {
            b"tick\n" => return Ok(Asked::Tick),
            b"start\n" => return Ok(Asked::Verb(playout::VERB_START, 0)),
            b"ready\n" => return Ok(Asked::Verb(playout::VERB_READY, 0)),
            b"unready\n" => return Ok(Asked::Verb(playout::VERB_UNREADY, 0)),
            b"crash\n" => return Ok(Asked::Verb(playout::VERB_CRASH, 0)),
            b"restart\n" => return Ok(Asked::Verb(playout::VERB_RESTART, 0)),
            _ => {}
        }
        if let Some(theirs) =
            line.strip_prefix(b"rules\t").and_then(|rest| rest.strip_suffix(b"\n"))
        {
            return Ok(Asked::Rules(String::from_utf8_lossy(theirs).into_owned()));
        }
        if let Some(to) = passed_to(line) {
            return Ok(Asked::Verb(playout::VERB_PASS, to));
        }
        let read = Heartbeat::read(line);
        if read.number != ACCEPTED {
            return Err(format!("no heartbeat, tick or verb: refused-{}", read.number));
        }
        // as it does where all listen to one address
        if read.heartbeat.tiebreaker == self.front.server.identity {
            return Err("a heartbeat of this server itself".to_string());
        }
        if self.inbox.len() == HEARD {
            return Err("one heartbeat too many for a frame".to_string());
        }
        Ok(Asked::Heartbeat(read.heartbeat))
    }
}

/// The library refused what this program never gets wrong.
fn refused(number: u32) -> io::Error {
    io::Error::other(format!("a call was refused with {number}"))
}

/// The identity in the line of a pass.
fn passed_to(line: &[u8]) -> Option<u16> {
    let digits = line.strip_prefix(b"pass\t")?.strip_suffix(b"\n")?;
    number(std::str::from_utf8(digits).ok()?)
}

/// A number with no sign and no leading zero.
fn number<T: std::str::FromStr>(digits: &str) -> Option<T> {
    let plain = digits.bytes().all(|byte| byte.is_ascii_digit());
    if !plain || (digits.len() > 1 && digits.starts_with('0')) {
        return None;
    }
    digits.parse().ok()
}

/// The next line, with its line feed; of one that is too long, the first bytes. Empty at the end.
fn read_line(input: &mut impl BufRead, line: &mut Vec<u8>) -> io::Result<()> {
    line.clear();
    input.by_ref().take(LINE_BYTES as u64 + 2).read_until(b'\n', line)?;
    let mut rest = line.clone();
    while !rest.is_empty() && !rest.ends_with(b"\n") {
        rest.clear();
        input.by_ref().take(4096).read_until(b'\n', &mut rest)?;
    }
    Ok(())
}

fn run(front: Front) -> io::Result<()> {
    let mut input = io::stdin().lock();
    let out = BufWriter::new(io::stdout().lock());
    let mut server = Server { front, inbox: Vec::new(), plays: false, out };
    let mut line = Vec::new();
    write!(server.out, "rules\t{}\n\n", playout::rules())?;
    server.out.flush()?;
    for at in 1_u64.. {
        read_line(&mut input, &mut line)?;
        if line.is_empty() {
            break;
        }
        match server.read(&line) {
            Ok(asked) => server.take(asked)?,
            Err(why) => eprintln!("server: line {at} is {why}"),
        }
    }
    Ok(())
}

fn main() -> ExitCode {
    let words: Vec<String> = std::env::args().skip(1).collect();
    let numbers = match words.as_slice() {
        [identity, priority, period] => number(identity)
            .zip(number(priority))
            .zip(number(period))
            .map(|((identity, priority), period)| (identity, priority, period)),
        _ => None,
    };
    let Some((identity, priority, period)) = numbers else {
        eprintln!("usage: server IDENTITY PRIORITY PERIOD");
        return ExitCode::from(2);
    };
    if !playout::is_linked_well() {
        let (rules, version) = (playout::rules(), playout::version());
        eprintln!(
            "server: compiled for rules {}, version {}, linked with rules {rules}, version \
             {version}: compile it again",
            playout::RULES,
            playout::VERSION
        );
        return ExitCode::FAILURE;
    }
    let made = Front::make(identity, priority, period);
    if made.number != ACCEPTED {
        eprintln!("server: these numbers are refused with {}", made.number);
        return ExitCode::from(2);
    }
    match run(made.front) {
        Ok(()) => ExitCode::SUCCESS,
        Err(error) => {
            eprintln!("server: {error}");
            ExitCode::FAILURE
        }
    }
}
