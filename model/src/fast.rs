//! The same sheets and lists of calls, written a second time: everything in place, and frames in
//! which nothing can happen are jumped over.
//!
//! A frame can matter only if somebody sent in the frame before it or a timer is due in it.
//! Servers stand in rising identity; senders are named by their rank, 0 for the highest, so that
//! a set of senders is a 16-bit mask whose lowest bit is heard first.

use crate::calls::{Call, What, BACKUP, DOWN, IDLE, PRIMARY, PROSPECT, SYNC};
use crate::channel::Verb;
use std::io::{self, Write};

const MOST: usize = 16;
const NEVER: u32 = u32::MAX;
const LAST: u32 = 2_159_999;

/// Words of the sheet; the first six are the roles, by their digits.
#[rustfmt::skip]
const WORDS: [&[u8]; 12] = [
    b"down", b"idle", b"sync", b"backup", b"prospect", b"primary", b"beat", b"reveal", b"pass",
    b"lower", b"cut", b"mended",
];
const BEAT: u8 = 6;
const REVEAL: u8 = 7;
const PASS: u8 = 8;
const LOWER: u8 = 9;
const CUT: u8 = 10;
const MENDED: u8 = 11;

/// A heartbeat in one byte: the place of the server in BS, or one of these.
const PLAIN: u8 = 16;
const REVEALING: u8 = 17;

/// One server sends at most this many in a frame: one for each pass to it that it hears, one
/// reveal for a lower sender, one by a timer, and its own pass. With a reply they are two: nothing
/// is sent before it, and nothing but the pass after it.
const MOST_SENT: usize = MOST + 3;

/// What was sent in one frame, by rank.
#[derive(Clone, Copy)]
struct Post {
    senders: u16,
    /// Those of whose heartbeats some have BS or Reveal.
    marked: u16,
    count: [u8; MOST],
    what: [[u8; MOST_SENT]; MOST],
}

/// Takes the lines of a sheet one by one.
trait Sink {
    fn line(&mut self, frame: u32, place: usize, word: u8);
}

/// Bytes of a line after its timecode, `tab identity tab word line-feed`.
#[derive(Clone, Copy)]
struct Tail {
    bytes: [u8; MOST_TAIL],
    length: u8,
}
const CLOCK: usize = 11;
const MOST_TAIL: usize = 16;
const MOST_LINE: usize = CLOCK + MOST_TAIL;

/// What lines are put together from, with the text of the present time.
struct Pen {
    tails: [[Tail; WORDS.len()]; MOST],
    /// `HH:MM:SS`, and `:FF` with bytes after it that do not count. Whole words, since each line is
    /// copied from them right after they are set.
    seconds: u64,
    frames: u64,
    /// The present frame, and the first one of its second.
    frame: u32,
    second: u32,
}

impl Pen {
    fn new() -> Pen {
        Pen {
            tails: [[Tail { bytes: [0; MOST_TAIL], length: 0 }; WORDS.len()]; MOST],
            seconds: u64::from_le_bytes(*b"00:00:00"),
            frames: u64::from_le_bytes(*b":00     "),
            frame: 0,
            second: 0,
        }
    }

    fn set_tails(&mut self, table: &Table) {
        for (place, tails) in self.tails[..table.count].iter_mut().enumerate() {
            for (tail, word) in tails.iter_mut().zip(WORDS) {
                let mut at = 0;
                put(&mut tail.bytes, &mut at, b"\t");
                put_number(&mut tail.bytes, &mut at, u32::from(table.identity[place]));
                put(&mut tail.bytes, &mut at, b"\t");
                put(&mut tail.bytes, &mut at, word);
                put(&mut tail.bytes, &mut at, b"\n");
                tail.length = at as u8;
            }
        }
    }

    #[inline]
    fn set_clock(&mut self, frame: u32) {
        if frame == self.frame {
            return;
        }
        self.frame = frame;
        // within one second only the last two digits change
        if frame.wrapping_sub(self.second) >= 25 {
            let seconds = frame / 25;
            self.second = seconds * 25;
            let [h1, h2] = pair_of(seconds / 3600);
            let [m1, m2] = pair_of(seconds / 60 % 60);
            let [s1, s2] = pair_of(seconds % 60);
            self.seconds = u64::from_le_bytes([h1, h2, b':', m1, m2, b':', s1, s2]);
        }
        let [f1, f2] = pair_of(frame - self.second);
        self.frames = u64::from_le_bytes([b':', f1, f2, 0, 0, 0, 0, 0]);
    }

    #[inline]
    fn length(&self, place: usize, word: u8) -> usize {
        CLOCK + self.tails[place][word as usize].length as usize
    }

    /// Puts a line at the start of `to` and touches no byte after it. Gives its length.
    #[inline]
    fn line(&mut self, to: &mut [u8], frame: u32, place: usize, word: u8) -> usize {
        self.set_clock(frame);
        let tail = &self.tails[place][word as usize];
        let length = tail.length as usize;
        // pieces of 8 bytes that overlap; the shortest line has 18
        let to = &mut to[..CLOCK + length];
        to[..8].copy_from_slice(&self.seconds.to_le_bytes());
        to[8..16].copy_from_slice(&self.frames.to_le_bytes());
        if length < 8 {
            // `cut` with an identity of one digit
            to[CLOCK..].copy_from_slice(&tail.bytes[..length]);
        } else {
            to[CLOCK..CLOCK + 8].copy_from_slice(&tail.bytes[..8]);
            to[CLOCK + length - 8..].copy_from_slice(&tail.bytes[length - 8..length]);
        }
        to.len()
    }

    /// The line of a refusal, and its length.
    fn refusal(&mut self, frame: u32, identity: u16, refusal: u8) -> ([u8; ROOM], usize) {
        self.set_clock(frame);
        let mut line = [0; ROOM];
        let mut at = 0;
        put(&mut line, &mut at, &self.seconds.to_le_bytes());
        put(&mut line, &mut at, &self.frames.to_le_bytes()[..CLOCK - 8]);
        put(&mut line, &mut at, b"\t");
        put_number(&mut line, &mut at, u32::from(identity));
        put_refusal(&mut line, &mut at, refusal);
        (line, at)
    }
}

/// Buffered output to any writer.
struct Out<W: Write> {
    to: W,
    buffer: Vec<u8>,
    used: usize,
    failed: Option<io::Error>,
    pen: Pen,
}

const BUFFER: usize = 1 << 16;
const ROOM: usize = 64;

impl<W: Write> Sink for Out<W> {
    #[inline]
    fn line(&mut self, frame: u32, place: usize, word: u8) {
        self.used += self.pen.line(&mut self.buffer[self.used..], frame, place, word);
        if self.used >= BUFFER {
            self.flush();
        }
    }
}

impl<W: Write> Out<W> {
    fn new(to: W) -> Out<W> {
        Out { to, buffer: vec![0; BUFFER + ROOM], used: 0, failed: None, pen: Pen::new() }
    }

    fn bytes(&mut self, bytes: &[u8]) {
        // never more than one short line at a time
        put(&mut self.buffer, &mut self.used, bytes);
        if self.used >= BUFFER {
            self.flush();
        }
    }

    fn refuse_state(&mut self, frame: u32, identity: u16, refusal: u8) {
        let (line, length) = self.pen.refusal(frame, identity, refusal);
        self.bytes(&line[..length]);
    }

    fn refuse_input(&mut self, number: u32, refusal: u8) {
        let mut line = [0; ROOM];
        let mut at = 0;
        put(&mut line, &mut at, b"line\t");
        put_number(&mut line, &mut at, number);
        put_refusal(&mut line, &mut at, refusal);
        self.bytes(&line[..at]);
    }

    fn flush(&mut self) {
        if self.failed.is_none() {
            self.failed = self.to.write_all(&self.buffer[..self.used]).err();
        }
        self.used = 0;
    }

    fn finish(mut self) -> io::Result<()> {
        self.flush();
        match self.failed {
            Some(error) => Err(error),
            None => self.to.flush(),
        }
    }
}

/// A lent slice that is known to be long enough.
struct Lent<'a> {
    to: &'a mut [u8],
    used: usize,
    pen: &'a mut Pen,
}

impl Sink for Lent<'_> {
    #[inline]
    fn line(&mut self, frame: u32, place: usize, word: u8) {
        self.used += self.pen.line(&mut self.to[self.used..], frame, place, word);
    }
}

/// Counts the bytes that would be written.
struct Count<'a> {
    used: usize,
    pen: &'a Pen,
}

impl Sink for Count<'_> {
    #[inline]
    fn line(&mut self, _frame: u32, place: usize, word: u8) {
        self.used += self.pen.length(place, word);
    }
}

/// Two digits.
fn pair_of(value: u32) -> [u8; 2] {
    [b'0' + (value / 10) as u8, b'0' + (value % 10) as u8]
}

fn put(to: &mut [u8], at: &mut usize, bytes: &[u8]) {
    to[*at..*at + bytes.len()].copy_from_slice(bytes);
    *at += bytes.len();
}

fn put_number(to: &mut [u8], at: &mut usize, value: u32) {
    if value >= 10 {
        put_number(to, at, value / 10);
    }
    put(to, at, &[b'0' + (value % 10) as u8]);
}

fn put_refusal(to: &mut [u8], at: &mut usize, refusal: u8) {
    put(to, at, b"\trefused-");
    put_number(to, at, u32::from(refusal));
    put(to, at, b"\n");
}

/// The servers of a table, in rising identity.
struct Table {
    count: usize,
    identity: [u16; MOST],
    priority: [u8; MOST],
}

impl Table {
    fn new() -> Table {
        Table { count: 0, identity: [0; MOST], priority: [0; MOST] }
    }

    /// Keeps the table in rising identity.
    fn add(&mut self, identity: u16, priority: u8) -> Result<(), u8> {
        let table = &self.identity[..self.count];
        if table.contains(&identity) {
            return Err(5);
        }
        if self.count == MOST {
            return Err(6);
        }
        let mut place = self.count;
        while place > 0 && self.identity[place - 1] > identity {
            self.identity[place] = self.identity[place - 1];
            self.priority[place] = self.priority[place - 1];
            place -= 1;
        }
        self.identity[place] = identity;
        self.priority[place] = priority;
        self.count += 1;
        Ok(())
    }

    /// What a period must be for this table.
    fn fits(&self, period: u32) -> Result<(), u8> {
        if self.count == 0 {
            return Err(6);
        }
        if period < self.count as u32 {
            return Err(7);
        }
        Ok(())
    }
}

/// The channel. It does not hold its output, so a copy is enough to try an advance out.
#[derive(Clone, Copy)]
struct Group {
    period: u32,
    count: usize,
    identity: [u16; MOST],
    /// The rank of the server in a place.
    rank: [u8; MOST],
    /// Ranks heard by the server in a place: whole links, itself left out.
    hears: [u16; MOST],
    /// The same links, as the places that hear a rank.
    heard_in: [u16; MOST],
    role: [u8; MOST],
    /// Places with a backup, and those with a prospect or primary.
    backups: u16,
    busy: u16,
    /// The first frame in which some timer of the server in a place is due.
    due: [u32; MOST],
    /// Frames in which the two timers of a prospect are due; a primary keeps the first.
    beat_due: [u32; MOST],
    prospect_due: [u32; MOST],
    frame: u32,
    /// No timer is due before this frame.
    next_due: u32,
    posts: [Post; 2],
    /// Which of the posts is of this frame.
    now: usize,
}

/// The sheet of a day, to any writer.
pub fn sheet<W: Write>(input: &[u8], to: W) -> io::Result<()> {
    let table = Table::new();
    let group = Group::fresh(0, &table);
    let mut day = Day { out: Out::new(to), period: 0, table, group };
    day.out.bytes(b"time\tserver\twhat\n");
    day.read(input);
    day.out.finish()
}

/// A day under way: table, channel and output in one place.
struct Day<W: Write> {
    out: Out<W>,
    period: u32,
    table: Table,
    group: Group,
}

/// How far the day has come.
#[derive(Clone, Copy, PartialEq)]
enum Stage {
    Start,
    Period,
    Servers,
    Entries,
    Over,
}

impl<W: Write> Day<W> {
    fn read(&mut self, input: &[u8]) {
        let mut stage = Stage::Start;
        let mut at = 0;
        let mut number = 0;
        while at < input.len() {
            number += 1;
            // a line feed further on than byte 65 makes no difference: 1 in either case
            let window = &input[at..input.len().min(at + 65)];
            let answer = match window.iter().position(|&byte| byte == b'\n') {
                None => Err(1),
                Some(length) => {
                    let line = &window[..length];
                    at += length + 1;
                    self.line(line, number > 65_535, &mut stage)
                }
            };
            if let Err(refusal) = answer {
                self.out.refuse_input(number, refusal);
                return;
            }
            if self.out.failed.is_some() {
                return;
            }
        }
        if stage != Stage::Over {
            self.out.refuse_input(number + 1, 4);
        }
    }

    fn line(&mut self, line: &[u8], beyond: bool, stage: &mut Stage) -> Result<(), u8> {
        let mut field: [&[u8]; 4] = [&[]; 4];
        let mut fields = 0;
        for part in line.split(|&byte| byte == b'\t') {
            // five fields are too many for every line
            *field.get_mut(fields).ok_or(1)? = part;
            fields += 1;
        }
        match field[0] {
            b"period" => {
                if fields != 2 {
                    return Err(1);
                }
                let period = decimal(field[1], 2, 250)?;
                if beyond || *stage != Stage::Start {
                    return Err(4);
                }
                self.period = period;
                *stage = Stage::Period;
            }
            b"server" => {
                if fields != 3 {
                    return Err(1);
                }
                let identity = decimal(field[1], 1, 65_535)? as u16;
                let priority = decimal(field[2], 0, 255)? as u8;
                if beyond || (*stage != Stage::Period && *stage != Stage::Servers) {
                    return Err(4);
                }
                self.table.add(identity, priority)?;
                *stage = Stage::Servers;
            }
            b"end" => {
                if fields != 2 {
                    return Err(1);
                }
                let time = timecode(field[1])?;
                self.begin(beyond, stage)?;
                if time < self.group.frame {
                    self.out.refuse_state(self.group.frame, 0, 11);
                } else {
                    self.group.advance_to(time, &mut self.out);
                    *stage = Stage::Over;
                }
            }
            _ => {
                if fields < 2 {
                    return Err(1);
                }
                let (verb, wanted) = match field[1] {
                    b"start" => (Verb::Start, 3),
                    b"ready" => (Verb::Ready, 3),
                    b"unready" => (Verb::Unready, 3),
                    b"pass" => (Verb::Pass, 4),
                    b"crash" => (Verb::Crash, 3),
                    b"restart" => (Verb::Restart, 3),
                    b"cut" => (Verb::Cut, 4),
                    b"mend" => (Verb::Mend, 4),
                    _ => return Err(1),
                };
                if fields != wanted {
                    return Err(1);
                }
                let time = timecode(field[0])?;
                let first = decimal(field[2], 1, 65_535)? as u16;
                let second = if wanted == 4 { decimal(field[3], 1, 65_535)? as u16 } else { 0 };
                self.begin(beyond, stage)?;
                let a = self.group.find(first)?;
                let b = if wanted == 4 { self.group.find(second)? } else { MOST };
                if a == b {
                    return Err(8);
                }
                if time < self.group.frame {
                    self.out.refuse_state(self.group.frame, first, 11);
                } else {
                    self.group.advance_to(time, &mut self.out);
                    match self.group.refusal(verb, a, b) {
                        0 => self.group.act(verb, a, b, &mut self.out),
                        refusal => self.out.refuse_state(self.group.frame, first, refusal),
                    }
                }
            }
        }
        Ok(())
    }

    fn begin(&mut self, beyond: bool, stage: &mut Stage) -> Result<(), u8> {
        if beyond || *stage == Stage::Start || *stage == Stage::Over {
            return Err(4);
        }
        if *stage == Stage::Entries {
            return Ok(());
        }
        self.table.fits(self.period)?;
        self.group = Group::fresh(self.period, &self.table);
        self.out.pen.set_tails(&self.table);
        *stage = Stage::Entries;
        Ok(())
    }
}

impl Group {
    /// Also for an empty table, as long as there is no channel.
    fn fresh(period: u32, table: &Table) -> Group {
        let empty = Post { senders: 0, marked: 0, count: [0; MOST], what: [[0; MOST_SENT]; MOST] };
        let mut group = Group {
            period,
            count: table.count,
            identity: table.identity,
            rank: [0; MOST],
            hears: [0; MOST],
            heard_in: [0; MOST],
            role: [IDLE; MOST],
            backups: 0,
            busy: 0,
            due: [NEVER; MOST],
            beat_due: [NEVER; MOST],
            prospect_due: [NEVER; MOST],
            frame: 0,
            next_due: NEVER,
            posts: [empty; 2],
            now: 0,
        };
        let everyone = ((1u32 << table.count) - 1) as u16;
        for place in 0..table.count {
            let own = (table.priority[place], table.identity[place]);
            let higher = (0..table.count)
                .filter(|&other| (table.priority[other], table.identity[other]) > own)
                .count();
            group.rank[place] = higher as u8;
            group.hears[place] = everyone & !(1 << higher);
            group.heard_in[higher] = everyone & !(1 << place);
        }
        group
    }

    fn find(&self, identity: u16) -> Result<usize, u8> {
        self.identity[..self.count].iter().position(|&known| known == identity).ok_or(8)
    }

    /// 0 if the state allows the verb, or the number of the refusal.
    fn refusal(&self, verb: Verb, a: usize, b: usize) -> u8 {
        let role = self.role[a];
        match verb {
            Verb::Cut | Verb::Mend => {
                let is_cut = self.hears[b] & (1 << self.rank[a]) == 0;
                if is_cut == (verb == Verb::Cut) {
                    15
                } else {
                    0
                }
            }
            Verb::Restart => {
                if role == DOWN {
                    0
                } else {
                    13
                }
            }
            _ if role == DOWN => 12,
            Verb::Crash => 0,
            Verb::Start if role == IDLE => 0,
            Verb::Ready if role == SYNC => 0,
            Verb::Unready if role == BACKUP => 0,
            Verb::Pass if role == PRIMARY => 0,
            _ => 14,
        }
    }

    /// A verb that the state allows.
    fn act<S: Sink>(&mut self, verb: Verb, a: usize, b: usize, out: &mut S) {
        match verb {
            Verb::Cut | Verb::Mend => {
                self.hears[b] ^= 1 << self.rank[a];
                self.heard_in[self.rank[a] as usize] ^= 1 << b;
                out.line(self.frame, a, if verb == Verb::Cut { CUT } else { MENDED });
            }
            Verb::Restart => self.enter(a, IDLE, out),
            Verb::Crash => self.enter(a, DOWN, out),
            Verb::Start | Verb::Unready => self.enter(a, SYNC, out),
            Verb::Ready => self.enter(a, BACKUP, out),
            Verb::Pass => {
                self.send(a, PASS, b as u8, out);
                self.enter(a, BACKUP, out);
            }
        }
        self.next_due = self.next_due.min(self.due[a]);
    }

    /// Prints the role and sets the timers that begin with it; primary keeps its beat.
    #[inline]
    fn enter<S: Sink>(&mut self, place: usize, role: u8, out: &mut S) {
        let bit = 1u16 << place;
        self.role[place] = role;
        self.backups &= !bit;
        self.busy &= !bit;
        self.due[place] = match role {
            BACKUP => {
                self.backups |= bit;
                self.frame + 2 * self.period
            }
            PROSPECT => {
                self.busy |= bit;
                self.beat_due[place] = self.frame + self.period;
                self.prospect_due[place] = self.frame + 2 * self.period;
                self.beat_due[place]
            }
            PRIMARY => {
                self.busy |= bit;
                self.beat_due[place]
            }
            _ => NEVER,
        };
        out.line(self.frame, place, role);
    }

    #[inline]
    fn send<S: Sink>(&mut self, place: usize, word: u8, what: u8, out: &mut S) {
        out.line(self.frame, place, word);
        let rank = self.rank[place] as usize;
        let post = &mut self.posts[self.now];
        if post.senders & (1 << rank) == 0 {
            post.senders |= 1 << rank;
            post.count[rank] = 0;
        }
        if what != PLAIN {
            post.marked |= 1 << rank;
        }
        post.what[rank][post.count[rank] as usize] = what;
        post.count[rank] += 1;
    }

    /// To a time that is not before the present frame.
    fn advance_to<S: Sink>(&mut self, time: u32, out: &mut S) {
        while self.frame < time {
            let sent = self.posts[self.now].senders != 0;
            let next = if sent { self.frame + 1 } else { self.next_due.max(self.frame + 1) };
            if next > time {
                self.frame = time;
                return;
            }
            self.frame = next;
            self.step(out);
        }
    }

    /// One frame: hearing and timers, server by server. What a server does hangs on its own state
    /// and on what was sent before, so those that print nothing can go first.
    fn step<S: Sink>(&mut self, out: &mut S) {
        let before = self.now;
        self.now ^= 1;
        self.posts[self.now].senders = 0;
        self.posts[self.now].marked = 0;
        let frame = self.frame;
        let senders = self.posts[before].senders;
        let mut loud = 0;
        if senders != 0 {
            let heard = self.heard(senders);
            // plain beats only keep a backup quiet
            let quiet = heard & self.backups & !self.heard(self.posts[before].marked);
            let mut left = quiet;
            while left != 0 {
                self.due[left.trailing_zeros() as usize] = frame + 2 * self.period;
                left &= left - 1;
            }
            loud = heard & (self.backups | self.busy) & !quiet;
            // nobody hears these a second time
            self.posts[before].senders = 0;
        }
        let timers = self.next_due <= frame;
        let mut left = loud;
        if timers {
            for (place, &due) in self.due[..self.count].iter().enumerate() {
                left |= u16::from(due == frame) << place;
            }
        }
        while left != 0 {
            let place = left.trailing_zeros() as usize;
            left &= left - 1;
            if loud >> place & 1 == 1 {
                self.hear(place, before, senders & self.hears[place], out);
            }
            if self.due[place] == frame {
                self.timers(place, out);
            }
            self.next_due = self.next_due.min(self.due[place]);
        }
        // where this is left out it may be too early, since timers were put off: that wastes a frame
        if timers {
            self.next_due = self.due[..self.count].iter().fold(NEVER, |least, &due| least.min(due));
        }
    }

    /// Places that hear some of these senders.
    #[inline]
    fn heard(&self, senders: u16) -> u16 {
        let mut heard = 0;
        let mut left = senders;
        while left != 0 {
            heard |= self.heard_in[left.trailing_zeros() as usize];
            left &= left - 1;
        }
        heard
    }

    fn hear<S: Sink>(&mut self, place: usize, before: usize, audible: u16, out: &mut S) {
        let own_rank = self.rank[place] as usize;
        let mut left = audible;
        while left != 0 {
            let sender = left.trailing_zeros() as usize;
            left &= left - 1;
            let higher = sender < own_rank;
            for turn in 0..self.posts[before].count[sender] as usize {
                let what = self.posts[before].what[sender][turn];
                match self.role[place] {
                    BACKUP => {
                        self.due[place] = self.frame + 2 * self.period;
                        if what as usize == place {
                            self.enter(place, PROSPECT, out);
                            self.send(place, BEAT, PLAIN, out);
                        } else if what == REVEALING && !higher {
                            self.enter(place, PROSPECT, out);
                            self.send(place, REVEAL, REVEALING, out);
                        }
                    }
                    _ if higher => self.enter(place, BACKUP, out),
                    role => {
                        if role == PRIMARY {
                            out.line(self.frame, place, LOWER);
                        }
                        if what == REVEALING {
                            self.reply(place, out);
                        }
                    }
                }
            }
        }
    }

    /// A prospect or primary answers a reveal with a beat, if it has not sent in this frame.
    fn reply<S: Sink>(&mut self, place: usize, out: &mut S) {
        if self.posts[self.now].senders >> self.rank[place] & 1 == 1 {
            return;
        }
        let due = self.frame + self.period;
        self.beat_due[place] = due;
        // a prospect may still become primary in this frame
        let limit = if self.role[place] == PROSPECT { self.prospect_due[place] } else { NEVER };
        self.due[place] = due.min(limit);
        self.send(place, BEAT, PLAIN, out);
    }

    /// Called only in a frame in which some timer of this server is due.
    fn timers<S: Sink>(&mut self, place: usize, out: &mut S) {
        if self.role[place] == BACKUP {
            self.enter(place, PROSPECT, out);
            self.send(place, REVEAL, REVEALING, out);
            return;
        }
        if self.beat_due[place] == self.frame {
            self.beat_due[place] = self.frame + self.period;
            self.send(place, BEAT, PLAIN, out);
        }
        self.due[place] = self.beat_due[place];
        if self.role[place] == PROSPECT {
            if self.prospect_due[place] == self.frame {
                self.enter(place, PRIMARY, out);
            } else {
                self.due[place] = self.beat_due[place].min(self.prospect_due[place]);
            }
        }
    }

    /// No advance by so many frames writes more bytes.
    ///
    /// Passes are heard in the first frame alone, each heartbeat with two lines at the most. What
    /// was sent in that frame is heard in the second. From then on a server sends at most once in
    /// a frame, so it prints at most `backup`, `prospect` and `reveal`, or one `lower` for each
    /// other server and one `beat`, a reply or due, or `beat` and `primary`.
    fn most_bytes(&self, frames: u32) -> u64 {
        let count = self.count as u64;
        let first = 2 * count * (2 * count * MOST_SENT as u64 + 2);
        let later = u64::from(frames) * count * (count + 2);
        (first + later) * MOST_LINE as u64
    }
}

/// The table and the channel of a list of calls.
pub struct Calls {
    table: Table,
    group: Group,
    pen: Pen,
}

impl Calls {
    pub fn new() -> Calls {
        let table = Table::new();
        let group = Group::fresh(0, &table);
        Calls { table, group, pen: Pen::new() }
    }

    #[cfg(test)]
    pub fn most_bytes(&self, frames: u32) -> u64 {
        self.group.most_bytes(frames)
    }

    pub fn servers(&self) -> usize {
        self.table.count
    }

    pub fn frame(&self) -> u32 {
        self.group.frame
    }

    /// One digit a server, in rising identity.
    pub fn roles(&self) -> String {
        self.group.role[..self.group.count].iter().map(|role| char::from(b'0' + role)).collect()
    }

    /// One call. Its bytes go to the start of `lent`, and no others are touched; a refused call
    /// touches none. Gives how many there are, or the number of the refusal.
    pub fn call(&mut self, what: What, lent: &mut [u8]) -> Result<usize, u8> {
        match what {
            What::Table => {
                self.table.count = 0;
                Ok(0)
            }
            What::Server { identity, priority } => {
                if identity == 0 {
                    return Err(2);
                }
                self.table.add(identity, priority)?;
                Ok(0)
            }
            What::Fresh { period } => {
                if !(2..=250).contains(&period) {
                    return Err(2);
                }
                self.table.fits(period)?;
                self.group = Group::fresh(period, &self.table);
                self.pen.set_tails(&self.table);
                Ok(0)
            }
            What::Act { verb, first, second } => self.act(verb, first, second, lent),
            What::Frame => {
                if self.group.frame >= LAST {
                    return Err(16);
                }
                self.advance_to(self.group.frame + 1, lent)
            }
            What::Time { time } => {
                if time > LAST {
                    return Err(3);
                }
                if time < self.group.frame {
                    return Err(11);
                }
                self.advance_to(time, lent)
            }
            What::Refused { identity, number } => {
                let (line, length) = self.pen.refusal(self.group.frame, identity, number);
                lent.get_mut(..length).ok_or(9u8)?.copy_from_slice(&line[..length]);
                Ok(length)
            }
        }
    }

    fn act(&mut self, verb: Verb, first: u16, second: u16, lent: &mut [u8]) -> Result<usize, u8> {
        let two = verb.has_two();
        if first == 0 || (two && second == 0) {
            return Err(2);
        }
        let a = self.group.find(first)?;
        let b = if two { self.group.find(second)? } else { MOST };
        if a == b {
            return Err(8);
        }
        let refusal = self.group.refusal(verb, a, b);
        if refusal != 0 {
            return Err(refusal);
        }
        let words: &[u8] = match verb {
            Verb::Start | Verb::Unready => &[SYNC],
            Verb::Ready => &[BACKUP],
            Verb::Pass => &[PASS, BACKUP],
            Verb::Crash => &[DOWN],
            Verb::Restart => &[IDLE],
            Verb::Cut => &[CUT],
            Verb::Mend => &[MENDED],
        };
        if words.iter().map(|&word| self.pen.length(a, word)).sum::<usize>() > lent.len() {
            return Err(9);
        }
        let mut out = Lent { to: lent, used: 0, pen: &mut self.pen };
        self.group.act(verb, a, b, &mut out);
        Ok(out.used)
    }

    /// All or nothing: where the slice might be too short, the advance is first tried on a copy.
    fn advance_to(&mut self, time: u32, lent: &mut [u8]) -> Result<usize, u8> {
        if self.group.most_bytes(time - self.group.frame) > lent.len() as u64 {
            let mut trial = Count { used: 0, pen: &self.pen };
            let mut copy = self.group;
            copy.advance_to(time, &mut trial);
            if trial.used > lent.len() {
                return Err(9);
            }
        }
        let mut out = Lent { to: lent, used: 0, pen: &mut self.pen };
        self.group.advance_to(time, &mut out);
        Ok(out.used)
    }
}

/// Runs a list of calls. Each has the first `len` bytes of `buffer` lent to it; what it wrote there
/// is shown to `seen` before the next call. Gives the number of each answer, 0 for accepted; a new
/// table has no answer.
pub fn run(calls: &[Call], buffer: &mut [u8], mut seen: impl FnMut(u8, &[u8])) -> Vec<u8> {
    let mut numbers = Vec::with_capacity(calls.len());
    let mut state = Calls::new();
    for call in calls {
        let lent = &mut buffer[..call.len];
        let (number, written) = match state.call(call.what, lent) {
            Ok(written) => (0, written),
            Err(number) => (number, 0),
        };
        if call.what != What::Table {
            seen(number, &lent[..written]);
            numbers.push(number);
        }
    }
    numbers
}

fn decimal(field: &[u8], least: u32, most: u32) -> Result<u32, u8> {
    // no allowed number has more than five digits
    if field.is_empty() || field.len() > 5 || (field.len() > 1 && field[0] == b'0') {
        return Err(2);
    }
    let mut value = 0;
    for &byte in field {
        let digit = byte.wrapping_sub(b'0');
        if digit > 9 {
            return Err(2);
        }
        value = value * 10 + u32::from(digit);
    }
    if least <= value && value <= most {
        Ok(value)
    } else {
        Err(2)
    }
}

fn timecode(field: &[u8]) -> Result<u32, u8> {
    let [h1, h2, b':', m1, m2, b':', s1, s2, b':', f1, f2] = *field else {
        return Err(3);
    };
    let hours = pair(h1, h2, 24)?;
    let minutes = pair(m1, m2, 60)?;
    let seconds = pair(s1, s2, 60)?;
    let frames = pair(f1, f2, 25)?;
    Ok(hours * 90_000 + minutes * 1_500 + seconds * 25 + frames)
}

fn pair(tens: u8, ones: u8, below: u32) -> Result<u32, u8> {
    let (tens, ones) = (tens.wrapping_sub(b'0'), ones.wrapping_sub(b'0'));
    let value = u32::from(tens) * 10 + u32::from(ones);
    if tens < 10 && ones < 10 && value < below {
        Ok(value)
    } else {
        Err(3)
    }
}
