//! What the generators share: numbers from a seed, and a day under way.

use crate::channel::{Channel, Role, Verb};
use crate::text::{write_timecode, LAST_FRAME};

/// splitmix64: the same numbers from the same seed on every machine.
pub struct Rng(u64);

impl Rng {
    pub fn new(seed: u64) -> Rng {
        Rng(seed)
    }

    pub fn next(&mut self) -> u64 {
        self.0 = self.0.wrapping_add(0x9E37_79B9_7F4A_7C15);
        let mut z = self.0;
        z = (z ^ (z >> 30)).wrapping_mul(0xBF58_476D_1CE4_E5B9);
        z = (z ^ (z >> 27)).wrapping_mul(0x94D0_49BB_1331_11EB);
        z ^ (z >> 31)
    }

    /// 0 to `count` − 1.
    pub fn below(&mut self, count: u32) -> u32 {
        (self.next() >> 16) as u32 % count
    }

    pub fn between(&mut self, least: u32, most: u32) -> u32 {
        least + self.below(most - least + 1)
    }

    /// 0 to `count` − 1 but for `not`, if there is another.
    pub fn other(&mut self, count: usize, not: usize) -> usize {
        if count == 1 {
            return not;
        }
        (not + 1 + self.below(count as u32 - 1) as usize) % count
    }

    /// True `part` times in `whole`.
    pub fn chance(&mut self, part: u32, whole: u32) -> bool {
        self.below(whole) < part
    }

    pub fn pick<'a, T>(&mut self, list: &'a [T]) -> &'a T {
        &list[self.below(list.len() as u32) as usize]
    }

    pub fn shuffle<T>(&mut self, list: &mut [T]) {
        for last in (1..list.len()).rev() {
            list.swap(last, self.below(last as u32 + 1) as usize);
        }
    }
}

/// A day under way: its lines so far, and the channel that they lead to, so that a generator can
/// see who is primary.
pub struct Script {
    pub lines: Vec<Vec<u8>>,
    pub channel: Channel,
}

impl Script {
    /// `period` and `server` lines, in the order of `table`.
    pub fn new(period: u32, table: &[(u16, u8)]) -> Script {
        let mut lines = vec![format!("period\t{period}").into_bytes()];
        for (identity, priority) in table {
            lines.push(format!("server\t{identity}\t{priority}").into_bytes());
        }
        Script { lines, channel: Channel::fresh(period, table) }
    }

    pub fn count(&self) -> usize {
        self.channel.servers.len()
    }

    pub fn period(&self) -> u32 {
        self.channel.period
    }

    pub fn frame(&self) -> u32 {
        self.channel.frame
    }

    pub fn identity(&self, place: usize) -> u16 {
        self.channel.servers[place].identity
    }

    pub fn role(&self, place: usize) -> Role {
        self.channel.servers[place].role
    }

    /// Advances by some frames, not past the day. True if somebody sent in the last one.
    pub fn wait(&mut self, frames: u32) -> bool {
        let goal = (self.channel.frame + frames).min(LAST_FRAME);
        let mut notes = Vec::new();
        while self.channel.frame < goal {
            notes.clear();
            self.channel.advance(&mut notes);
        }
        notes.iter().any(|note| note.word == "beat" || note.word == "reveal")
    }

    /// Advances until somebody sends, at most for some frames.
    pub fn wait_for_sending(&mut self, most: u32) {
        for _ in 0..most {
            if self.wait(1) {
                return;
            }
        }
    }

    /// An entry at the present time, allowed or not. `other` is used by the verbs that have two.
    pub fn entry(&mut self, verb: Verb, place: usize, other: usize) {
        let time = write_timecode(self.channel.frame).expect("within the day");
        self.entry_at(&time, verb, place, other);
        let _ = self.channel.act(verb, place, other, &mut Vec::new());
    }

    /// An entry with any time, which the channel does not follow.
    pub fn entry_at(&mut self, time: &str, verb: Verb, place: usize, other: usize) {
        let mut line = format!("{time}\t{}\t{}", verb.word(), self.identity(place));
        if verb.has_two() {
            line += &format!("\t{}", self.identity(other));
        }
        self.lines.push(line.into_bytes());
    }

    pub fn end(&mut self) {
        let frame = self.channel.frame;
        self.end_at(frame);
    }

    pub fn end_at(&mut self, frame: u32) {
        let time = write_timecode(frame).expect("within the day");
        self.lines.push(format!("end\t{time}").into_bytes());
    }

    /// Down, idle and sync servers become backup.
    pub fn revive(&mut self, place: usize) {
        while let Some(verb) = self.role(place).way_up() {
            self.entry(verb, place, place);
        }
    }

    pub fn some_server(&self, rng: &mut Rng) -> usize {
        rng.below(self.count() as u32) as usize
    }

    /// A server other than `place`, if there is one.
    pub fn some_other(&self, rng: &mut Rng, place: usize) -> usize {
        rng.other(self.count(), place)
    }

    /// The lines, each with its line feed.
    pub fn text(&self) -> Vec<u8> {
        join(&self.lines)
    }
}

pub fn join(lines: &[Vec<u8>]) -> Vec<u8> {
    let mut text = Vec::new();
    for line in lines {
        text.extend_from_slice(line);
        text.push(b'\n');
    }
    text
}

/// The lines of a day or sheet with their times as frames: `@8` is 00:00:00:08. Spaces stand for
/// tabs; empty lines are left out.
pub fn timed(text: &str) -> String {
    let mut lines = String::new();
    for line in text.lines().map(str::trim).filter(|line| !line.is_empty()) {
        for (at, word) in line.split(' ').enumerate() {
            if at > 0 {
                lines.push(' ');
            }
            match word.strip_prefix('@') {
                Some(frame) => {
                    lines += &write_timecode(frame.parse().expect("a frame")).expect("in the day")
                }
                None => lines += word,
            }
        }
        lines.push('\n');
    }
    lines
}
