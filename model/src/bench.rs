//! Whole days as lists of calls and as files, and the time that the lists take in place.

use crate::calls::{Call, What, MOST_LENT};
use crate::channel::{Role, Verb};
use crate::fast;
use crate::long::{mends, some_entry};
use crate::script::{Rng, Script};
use crate::text::LAST_FRAME;
use std::time::{Duration, Instant};

/// The cases of the benchmark.
#[derive(Clone, Copy, Debug, PartialEq, Eq)]
pub enum Case {
    /// 16 servers, P 16, an entry every 100 frames.
    A,
    /// 2 servers, P 2, few entries.
    B,
    /// 16 servers, P 250, 65,000 entries in a whole day.
    C,
    /// 16 servers, P 16, all links cut once everybody is ready.
    D,
}

impl Case {
    pub const ALL: [Case; 4] = [Case::A, Case::B, Case::C, Case::D];

    pub fn read(letter: &str) -> Option<Case> {
        let at = ["a", "b", "c", "d"].iter().position(|&known| known == letter)?;
        Some(Case::ALL[at])
    }
}

/// Single calls by their letters: the frames from one entry to the next.
pub const SINGLES: [(u32, &str); 2] = [(100, "e"), (1, "f")];

/// The list with a letter: a case, or single calls.
pub fn lettered(letter: &str, last: u32) -> Option<Vec<Call>> {
    match SINGLES.into_iter().find(|single| single.1 == letter) {
        Some((gap, _)) => Some(frame_by_frame(gap, last)),
        None => Case::read(letter).map(|case| list(case, last)),
    }
}

/// The list of a case. A whole day has LAST_FRAME as its last frame; a smaller one cuts the day
/// short.
pub fn list(case: Case, last: u32) -> Vec<Call> {
    record(case, last).calls
}

/// The same day as a file.
pub fn day(case: Case, last: u32) -> Vec<u8> {
    let mut script = record(case, last).script;
    script.end_at(last);
    script.text()
}

fn record(case: Case, last: u32) -> Recorder {
    match case {
        Case::A => regular(last),
        Case::B => few(last),
        Case::C => dense(last),
        Case::D => apart(last),
    }
}

fn regular(last: u32) -> Recorder {
    let (mut rng, mut list) = ready(Case::A, 16, 16);
    for time in (100..=last).step_by(100) {
        list.advance_to(time);
        some_entry(&mut rng, &mut list.script);
    }
    list.end(last)
}

/// Something every 100,000 frames, and its undoing 500 frames after it.
fn few(last: u32) -> Recorder {
    let (_, mut list) = ready(Case::B, 2, 2);
    for (turn, time) in (100_000..=last).step_by(100_000).enumerate() {
        list.advance_to(time);
        let primary = *list.script.channel.primaries().first().expect("somebody has been chosen");
        let other = 1 - primary;
        let (first, then): (&[_], &[_]) = match turn % 5 {
            0 => (
                &[(Verb::Crash, primary, other)],
                &[
                    (Verb::Restart, primary, other),
                    (Verb::Start, primary, other),
                    (Verb::Ready, primary, other),
                ],
            ),
            1 => (&[(Verb::Pass, primary, other)], &[]),
            2 => (&[(Verb::Cut, primary, other)], &[(Verb::Mend, primary, other)]),
            3 => (&[(Verb::Unready, other, primary)], &[(Verb::Ready, other, primary)]),
            _ => (
                &[(Verb::Cut, primary, other), (Verb::Cut, other, primary)],
                &[(Verb::Mend, primary, other), (Verb::Mend, other, primary)],
            ),
        };
        for &(verb, place, other) in first {
            list.script.entry(verb, place, other);
        }
        if !then.is_empty() && time + 500 <= last {
            list.advance_to(time + 500);
        }
        for &(verb, place, other) in then {
            list.script.entry(verb, place, other);
        }
    }
    list.end(last)
}

/// Entry i is in frame i × 2,159,999 / 65,000, but the first 32 are in frame 0.
fn dense(last: u32) -> Recorder {
    let (mut rng, mut list) = ready(Case::C, 16, 250);
    for entry in 32..65_000 {
        let time = (entry * u64::from(LAST_FRAME) / 65_000) as u32;
        if time > last {
            break;
        }
        list.advance_to(time);
        calm_entry(&mut rng, &mut list.script);
    }
    list.end(last)
}

/// With a great period an election takes many entries, so these leave the primary alone most of
/// the time.
fn calm_entry(rng: &mut Rng, script: &mut Script) {
    let place = script.some_server(rng);
    let other = script.some_other(rng, place);
    let primaries = script.channel.primaries();
    if rng.chance(1, 40) {
        let verb = *rng.pick(&Verb::ALL);
        script.entry(verb, place, other);
        return;
    }
    if rng.chance(1, 60) && !primaries.is_empty() {
        let primary = *rng.pick(&primaries);
        let other = script.some_other(rng, primary);
        let verb = *rng.pick(&[Verb::Pass, Verb::Pass, Verb::Pass, Verb::Crash]);
        script.entry(verb, primary, other);
        return;
    }
    if mends(rng, script, 3, 16) {
        return;
    }
    let role = script.role(place);
    let verb = match role.way_up() {
        Some(verb) => verb,
        None if matches!(role, Role::Backup { .. }) && rng.chance(1, 2) => {
            *rng.pick(&[Verb::Unready, Verb::Unready, Verb::Crash])
        }
        None if script.channel.is_cut(place, other) => Verb::Mend,
        None => Verb::Cut,
    };
    script.entry(verb, place, other);
}

/// Advances of 1,000 frames.
fn apart(last: u32) -> Recorder {
    let (_, mut list) = ready(Case::D, 16, 16);
    for (from, to) in list.script.channel.links(false) {
        list.script.entry(Verb::Cut, from, to);
    }
    list.take_entries();
    for time in (1_000..last).step_by(1_000) {
        list.call(What::Time { time });
    }
    list.call(What::Time { time: last });
    list
}

/// A list of single calls, no case of a day: 16 servers, P 16, one frame at a time, and an entry
/// every `gap` frames.
pub fn frame_by_frame(gap: u32, last: u32) -> Vec<Call> {
    let (mut rng, mut list) = ready_from(u64::from(gap), 16, 16);
    for time in 1..=last {
        list.take_entries();
        list.script.wait(1);
        list.call(What::Frame);
        if time % gap == 0 {
            some_entry(&mut rng, &mut list.script);
        }
    }
    list.take_entries();
    list.calls
}

/// Servers with identities 1, 2 and so on and any priorities, all of them ready at frame 0.
fn ready(case: Case, servers: u16, period: u32) -> (Rng, Recorder) {
    ready_from(case as u64 + 1, servers, period)
}

fn ready_from(seed: u64, servers: u16, period: u32) -> (Rng, Recorder) {
    let mut rng = Rng::new(seed);
    let table: Vec<(u16, u8)> =
        (1..=servers).map(|identity| (identity, rng.below(256) as u8)).collect();
    let mut list = Recorder::new(period, &table);
    for place in 0..list.script.count() {
        list.script.revive(place);
    }
    (rng, list)
}

/// A day under way, and the calls that it is made of.
struct Recorder {
    script: Script,
    calls: Vec<Call>,
    /// Lines of the script that are among the calls, or are no entries.
    taken: usize,
}

impl Recorder {
    fn new(period: u32, table: &[(u16, u8)]) -> Recorder {
        let mut calls = vec![Call { what: What::Table, len: 0 }];
        for &(identity, priority) in table {
            calls.push(Call { what: What::Server { identity, priority }, len: 0 });
        }
        calls.push(Call { what: What::Fresh { period }, len: 0 });
        let script = Script::new(period, table);
        let taken = script.lines.len();
        Recorder { script, calls, taken }
    }

    fn call(&mut self, what: What) {
        self.calls.push(Call { what, len: MOST_LENT });
    }

    /// The entries `time verb identity [identity]` of the present frame become calls.
    fn take_entries(&mut self) {
        for at in self.taken..self.script.lines.len() {
            let line = String::from_utf8_lossy(&self.script.lines[at]).into_owned();
            let fields: Vec<&str> = line.split('\t').collect();
            let verb = Verb::ALL.into_iter().find(|verb| verb.word() == fields[1]);
            let identity = |at: usize| fields.get(at).map_or(0, |field| field.parse().unwrap_or(0));
            let (first, second) = (identity(2), identity(3));
            self.call(What::Act { verb: verb.expect("an entry"), first, second });
        }
        self.taken = self.script.lines.len();
    }

    fn advance_to(&mut self, time: u32) {
        self.take_entries();
        self.script.wait(time - self.script.frame());
        self.call(What::Time { time });
    }

    fn end(mut self, last: u32) -> Recorder {
        self.advance_to(last);
        self
    }
}

/// What a list has come to.
#[derive(Clone, Copy, Debug, PartialEq, Eq)]
pub struct Sum {
    pub bytes: u64,
    /// FNV-1a over the number of each answer, as one byte, and then the bytes written.
    pub check: u64,
}

impl Sum {
    pub fn new() -> Sum {
        Sum { bytes: 0, check: FNV_START }
    }

    pub fn add(&mut self, number: u8, written: &[u8]) {
        self.bytes += written.len() as u64;
        self.check = fnv(fnv(self.check, &[number]), written);
    }
}

pub const FNV_START: u64 = 0xCBF2_9CE4_8422_2325;

/// FNV-1a of 64 bits, carried on over further bytes.
pub fn fnv(check: u64, bytes: &[u8]) -> u64 {
    let step = |check: u64, &byte: &u8| (check ^ u64::from(byte)).wrapping_mul(0x0100_0000_01B3);
    bytes.iter().fold(check, step)
}

/// The best of three runs in place, the refused calls, and the sum of a fourth run.
pub fn time(calls: &[Call]) -> (Duration, usize, Sum) {
    let most = calls.iter().map(|call| call.len).max().unwrap_or(0);
    let mut buffer = vec![0; most];
    // so that no run has to wait for its memory
    buffer.fill(b'.');
    let mut best = Duration::MAX;
    for _ in 0..3 {
        let start = Instant::now();
        let numbers = fast::run(calls, &mut buffer, |_, _| {});
        best = best.min(start.elapsed());
        assert!(!numbers.is_empty());
    }
    let mut sum = Sum::new();
    let numbers = fast::run(calls, &mut buffer, |number, written| sum.add(number, written));
    (best, numbers.iter().filter(|&&number| number != 0).count(), sum)
}
