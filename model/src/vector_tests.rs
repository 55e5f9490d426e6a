//! What the file of days with their sheets covers, counted; and the comparison with a program.

use crate::bench::{fnv, FNV_START};
use crate::calls::role_digit;
use crate::channel::{Channel, Verb};
use crate::day;
use crate::program::{compare, difference, tampered};
use crate::reply_tests::{advance, kinds, KINDS};
use crate::script::Rng;
use crate::special::{self, Repeated};
use crate::text::{read_timecode, LAST_FRAME};
use crate::vectors::{vectors, write, MOST_SHOWN};
use crate::{fast, generate};
use std::cmp::Reverse;
use std::collections::BTreeMap;

/// The file that the engine is held to.
const SEED: u64 = 1;
const COUNT: usize = 1_400;
const MOST_BYTES: usize = 1 << 20;

const WORDS: [&str; 12] = [
    "sync", "backup", "prospect", "primary", "idle", "down", "beat", "reveal", "pass", "lower",
    "cut", "mended",
];
const ROLES: [&str; 6] = ["down", "idle", "sync", "backup", "prospect", "primary"];

/// What each verb gets in each role, 0 if it is allowed, in the order of ROLES. A cut or mend may
/// get either of two numbers in each.
const ALLOWED: [(Verb, [u8; 6]); 6] = [
    (Verb::Start, [12, 0, 14, 14, 14, 14]),
    (Verb::Ready, [12, 14, 0, 14, 14, 14]),
    (Verb::Unready, [12, 14, 14, 0, 14, 14]),
    (Verb::Pass, [12, 14, 14, 14, 14, 0]),
    (Verb::Crash, [12, 0, 0, 0, 0, 0]),
    (Verb::Restart, [0, 13, 13, 13, 13, 13]),
];

/// How often each thing is in the days, by a name.
#[derive(Default)]
struct Seen(BTreeMap<String, usize>);

impl Seen {
    fn add(&mut self, name: impl Into<String>) {
        *self.0.entry(name.into()).or_default() += 1;
    }

    fn times(&self, name: &str) -> usize {
        self.0.get(name).copied().unwrap_or(0)
    }

    #[track_caller]
    fn expect(&self, name: &str, least: usize) {
        let times = self.times(name);
        assert!(times >= least, "{name}: {times} and not {least} or more");
    }

    #[track_caller]
    fn expect_none(&self, name: &str) {
        assert_eq!(self.times(name), 0, "{name}");
    }
}

// The file, read as the engine's program reads it

struct Record {
    day: Vec<u8>,
    is_repeated: bool,
    length: usize,
    shown: Vec<u8>,
    check: u64,
}

fn read(file: &[u8]) -> Vec<Record> {
    let mut rest = file;
    let mut records = Vec::new();
    let first = numbers(&mut rest);
    assert_eq!(first.len(), 2);
    for _ in 0..first[0] {
        let line = numbers(&mut rest);
        let &[head, times, body, tail, length, shown, check] = line.as_slice() else {
            panic!("seven numbers: {line:?}");
        };
        let head = take(&mut rest, head).to_vec();
        let body = take(&mut rest, body).to_vec();
        let tail = take(&mut rest, tail).to_vec();
        let day = Repeated { head, times: times as usize, body, tail }.day();
        let shown = take(&mut rest, shown).to_vec();
        records.push(Record { day, is_repeated: times > 0, length: length as usize, shown, check });
    }
    assert!(rest.is_empty());
    let repeated = first[1] as usize;
    for (at, record) in records.iter().enumerate() {
        assert_eq!(record.is_repeated, at >= records.len() - repeated);
    }
    records
}

fn numbers(rest: &mut &[u8]) -> Vec<u64> {
    let end = rest.iter().position(|&byte| byte == b'\n').expect("a line");
    let line = String::from_utf8(take(rest, end as u64).to_vec()).expect("plain text");
    take(rest, 1);
    line.split('\t').map(|field| field.parse().expect("a number")).collect()
}

fn take<'a>(rest: &mut &'a [u8], count: u64) -> &'a [u8] {
    let (taken, left) = rest.split_at(count as usize);
    *rest = left;
    taken
}

// Counting

fn count(record: &Record, sheet: &str, seen: &mut Seen) {
    if record.is_repeated {
        seen.add("days at the limit of lines");
        return;
    }
    seen.add("days below the limit of lines");
    seen.add(if record.shown.is_empty() { "sheets not shown" } else { "sheets shown" });
    for line in sheet.lines().skip(1) {
        let fields: Vec<&str> = line.split('\t').collect();
        let what = if fields[0] == "line" { "input" } else { "state" };
        match fields[2].strip_prefix("refused-") {
            Some(number) => seen.add(format!("{what} {number}")),
            None => seen.add(format!("word {}", fields[2])),
        }
    }
    // the lines before the one that ended the sheet
    let last = sheet.lines().last().unwrap_or("");
    let stop = match last.strip_prefix("line\t") {
        None => usize::MAX,
        Some(rest) => {
            seen.add("days refused");
            rest.split('\t').next().and_then(|line| line.parse().ok()).expect("a line number")
        }
    };
    replay(&record.day, stop, seen);
}

/// Plays the lines before line `stop` again, to see what roles the verbs are used in.
fn replay(day: &[u8], stop: usize, seen: &mut Seen) {
    let mut period = 0;
    let mut table: Vec<(u16, u8)> = Vec::new();
    let mut group: Option<Channel> = None;
    let mut was_refused = false;
    let mut sent = Vec::new();
    let mut replies = Vec::new();
    let mut again: Vec<usize> = Vec::new();
    for line in day.split(|&byte| byte == b'\n').take(stop - 1).filter(|line| !line.is_empty()) {
        let line = std::str::from_utf8(line).expect("plain text");
        let fields: Vec<&str> = line.split('\t').collect();
        let number = |at: usize| fields[at].parse::<u32>().expect("a number");
        match fields[0] {
            "period" => period = number(1),
            "server" => table.push((number(1) as u16, number(2) as u8)),
            _ => {
                let channel = group.get_or_insert_with(|| {
                    count_table(period, &table, seen);
                    Channel::fresh(period, &table)
                });
                let is_end = fields[0] == "end";
                let verb = Verb::ALL.into_iter().find(|verb| verb.word() == fields[1]);
                let word = if is_end { "end" } else { fields[1] };
                let time = fields[usize::from(is_end)].as_bytes();
                let time = read_timecode(time).expect("a time");
                if time < channel.frame {
                    seen.add(format!("11 {word}"));
                    was_refused |= is_end;
                    continue;
                }
                while channel.frame < time {
                    count_hearing(channel, &mut sent, seen);
                    let mut notes = Vec::new();
                    let replied = advance(channel, &mut notes);
                    for reply in &replied {
                        for kind in kinds(reply, &again) {
                            seen.add(format!("reply {kind}"));
                        }
                    }
                    again = replied.iter().map(|reply| reply.place).collect();
                    replies.extend(replied);
                    let beats = notes.iter().filter(|note| ["beat", "reveal"].contains(&note.word));
                    sent.extend(beats.map(|note| (note.identity, note.word, 0)));
                    if !notes.is_empty() && channel.primaries().len() > 1 {
                        seen.add("two primaries after a frame");
                    }
                }
                let Some(verb) = verb else {
                    seen.add("end");
                    if time == LAST_FRAME {
                        seen.add("end at the last frame");
                    }
                    if was_refused {
                        seen.add("end after a refused one");
                    }
                    continue;
                };
                let first = number(2) as u16;
                let second = if verb.has_two() { number(3) as u16 } else { first };
                if count_entry(channel, verb, first, second, seen) && verb == Verb::Pass {
                    sent.push((first, "pass", second));
                }
            }
        }
    }
    if !replies.is_empty() {
        seen.add("days with a reply");
    }
    // up to the first reply that is seen, the sheet is the one without replies
    if replies.iter().any(|reply| reply.is_seen) {
        seen.add("days that replies change");
    }
}

fn count_table(period: u32, table: &[(u16, u8)], seen: &mut Seen) {
    seen.add(format!("{} servers", table.len()));
    seen.add(format!("period {period}"));
    if period as usize == table.len() {
        seen.add("period at the number of servers");
    }
    let mut priorities: Vec<u8> = table.iter().map(|server| server.1).collect();
    priorities.sort();
    priorities.dedup();
    if priorities.len() < table.len() {
        seen.add("ties");
    }
    if table.len() > 1 && priorities.len() == 1 {
        seen.add("all tie");
    }
}

fn role(channel: &Channel, place: usize) -> &'static str {
    ROLES[usize::from(role_digit(channel.servers[place].role))]
}

/// The first heartbeat that each server hears in the next frame.
fn count_hearing(channel: &Channel, sent: &mut Vec<(u16, &str, u16)>, seen: &mut Seen) {
    let place = |identity: u16| channel.place(identity).expect("in the table");
    let rank = |place: usize| {
        let server = &channel.servers[place];
        (server.priority, server.identity)
    };
    sent.sort_by_key(|&(sender, ..)| Reverse(rank(place(sender))));
    for hearer in 0..channel.servers.len() {
        let is_heard = |sender: usize| sender != hearer && !channel.is_cut(sender, hearer);
        let first = sent.iter().find(|&&(sender, ..)| is_heard(place(sender)));
        if let Some(&(sender, what, to)) = first {
            let side = if rank(place(sender)) > rank(hearer) { "higher" } else { "lower" };
            let what = match what {
                "pass" if place(to) == hearer => "pass to it",
                "pass" => "pass to another",
                _ => what,
            };
            seen.add(format!("{} hears {side} {what}", role(channel, hearer)));
        }
    }
    sent.clear();
}

/// True if the entry is allowed.
fn count_entry(
    channel: &mut Channel,
    verb: Verb,
    first: u16,
    second: u16,
    seen: &mut Seen,
) -> bool {
    let place = |identity: u16| channel.place(identity).expect("in the table");
    let (place, other) = (place(first), place(second));
    let (first, second) = (role(channel, place), role(channel, other));
    let two = channel.primaries().len() > 1;
    let back = other != place && channel.is_cut(other, place);
    let answer = channel.act(verb, place, other, &mut Vec::new());
    let number = answer.err().unwrap_or(0);
    seen.add(format!("{} {first} {number}", verb.word()));
    if number > 0 {
        return false;
    }
    match verb {
        Verb::Pass => {
            seen.add(format!("pass to {second}"));
            let heard = if channel.is_cut(place, other) { "not heard" } else { "heard" };
            seen.add(format!("pass {heard}"));
        }
        Verb::Cut if !back => seen.add("cut in one direction"),
        Verb::Mend if two => seen.add("mend with two primaries"),
        _ => {}
    }
    true
}

#[test]
fn the_file_covers_every_word_refusal_and_role() {
    let days = vectors(SEED, COUNT).unwrap_or_default();
    let file = write(&days);
    assert!(file.len() < MOST_BYTES, "{} bytes", file.len());
    let records = read(&file);
    assert_eq!(records.len(), COUNT);
    let mut seen = Seen::default();
    for (record, made) in records.iter().zip(&days) {
        assert_eq!(record.day, made.day());
        let sheet = day::sheet(&record.day);
        assert_eq!(record.length, sheet.len());
        assert_eq!(record.check, fnv(FNV_START, &sheet));
        assert_eq!(record.shown, if sheet.len() <= MOST_SHOWN { &sheet[..] } else { &[] });
        let mut quick = Vec::new();
        fast::sheet(&record.day, &mut quick).expect("a vector takes all bytes");
        assert!(sheet == quick);
        count(record, &String::from_utf8(sheet).expect("plain text"), &mut seen);
    }
    for (name, times) in &seen.0 {
        println!("{times:>7}  {name}");
    }

    for word in WORDS {
        seen.expect(&format!("word {word}"), 100);
    }
    for number in 1..=8 {
        seen.expect(&format!("input {number}"), 20);
    }
    for number in 11..=15 {
        seen.expect(&format!("state {number}"), 20);
    }
    // 9 and 16 cannot arise in a day, 10 is no refusal
    for number in [0, 9, 10, 16] {
        seen.expect_none(&format!("input {number}"));
        seen.expect_none(&format!("state {number}"));
    }
    for (verb, answers) in ALLOWED {
        for (role, allowed) in ROLES.iter().zip(answers) {
            for number in [0, 11, 12, 13, 14, 15] {
                let name = format!("{} {role} {number}", verb.word());
                if number == allowed {
                    seen.expect(&name, 3);
                } else {
                    seen.expect_none(&name);
                }
            }
        }
    }
    for role in ROLES {
        for verb in ["cut", "mend"] {
            seen.expect(&format!("{verb} {role} 0"), 2);
            seen.expect(&format!("{verb} {role} 15"), 2);
        }
        seen.expect(&format!("pass to {role}"), 3);
    }
    for role in ROLES {
        for side in ["higher", "lower"] {
            for what in ["beat", "reveal", "pass to it", "pass to another"] {
                seen.expect(&format!("{role} hears {side} {what}"), 2);
            }
        }
    }
    for verb in Verb::ALL {
        seen.expect(&format!("11 {}", verb.word()), 2);
    }
    for kind in KINDS {
        seen.expect(&format!("reply {kind}"), 5);
    }
    seen.expect("days with a reply", COUNT.div_ceil(3));
    seen.expect("days that replies change", COUNT.div_ceil(3));
    seen.expect("11 end", 5);
    for count in 1..=16 {
        seen.expect(&format!("{count} servers"), 1);
    }
    seen.expect_none("17 servers");
    for period in [2, 250] {
        seen.expect(&format!("period {period}"), 10);
    }
    for name in [
        "all tie",
        "cut in one direction",
        "days at the limit of lines",
        "days refused",
        "end after a refused one",
        "end at the last frame",
        "mend with two primaries",
        "pass heard",
        "pass not heard",
        "period at the number of servers",
        "sheets not shown",
        "sheets shown",
        "ties",
        "two primaries after a frame",
    ] {
        seen.expect(name, 5);
    }
}

// The days made by hand

fn last_line(day: &[u8]) -> String {
    let sheet = String::from_utf8(day::sheet(day)).expect("plain text");
    sheet.lines().last().unwrap_or("").replace('\t', " ")
}

#[test]
fn refused_days_get_their_number() {
    for (refusal, day) in special::refused().into_iter().chain(special::entry_templates()) {
        let last = last_line(&day);
        let text = day.escape_ascii();
        assert!(last.starts_with("line "), "{text}: {last}");
        assert!(last.ends_with(&format!(" refused-{refusal}")), "{text}: {last}");
    }
}

#[test]
fn right_days_are_not_refused() {
    for text in special::RIGHT {
        let day = crate::script::timed(text).replace(' ', "\t");
        let sheet = String::from_utf8(day::sheet(day.as_bytes())).expect("plain text");
        assert!(!sheet.contains("refused"), "{text}: {sheet}");
    }
}

#[test]
fn full_days_end_at_the_limit() {
    let lasts: Vec<String> = special::full().iter().map(|day| last_line(&day.day())).collect();
    assert_eq!(
        lasts,
        [
            "00:00:00:01 1 idle",
            "line 65536 refused-4",
            "line 65536 refused-4",
            "line 65536 refused-4",
            "line 65536 refused-1",
            "line 65536 refused-1",
            "line 65536 refused-2",
            "line 65536 refused-3",
            "line 65536 refused-4",
        ]
    );
}

#[test]
fn the_hand_made_days_are_the_least() {
    let least = special::days().len() + special::full().len();
    assert_eq!(vectors(SEED, least - 1).err(), Some(least));
    assert_eq!(vectors(SEED, least).map(|days| days.len()).ok(), Some(least));
}

#[test]
fn check_without_a_wrapping_product() {
    let mut rng = Rng::new(7);
    for _ in 0..1_000 {
        let x = rng.next();
        let sum =
            (x << 40).wrapping_add(((x >> 32) * 435) << 32).wrapping_add((x & 0xFFFF_FFFF) * 435);
        assert_eq!(sum, x.wrapping_mul(1_099_511_628_211));
    }
    // the known value for this text
    assert_eq!(fnv(FNV_START, b"foobar"), 0x8594_4171_F739_67E8);
}

// The comparison

#[test]
fn the_first_line_that_differs() {
    let line = |sheet: &str, output: &str| {
        difference(sheet.as_bytes(), output.as_bytes())
            .map(|(line, model, program)| format!("{line} {model} {program}"))
    };
    assert_eq!(line("a\nb\n", "a\nb\n"), None);
    assert_eq!(line("a\nb\n", "a\nc\n"), Some(String::from("2 b\\n c\\n")));
    assert_eq!(line("a\nb\n", "a\n"), Some(String::from("2 b\\n no more lines")));
    assert_eq!(line("a\n", "a\nb\n"), Some(String::from("2 no more lines b\\n")));
    assert_eq!(line("a\nb\n", "a\nb"), Some(String::from("2 b\\n b")));
    assert_eq!(line("a\n", ""), Some(String::from("1 a\\n no more lines")));
}

#[test]
fn a_program_that_is_not_there() {
    let message = compare("./no-such-program", 1, 1).expect_err("it cannot be run");
    assert!(message.contains("build the program first"), "{message}");
}

#[test]
fn tampered_days_have_sheets() {
    let mut refused = 0;
    for seed in 1..=300 {
        let day = tampered(&mut Rng::new(seed), generate::day(seed));
        let plain = day::sheet(&day);
        let mut quick = Vec::new();
        fast::sheet(&day, &mut quick).expect("a vector takes all bytes");
        assert!(plain == quick, "seed {seed}");
        refused += usize::from(plain.windows(6).any(|bytes| bytes == b"\nline\t"));
    }
    assert!((100..=295).contains(&refused), "{refused}");
}
