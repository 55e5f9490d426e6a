//! Lists of calls: their text, their answers, what the made ones cover, and both programs on them.

use crate::bench::{self, Case, Sum};
use crate::calls::{self, outcome, role_digit, Answer, Call, Plain, What};
use crate::channel::Verb;
use crate::compare::compare;
use crate::lists::{lists, LEAST_CALLS, MOST_CALLS, MOST_LENT, REFUSALS};
use crate::reply_tests::{self, kinds, KINDS};
use crate::text::{read_timecode, LAST_FRAME};
use crate::{day, fast, generate, long};
use std::collections::BTreeMap;
use std::sync::OnceLock;

// Text and answers by hand; spaces stand for tabs

/// The answers to a list, which both programs give.
fn answers(list: &str) -> String {
    let text: String =
        list.lines().map(|line| format!("{}\n", line.trim().replace(' ', "\t"))).collect();
    let calls = calls::read(text.as_bytes()).expect("calls");
    assert_eq!(calls::write(&calls), text.as_bytes());
    assert_eq!(compare(&calls), None);
    let answers = calls::answers(&calls).expect("a channel before its calls");
    String::from_utf8(answers).expect("plain text").replace('\t', " ")
}

fn expect(list: &str, wanted: &str) {
    let wanted: String = wanted.lines().map(|line| format!("{}\n", line.trim())).collect();
    assert_eq!(answers(list), wanted);
}

/// D1 up to its first frame: 1 has priority 10, 2 has 20, P = 2, both are ready.
const READY: &str = "0 0 0 0 0
    1 1 10 0 0
    1 2 20 0 0
    2 2 0 0 0
    3 1 0 0 100
    3 1 0 1 100
    3 2 0 0 100
    3 2 0 1 100
    ";
const READY_ANSWERS: &str = "0 1
    0 2
    0 2
    0 19 81 0 21
    00:00:00:00 1 sync
    0 21 79 0 31
    00:00:00:00 1 backup
    0 19 81 0 32
    00:00:00:00 2 sync
    0 21 79 0 33
    00:00:00:00 2 backup
    ";

/// What frame 4 of D1 writes.
const REVEALS: &str = "00:00:00:04 1 prospect
    00:00:00:04 1 reveal
    00:00:00:04 2 prospect
    00:00:00:04 2 reveal
    ";

#[test]
fn d1_as_a_list() {
    expect(
        &format!(
            "{READY}5 4 0 0 1000
            4 0 0 0 39
            4 0 0 0 40
            5 8 0 0 42
            5 8 0 0 60
            5 8 0 0 0
            6 2 14 0 50"
        ),
        &format!(
            "{READY_ANSWERS}0 88 912 4 44
            {REVEALS}9 0 39 4 44
            0 40 0 5 34
            00:00:00:05 1 backup
            00:00:00:05 2 beat
            0 41 1 8 35
            00:00:00:07 2 beat
            00:00:00:08 2 primary
            0 0 60 8 35
            0 0 0 8 35
            0 25 25 8 35
            00:00:00:08 2 refused-14"
        ),
    );
}

#[test]
fn d4_as_a_list() {
    // the pass writes both its lines or none
    expect(
        &format!(
            "{READY}5 8 0 0 148
            5 8 0 0 169
            3 2 1 3 39
            3 2 1 3 40
            4 0 0 0 100
            5 13 0 0 1000"
        ),
        &format!(
            "{READY_ANSWERS}9 0 148 0 33
            0 169 0 8 35
            {REVEALS}00:00:00:05 1 backup
            00:00:00:05 2 beat
            00:00:00:07 2 beat
            00:00:00:08 2 primary
            9 0 39 8 35
            0 40 0 8 33
            00:00:00:08 2 pass
            00:00:00:08 2 backup
            0 42 58 9 43
            00:00:00:09 1 prospect
            00:00:00:09 1 beat
            0 60 940 13 53
            00:00:00:11 1 beat
            00:00:00:13 1 beat
            00:00:00:13 1 primary"
        ),
    );
}

#[test]
fn identities_and_states_as_a_list() {
    expect(
        "0 0 0 0 0
        1 7 10 0 0
        1 3 20 0 0
        2 2 0 0 0
        3 0 7 0 0
        3 5 0 0 0
        3 7 0 6 100
        3 0 5 6 100
        3 5 0 6 100
        3 5 7 6 100
        3 7 5 7 100
        3 7 7 3 100
        3 7 5 2 0
        3 7 0 5 0
        3 7 3 7 0
        3 7 3 6 17
        3 7 3 6 18
        3 7 3 6 18
        3 3 7 7 18
        3 7 0 4 20
        3 7 0 4 20
        3 7 3 3 20
        3 7 0 5 18
        3 7 0 5 19",
        "0 1
        0 2
        0 2
        2 0 0 0 11
        8 0 0 0 11
        2 0 100 0 11
        2 0 100 0 11
        2 0 100 0 11
        8 0 100 0 11
        8 0 100 0 11
        8 0 100 0 11
        14 0 0 0 11
        13 0 0 0 11
        15 0 0 0 11
        9 0 17 0 11
        0 18 0 0 11
        00:00:00:00 7 cut
        15 0 18 0 11
        15 0 18 0 11
        0 19 1 0 10
        00:00:00:00 7 down
        12 0 20 0 10
        12 0 20 0 10
        9 0 18 0 10
        0 19 0 0 11
        00:00:00:00 7 idle",
    );
}

#[test]
fn tables_as_a_list() {
    let sixteen: String = (1..=16).map(|identity| format!("1 {identity} 5 0 0\n")).collect();
    let counted: String = (1..=16).map(|count| format!("0 {count}\n")).collect();
    expect(
        &format!(
            "0 0 0 0 0\n2 1 0 0 0\n2 2 0 0 0\n1 0 5 0 0\n{sixteen}1 0 5 0 0\n1 16 5 0 0\n\
            1 17 5 0 0\n2 0 0 0 0\n2 1 0 0 0\n2 15 0 0 0\n2 251 0 0 0\n2 300 0 0 0\n2 16 0 0 0\n5 9 0 0 0\n\
            2 251 0 0 0\n4 0 0 0 0\n2 250 0 0 0\n4 0 0 0 0\n0 0 0 0 0\n1 9 9 0 0\n2 2 0 0 0"
        ),
        &format!(
            "2 0\n6 0\n2 0\n{counted}2 16\n5 16\n6 16\n2 16\n2 16\n7 16\n2 16\n2 16\n0 16\n\
            0 0 0 9 1111111111111111\n2 16\n0 0 0 10 1111111111111111\n0 16\n\
            0 0 0 1 1111111111111111\n0 1\n0 1"
        ),
    );
}

#[test]
fn the_last_frame_as_a_list() {
    expect(
        "0 0 0 0 0
        1 65535 0 0 0
        2 2 0 0 0
        5 2160000 0 0 0
        5 4294967295 0 0 9
        5 2159998 0 0 0
        5 2159997 0 0 0
        4 0 0 0 0
        4 0 0 0 0
        5 2159999 0 0 0
        5 2159998 0 0 0
        5 2160000 0 0 0
        3 65535 0 0 22
        3 65535 0 0 23
        6 0 11 0 24
        6 0 11 0 25
        6 65535 0 0 28
        4 0 0 0 60000",
        "0 1
        0 1
        3 0 0 0 1
        3 0 9 0 1
        0 0 0 2159998 1
        11 0 0 2159998 1
        0 0 0 2159999 1
        16 0 0 2159999 1
        0 0 0 2159999 1
        11 0 0 2159999 1
        3 0 0 2159999 1
        9 0 22 2159999 1
        0 23 0 2159999 2
        23:59:59:24 65535 sync
        9 0 24 2159999 2
        0 25 0 2159999 2
        23:59:59:24 0 refused-11
        0 28 0 2159999 2
        23:59:59:24 65535 refused-0
        16 0 60000 2159999 2",
    );
}

#[test]
fn what_is_no_call() {
    #[rustfmt::skip]
    let lines = [
        "", "0", "0 0 0 0", "0 0 0 0 0 0", "7 0 0 0 0", "0 1 0 0 0", "0 0 0 0 1", "1 65536 0 0 0",
        "1 1 256 0 0", "1 1 1 1 0", "1 1 1 0 1", "2 301 0 0 0", "2 2 2 0 0", "3 1 1 8 0",
        "3 65536 1 0 0", "4 1 0 0 0", "5 4294967296 0 0 0", "6 1 100 0 0", "6 65536 1 0 0",
        "04 0 0 0 0", "4 00 0 0 0", "4 0 0 0 50000001", "4 0 0 0 -1", "4 0 0 0 0 ", "a 0 0 0 0",
    ];
    for line in lines {
        let text = format!("0\t0\t0\t0\t0\n{}\n", line.replace(' ', "\t"));
        assert_eq!(calls::read(text.as_bytes()), Err(2), "{line}");
    }
    assert_eq!(calls::read(b"4\t0\t0\t0\t0"), Err(1));
    let early = calls::read(b"0\t0\t0\t0\t0\n4\t0\t0\t0\t0\n").expect("calls");
    assert_eq!(calls::answers(&early), Err(2));
}

// The made lists

/// A call of a list, with what was there before it and its answer.
struct Seen {
    call: Call,
    table: Vec<(u16, u8)>,
    /// Digits in rising identity.
    roles: Vec<u8>,
    frame: u32,
    period: u32,
    /// Bytes that it would write, if only the slice is long enough.
    need: usize,
    answer: Option<Answer>,
}

impl Seen {
    fn number(&self) -> u8 {
        self.answer.as_ref().map_or(0, Answer::number)
    }

    fn text(&self) -> &str {
        match &self.answer {
            Some(Answer::Call { written, .. }) => std::str::from_utf8(written).expect("plain text"),
            _ => "",
        }
    }

    /// The role of a server before the call.
    fn role(&self, identity: u16) -> Option<u8> {
        let mut table = self.table.clone();
        table.sort_unstable();
        let place = table.iter().position(|server| server.0 == identity)?;
        self.roles.get(place).copied()
    }

    /// 0 to 7 for the verbs, and then the other calls.
    fn kind(&self) -> Option<usize> {
        match self.call.what {
            What::Act { verb, .. } => Verb::ALL.iter().position(|&known| known == verb),
            What::Frame => Some(8),
            What::Time { .. } => Some(9),
            What::Refused { .. } => Some(10),
            _ => None,
        }
    }
}

fn watch(list: &[Call]) -> Vec<Seen> {
    let mut plain = Plain::default();
    let mut seen = Vec::new();
    for &call in list {
        let table = plain.table.clone();
        let mut now =
            Seen { call, table, roles: Vec::new(), frame: 0, period: 0, need: 0, answer: None };
        if let Some(channel) = &plain.channel {
            now.roles = channel.servers.iter().map(|server| role_digit(server.role)).collect();
            now.frame = channel.frame;
            now.period = channel.period;
        }
        if call.what.is_call() {
            let channel = plain.channel.as_ref().expect("a channel before its calls");
            let outcome = outcome(channel, call.what);
            now.need = outcome.as_ref().map_or(0, |(_, text)| text.len());
            now.answer = Some(plain.settle(outcome, call.len));
        } else {
            now.answer = plain.answer(&call);
        }
        seen.push(now);
    }
    seen
}

const COUNT: u64 = 300;

/// The lists of seed 1, made and watched once for all tests.
fn all() -> &'static Vec<Vec<Seen>> {
    static ALL: OnceLock<Vec<Vec<Seen>>> = OnceLock::new();
    ALL.get_or_init(|| lists(1, COUNT).iter().map(|list| watch(list)).collect())
}

fn each() -> impl Iterator<Item = &'static Seen> {
    all().iter().flatten()
}

fn how_many(wanted: impl Fn(&Seen) -> bool) -> usize {
    each().filter(|seen| wanted(seen)).count()
}

/// Prints the count, which is seen with `--nocapture`, and needs it to be enough.
fn at_least(least: usize, what: &str, wanted: impl Fn(&Seen) -> bool) {
    let count = how_many(wanted);
    println!("{count:6} {what}");
    assert!(count >= least, "{what}: {count} is less than {least}");
}

/// The same for lists.
fn lists_at_least(least: usize, what: &str, wanted: impl Fn(&[Seen]) -> bool) {
    let count = all().iter().filter(|list| wanted(list)).count();
    println!("{count:6} lists: {what}");
    assert!(count >= least, "{what}: {count} is less than {least}");
}

#[test]
fn lists_have_their_form() {
    assert_eq!(all().len() as u64, COUNT);
    let mut text = 0;
    let mut answers = 0;
    for (number, seen) in all().iter().enumerate() {
        let list: Vec<Call> = seen.iter().map(|seen| seen.call).collect();
        assert!((LEAST_CALLS..=MOST_CALLS).contains(&list.len()), "{}", list.len());
        assert_eq!(list[0].what, What::Table);
        assert_eq!(list.iter().filter(|call| call.what == What::Table).count(), 1);
        assert!(list.iter().all(|call| call.len <= MOST_LENT));
        // no server is added to a table that has its channel
        for seen in seen {
            assert!(seen.period == 0 || !matches!(seen.call.what, What::Server { .. }));
        }
        let written = calls::write(&list);
        assert_eq!(calls::read(&written).as_ref(), Ok(&list));
        text += written.len();
        let answered: Vec<u8> =
            seen.iter().flat_map(|seen| seen.answer.iter()).flat_map(Answer::text).collect();
        if number < 20 {
            assert_eq!(calls::answers(&list), Ok(answered.clone()));
        }
        answers += answered.len();
    }
    println!("{text} bytes of lists, {answers} bytes of answers");
    assert!(text + answers < 1_500_000);
    // the same again from the same seed, and others from another
    let first: Vec<Vec<Call>> = lists(1, 20);
    for (list, seen) in first.iter().zip(all()) {
        assert!(list.iter().eq(seen.iter().map(|seen| &seen.call)));
    }
    assert!(lists(2, 20).iter().zip(&first).all(|(list, other)| list != other));
}

#[test]
fn every_refusal_is_written() {
    let written = |seen: &Seen| match seen.call.what {
        What::Refused { number, .. } => Some(number),
        _ => None,
    };
    assert!(each().filter_map(written).all(|number| REFUSALS.contains(&number)));
    for number in REFUSALS {
        at_least(1, &format!("refused-{number} written"), |seen| {
            written(seen) == Some(number) && seen.number() == 0
        });
    }
}

#[test]
fn every_verb_meets_every_role() {
    let mut counts: BTreeMap<(usize, u8, u8), usize> = BTreeMap::new();
    for seen in each() {
        let What::Act { verb, first, second } = seen.call.what else { continue };
        let (Some(kind), Some(role)) = (seen.kind(), seen.role(first)) else { continue };
        let good_second = !verb.has_two() || (first != second && seen.role(second).is_some());
        if good_second {
            *counts.entry((kind, role, seen.number())).or_default() += 1;
        }
    }
    for (kind, verb) in Verb::ALL.into_iter().enumerate() {
        for role in 0..6 {
            let got: Vec<(u8, usize)> = counts
                .range((kind, role, 0)..=(kind, role, u8::MAX))
                .map(|(&(_, _, number), &count)| (number, count))
                .collect();
            println!("{:8} on role {role}: {got:?}", verb.word());
            let wanted: &[u8] = match (verb, role) {
                (Verb::Cut | Verb::Mend, _) => &[0, 15],
                (Verb::Restart, 0) | (Verb::Start, 1) | (Verb::Ready, 2) | (Verb::Unready, 3) => {
                    &[0]
                }
                (Verb::Restart, _) => &[13],
                (_, 0) => &[12],
                (Verb::Crash, _) | (Verb::Pass, 5) => &[0],
                _ => &[14],
            };
            for &number in wanted {
                assert!(counts.get(&(kind, role, number)).is_some_and(|&count| count >= 2));
            }
            // and nothing but these, and 9 for those that are allowed
            for (number, _) in got {
                assert!(wanted.contains(&number) || (number == 9 && wanted.contains(&0)));
            }
        }
    }
}

#[test]
fn every_number_occurs() {
    let numbers: [(&str, &[u8]); 14] = [
        ("start", &[0, 2, 8, 9, 12, 14]),
        ("ready", &[0, 2, 8, 9, 12, 14]),
        ("unready", &[0, 2, 8, 9, 12, 14]),
        ("pass", &[0, 2, 8, 9, 12, 14]),
        ("crash", &[0, 2, 8, 9, 12]),
        ("restart", &[0, 2, 8, 9, 13]),
        ("cut", &[0, 2, 8, 9, 15]),
        ("mend", &[0, 2, 8, 9, 15]),
        ("by one", &[0, 9, 16]),
        ("to a time", &[0, 3, 9, 11]),
        ("refusal", &[0, 9]),
        ("server", &[0, 2, 5, 6]),
        ("fresh", &[0, 2, 6, 7]),
        ("table", &[0]),
    ];
    let mut counts: BTreeMap<(usize, u8), usize> = BTreeMap::new();
    for seen in each() {
        let kind = seen.kind().unwrap_or(match seen.call.what {
            What::Server { .. } => 11,
            What::Fresh { .. } => 12,
            _ => 13,
        });
        *counts.entry((kind, seen.number())).or_default() += 1;
    }
    for (kind, (name, wanted)) in numbers.into_iter().enumerate() {
        let got: Vec<(u8, usize)> = counts
            .range((kind, 0)..=(kind, u8::MAX))
            .map(|(&(_, number), &count)| (number, count))
            .collect();
        println!("{name}: {got:?}");
        assert_eq!(got.iter().map(|pair| pair.0).collect::<Vec<u8>>(), wanted, "{name}");
        assert!(got.iter().all(|pair| pair.1 >= 3), "{name}");
    }
}

#[test]
fn identities_that_are_nought_absent_or_the_same() {
    // first, second: 0 nobody, 1 in the table, 2 absent; or both the same
    let sort = |seen: &Seen| {
        let What::Act { verb, first, second } = seen.call.what else { return None };
        let of = |identity: u16| match seen.role(identity) {
            _ if identity == 0 => 0,
            Some(_) => 1,
            None => 2,
        };
        Some((verb, of(first), of(second), first == second))
    };
    for wanted in Verb::ALL {
        let word = wanted.word();
        let count =
            |least: usize, what: &str, first: u32, second: Option<u32>, same: bool, number: u8| {
                at_least(least, &format!("{word}: {what} gets {number}"), |seen| {
                    sort(seen).is_some_and(|(verb, one, other, equal)| {
                        verb == wanted
                            && one == first
                            && second.is_none_or(|second| second == other)
                            && (!verb.has_two() || equal == same)
                    }) && seen.number() == number
                });
            };
        if wanted.has_two() {
            count(2, "nobody first", 0, Some(1), false, 2);
            count(2, "nobody second", 1, Some(0), false, 2);
            count(2, "nobody and absent", 0, Some(2), false, 2);
            count(2, "absent and nobody", 2, Some(0), false, 2);
            count(1, "nobody twice", 0, Some(0), true, 2);
            count(2, "absent first", 2, Some(1), false, 8);
            count(2, "absent second", 1, Some(2), false, 8);
            count(1, "absent twice", 2, Some(2), true, 8);
            count(1, "two that are absent", 2, Some(2), false, 8);
            count(2, "the same twice", 1, Some(1), true, 8);
        } else {
            count(2, "nobody", 0, None, false, 2);
            count(2, "absent", 2, None, false, 8);
            count(2, "second is nobody", 1, Some(0), false, 0);
            count(2, "second is absent", 1, Some(2), false, 0);
        }
    }
}

#[test]
fn slices_too_short_and_just_long_enough() {
    for kind in 0..11 {
        let name = Verb::ALL
            .get(kind)
            .map_or(["by one", "to a time", "refusal"][kind.max(8) - 8], |verb| verb.word());
        let writes = move |seen: &Seen| seen.kind() == Some(kind) && seen.need > 0;
        at_least(5, &format!("{name}: one byte too short"), |seen| {
            writes(seen) && seen.call.len + 1 == seen.need && seen.number() == 9
        });
        at_least(5, &format!("{name}: just long enough"), |seen| {
            writes(seen) && seen.call.len == seen.need && seen.number() == 0
        });
        at_least(5, &format!("{name}: one byte more"), |seen| {
            writes(seen) && seen.call.len == seen.need + 1 && seen.number() == 0
        });
        at_least(5, &format!("{name}: longer"), |seen| {
            writes(seen) && seen.call.len > seen.need + 1 && seen.number() == 0
        });
    }
    at_least(3, "advance over several frames with lines, too short by one", |seen| {
        matches!(seen.call.what, What::Time { time } if time > seen.frame + 1)
            && seen.need > 100
            && seen.call.len + 1 == seen.need
    });
    at_least(1, "more than any slice takes", |seen| seen.need > MOST_LENT && seen.number() == 9);
    at_least(20, "nothing written, nothing lent, accepted", |seen| {
        seen.kind().is_some() && seen.need == 0 && seen.call.len == 0 && seen.number() == 0
    });
    for number in [2, 3, 8, 11, 12, 13, 14, 15, 16] {
        at_least(5, &format!("{number} with nothing lent"), |seen| {
            seen.kind().is_some() && seen.call.len == 0 && seen.number() == number
        });
        at_least(5, &format!("{number} with much lent"), |seen| {
            seen.call.len == MOST_LENT && seen.number() == number
        });
    }
    // a refusal leaves the whole slice
    for seen in each() {
        if let Some(Answer::Call { number, written, kept, .. }) = &seen.answer {
            assert!(*number == 0 || (written.is_empty() && *kept == seen.call.len));
            assert_eq!(written.len() + kept, seen.call.len);
            assert_eq!(*number == 9, seen.call.len < seen.need);
        }
    }
}

#[test]
fn times_of_all_sorts() {
    let to = |seen: &Seen| match seen.call.what {
        What::Time { time } => Some(time),
        _ => None,
    };
    at_least(20, "to the frame before: 11", |seen| {
        seen.frame > 0 && to(seen) == Some(seen.frame - 1) && seen.number() == 11
    });
    at_least(5, "back to 0: 11", |seen| to(seen) == Some(0) && seen.number() == 11);
    at_least(20, "to the present frame", |seen| {
        to(seen) == Some(seen.frame) && seen.number() == 0 && seen.need == 0
    });
    at_least(20, "one past the day: 3", |seen| {
        to(seen) == Some(LAST_FRAME + 1) && seen.number() == 3
    });
    at_least(20, "far outside: 3", |seen| to(seen) == Some(u32::MAX) && seen.number() == 3);
    at_least(3, "nearly as far: 3", |seen| {
        to(seen).is_some_and(|time| time > LAST_FRAME + 1 && time < u32::MAX) && seen.number() == 3
    });
    at_least(20, "over four periods or more, with lines", |seen| {
        to(seen).is_some_and(|time| time >= seen.frame + 4 * seen.period)
            && seen.number() == 0
            && seen.need > 0
    });
}

#[test]
fn calls_at_the_last_frame() {
    let last = |seen: &Seen| seen.kind().is_some() && seen.frame == LAST_FRAME;
    at_least(20, "16", |seen| last(seen) && seen.number() == 16);
    for kind in 0..8 {
        let name = Verb::ALL[kind].word();
        at_least(1, &format!("last frame: {name} accepted"), |seen| {
            last(seen) && seen.kind() == Some(kind) && seen.number() == 0
        });
        at_least(2, &format!("last frame: {name} refused"), |seen| {
            last(seen) && seen.kind() == Some(kind) && seen.number() != 0
        });
    }
    for number in [2, 3, 8, 9, 11, 12, 13, 14, 15] {
        at_least(2, &format!("last frame: {number}"), |seen| last(seen) && seen.number() == number);
    }
    at_least(10, "last frame: to the present frame", |seen| {
        last(seen) && seen.kind() == Some(9) && seen.number() == 0
    });
    at_least(5, "last frame: a refusal written", |seen| {
        last(seen) && seen.kind() == Some(10) && seen.number() == 0
    });
    at_least(5, "by one into the last frame", |seen| {
        seen.kind() == Some(8) && seen.frame == LAST_FRAME - 1 && seen.number() == 0
    });
    for role in 0..6 {
        lists_at_least(2, &format!("role {role} at the last frame"), |list| {
            list.iter().any(|seen| last(seen) && seen.roles.contains(&role))
        });
    }
}

#[test]
fn links_passes_and_elections() {
    let has = |list: &[Seen], word: &str| {
        list.iter().any(|seen| seen.text().lines().any(|line| line.ends_with(word)))
    };
    for (least, word) in [
        (200, "\tprimary"),
        (200, "\tprospect"),
        (200, "\treveal"),
        (200, "\tbeat"),
        (50, "\tpass"),
        (30, "\tlower"),
        (50, "\tcut"),
        (50, "\tmended"),
        (100, "\tdown"),
        (50, "\tidle"),
    ] {
        lists_at_least(least, &format!("with{}", word.replace('\t', " ")), |list| has(list, word));
        let lines: usize = each()
            .map(|seen| seen.text().lines().filter(|line| line.ends_with(word)).count())
            .sum();
        println!("{lines:6} lines{}", word.replace('\t', " "));
    }
    lists_at_least(60, "three primaries chosen or more", |list| {
        list.iter().map(|seen| seen.text().matches("\tprimary\n").count()).sum::<usize>() >= 3
    });
    let primaries = |seen: &Seen| seen.roles.iter().filter(|&&role| role == 5).count();
    lists_at_least(20, "two primaries at once", |list| list.iter().any(|seen| primaries(seen) > 1));
    lists_at_least(5, "three primaries at once", |list| {
        list.iter().any(|seen| primaries(seen) > 2)
    });
    for verb in [Verb::Cut, Verb::Mend] {
        at_least(10, &format!("{} with two primaries", verb.word()), |seen| {
            matches!(seen.call.what, What::Act { verb: known, .. } if known == verb)
                && primaries(seen) > 1
                && seen.number() == 0
        });
        lists_at_least(15, &format!("{} in both directions", verb.word()), |list| {
            let links: Vec<(u16, u16)> = list
                .iter()
                .filter_map(|seen| match seen.call.what {
                    What::Act { verb: known, first, second }
                        if known == verb && seen.number() == 0 =>
                    {
                        Some((first, second))
                    }
                    _ => None,
                })
                .collect();
            links.iter().any(|&(from, to)| links.contains(&(to, from)))
        });
    }
    for role in 0..6 {
        at_least(3, &format!("pass to role {role}"), |seen| {
            let What::Act { verb: Verb::Pass, second, .. } = seen.call.what else { return false };
            seen.role(second) == Some(role) && seen.number() == 0
        });
    }
    lists_at_least(25, "all priorities equal, with a primary", |list| {
        let table = &list[list.len() - 1].table;
        table.len() > 1
            && table.iter().all(|server| server.1 == table[0].1)
            && has(list, "\tprimary")
    });
}

/// The kinds of replies in the frames that a list plays.
fn replies(list: &[Seen]) -> Vec<&'static str> {
    let mut plain = Plain::default();
    let mut found = Vec::new();
    for seen in list {
        let goal = match seen.call.what {
            What::Frame => seen.frame + 1,
            What::Time { time } => time,
            _ => 0,
        };
        let mut channel = plain.channel.clone();
        plain.answer(&seen.call);
        if let (Some(channel), 0) = (&mut channel, seen.number()) {
            let mut again: Vec<usize> = Vec::new();
            while channel.frame < goal {
                let replied = reply_tests::advance(channel, &mut Vec::new());
                found.extend(replied.iter().flat_map(|reply| kinds(reply, &again)));
                again = replied.iter().map(|reply| reply.place).collect();
            }
        }
    }
    found
}

#[test]
fn reveals_get_replies() {
    let found: Vec<Vec<&str>> = all().iter().map(|list| replies(list)).collect();
    let lists = found.iter().filter(|kinds| !kinds.is_empty()).count();
    println!("{lists:6} lists with a reply");
    assert!(lists as u64 >= COUNT / 2, "{lists}");
    for kind in KINDS {
        let lists = found.iter().filter(|kinds| kinds.contains(&kind)).count();
        println!("{lists:6} lists: reply {kind}");
        assert!(lists >= 3, "{kind}: {lists}");
    }
}

#[test]
fn tables_and_periods() {
    for count in [1, 2, 3, 5, 16] {
        at_least(10, &format!("{count} servers"), |seen| {
            matches!(seen.call.what, What::Fresh { .. })
                && seen.table.len() == count
                && seen.number() == 0
        });
    }
    let server = |seen: &Seen| match seen.call.what {
        What::Server { identity, .. } => Some(identity),
        _ => None,
    };
    for (number, full) in [(2, false), (5, false), (2, true), (5, true), (6, true)] {
        let what = if full { "a seventeenth server" } else { "a server" };
        at_least(3, &format!("{what}: {number}"), |seen| {
            server(seen).is_some() && (seen.table.len() == 16) == full && seen.number() == number
        });
    }
    let period = |seen: &Seen| match seen.call.what {
        What::Fresh { period } => Some(period),
        _ => None,
    };
    for (wanted, number) in [(0, 2), (1, 2), (2, 0), (250, 0), (251, 2), (300, 2)] {
        at_least(3, &format!("period {wanted}: {number}"), |seen| {
            period(seen) == Some(wanted) && seen.number() == number
        });
    }
    at_least(3, "a period below the servers, within its range: 7", |seen| {
        period(seen).is_some_and(|period| (period as usize) + 1 == seen.table.len())
            && seen.number() == 7
    });
    at_least(30, "a period that is the number of servers", |seen| {
        period(seen) == Some(seen.table.len() as u32) && seen.number() == 0
    });
    at_least(3, "no server: 6", |seen| period(seen).is_some() && seen.number() == 6);
    at_least(3, "no server, and a period out of range: 2", |seen| {
        period(seen).is_some() && seen.table.is_empty() && seen.number() == 2
    });
    lists_at_least(3, "a refused period, then more servers", |list| {
        list.windows(2).any(|pair| {
            period(&pair[0]).is_some()
                && pair[0].number() == 7
                && server(&pair[1]).is_some()
                && pair[1].number() == 0
        })
    });
    let fresh = |seen: &&Seen| period(seen).is_some() && seen.number() == 0;
    lists_at_least(10, "more than one fresh channel", |list| list.iter().filter(fresh).count() > 1);
    lists_at_least(3, "a channel that goes on after a refused period", |list| {
        list.windows(2).any(|pair| {
            period(&pair[0]).is_some()
                && pair[0].number() != 0
                && pair[0].period > 0
                && pair[1].kind().is_some()
        })
    });
    let table = |list: &[Seen]| -> Vec<u16> {
        let last = &list[list.len() - 1];
        last.table.iter().map(|server| server.0).collect()
    };
    let rises = |table: &[u16]| table.windows(2).all(|pair| pair[0] < pair[1]);
    let falls = |table: &[u16]| table.windows(2).all(|pair| pair[0] > pair[1]);
    for count in [2, 3, 5, 16] {
        lists_at_least(1, &format!("{count} servers in rising identity"), |list| {
            table(list).len() == count && rises(&table(list))
        });
        lists_at_least(1, &format!("{count} servers in falling identity"), |list| {
            table(list).len() == count && falls(&table(list))
        });
        if count > 2 {
            lists_at_least(1, &format!("{count} servers in another order"), |list| {
                table(list).len() == count && !rises(&table(list)) && !falls(&table(list))
            });
        }
    }
    let identities = [1, 2, 9, 10, 99, 100, 9_999, 10_000, 65_535];
    for identity in identities {
        lists_at_least(2, &format!("identity {identity}"), |list| table(list).contains(&identity));
    }
}

// Both programs

#[test]
fn both_programs_give_the_same_answers() {
    let first: Vec<Call> = each().map(|seen| seen.call).collect();
    assert_eq!(compare(&first), None);
    for seed in 2..=3 {
        assert_eq!(compare(&lists(seed, 60).concat()), None, "seed {seed}");
    }
}

/// Runs in place as the benchmark does, against the plain answers.
fn expect_run(calls: &[Call]) {
    let mut wanted = Sum::new();
    let mut numbers = Vec::new();
    let mut plain = Plain::default();
    for answer in calls.iter().filter_map(|call| plain.answer(call)) {
        numbers.push(answer.number());
        match &answer {
            Answer::Table { number, .. } => wanted.add(*number, &[]),
            Answer::Call { number, written, .. } => wanted.add(*number, written),
        }
    }
    let most = calls.iter().map(|call| call.len).max().unwrap_or(0);
    let mut buffer = vec![0; most];
    let mut sum = Sum::new();
    let got = fast::run(calls, &mut buffer, |number, written| sum.add(number, written));
    assert_eq!(got, numbers);
    assert_eq!(sum, wanted);
    assert!(bench::time(calls).2 == sum);
}

#[test]
fn short_benchmarks_agree() {
    expect_run(&lists(1, 40).concat());
    for (case, last) in [
        (Case::A, 30_000),
        (Case::B, 120_000),
        (Case::B, 710_000),
        (Case::C, 30_000),
        (Case::D, 5_500),
    ] {
        let calls = bench::list(case, last);
        assert_eq!(compare(&calls), None, "{case:?}");
        expect_run(&calls);
        // most are accepted, and with slices that are hardly long enough too
        let seen = watch(&calls);
        let verbs = seen.iter().filter(|seen| seen.kind().is_some_and(|kind| kind < 8)).count();
        let refused = seen.iter().filter(|seen| seen.number() != 0).count();
        println!("{case:?} to {last}: {verbs} verbs, {refused} refused");
        assert!(refused * 20 < verbs);
        let tight: Vec<Call> =
            seen.iter().map(|seen| Call { what: seen.call.what, len: seen.need }).collect();
        assert_eq!(compare(&tight), None, "{case:?}");
        for (seen, tight) in seen.iter().zip(watch(&tight)) {
            assert_eq!(seen.number(), tight.number());
        }
    }
}

#[test]
fn short_single_calls_agree() {
    for (gap, last) in [(100, 20_000), (1, 10_000)] {
        let calls = bench::frame_by_frame(gap, last);
        assert_eq!(compare(&calls), None, "an entry every {gap} frames");
        expect_run(&calls);
    }
}

/// The day of a case as a file: what its calls write, and a line for each that is refused.
#[test]
fn short_benchmark_days_are_their_lists() {
    for (case, last) in [(Case::A, 30_000), (Case::B, 210_000), (Case::C, 30_000), (Case::D, 5_500)]
    {
        let mut written = Vec::new();
        let mut buffer = vec![0; calls::MOST_LENT];
        fast::run(&bench::list(case, last), &mut buffer, |_, lines| {
            written.extend_from_slice(lines);
        });
        let sheet = day::sheet(&bench::day(case, last));
        let lines = sheet.split_inclusive(|&byte| byte == b'\n');
        let done = |line: &&[u8]| !line.windows(9).any(|word| word == b"\trefused-");
        let kept: Vec<u8> = lines.skip(1).filter(done).flatten().copied().collect();
        assert!(kept == written, "{case:?}");
    }
}

#[test]
fn no_advance_writes_more_than_its_bound() {
    let mut list = lists(1, 100).concat();
    list.extend(bench::list(Case::A, 30_000));
    list.extend(bench::list(Case::D, 2_000));
    list.extend(everybody_passes());
    let mut state = fast::Calls::new();
    let most = list.iter().map(|call| call.len).max().unwrap_or(0);
    let mut buffer = vec![0; most];
    for call in &list {
        let frames = match call.what {
            What::Frame => 1,
            What::Time { time } => time.saturating_sub(state.frame()),
            _ => 0,
        };
        let bound = state.most_bytes(frames);
        if let (Ok(written), true) = (state.call(call.what, &mut buffer[..call.len]), frames > 0) {
            assert!(written as u64 <= bound);
        }
    }
}

/// Sixteen primaries that hear nobody pass to the lowest in the frame of their beats; it hears two
/// heartbeats of each, and has given up itself.
fn everybody_passes() -> Vec<Call> {
    let call = |what: What| Call { what, len: MOST_LENT };
    let act = |verb, first, second| call(What::Act { verb, first, second });
    let mut list = vec![Call { what: What::Table, len: 0 }];
    for identity in 1..=16 {
        let priority = identity as u8;
        list.push(Call { what: What::Server { identity, priority }, len: 0 });
    }
    list.push(Call { what: What::Fresh { period: 16 }, len: 0 });
    for from in 1..=16 {
        list.extend((1..=16).filter(|&to| to != from).map(|to| act(Verb::Cut, from, to)));
        list.push(act(Verb::Start, from, 0));
        list.push(act(Verb::Ready, from, 0));
    }
    list.push(call(What::Time { time: 80 }));
    list.push(act(Verb::Pass, 1, 2));
    for from in 2..=16 {
        list.push(act(Verb::Mend, from, 1));
        list.push(act(Verb::Mend, 1, from));
        list.push(act(Verb::Pass, from, 1));
    }
    list.push(call(What::Frame));
    list.push(call(What::Frame));
    list.push(call(What::Time { time: 200 }));
    list
}

#[test]
fn everybody_passes_to_the_lowest() {
    let list = everybody_passes();
    assert_eq!(compare(&list), None);
    let seen = watch(&list);
    assert!(seen.iter().all(|seen| seen.number() == 0));
    let heard = &seen[seen.len() - 3];
    // the beat of the highest finds a backup, each later beat a prospect
    assert_eq!(heard.text().matches("\t1\tprospect\n").count(), 15);
    assert_eq!(heard.text().matches("\t1\tbeat\n").count(), 15);
    assert_eq!(heard.text().matches("\t1\tbackup\n").count(), 14);
}

/// "Before an entry it advances to the entry's time", and "the sheet line of a refusal is written
/// by a call after it": a sheet is what its calls write.
#[test]
fn days_are_lists_of_calls() {
    let mut days: Vec<Vec<u8>> = (1..=400).map(generate::day).collect();
    days.push(long::long_day(5, 16, 5_000));
    let mut whole = 0;
    for text in days {
        let sheet = String::from_utf8(day::sheet(&text)).expect("plain text");
        if sheet.contains("line\t") {
            continue;
        }
        whole += 1;
        let text = String::from_utf8(text).expect("plain text");
        assert_eq!(sheet, format!("time\tserver\twhat\n{}", sheet_by_calls(&text)));
    }
    println!("{whole} days");
    assert!(whole > 200);
}

fn sheet_by_calls(text: &str) -> String {
    const MUCH: usize = 50_000_000;
    let mut plain = Plain::default();
    let mut list = Vec::new();
    let mut sheet = Vec::new();
    let mut call = |what: What| -> u8 {
        let call = Call { what, len: if what.is_call() { MUCH } else { 0 } };
        list.push(call);
        match plain.answer(&call) {
            Some(Answer::Call { number, written, .. }) => {
                sheet.extend(written);
                number
            }
            _ => 0,
        }
    };
    call(What::Table);
    let mut period = 0;
    let mut begun = false;
    for line in text.lines() {
        let fields: Vec<&str> = line.split('\t').collect();
        let number = |at: usize| fields[at].parse::<u32>().expect("a number");
        match fields[0] {
            "period" => period = number(1),
            "server" => {
                call(What::Server { identity: number(1) as u16, priority: number(2) as u8 });
            }
            _ => {
                if !begun {
                    call(What::Fresh { period });
                    begun = true;
                }
                let end = fields[0] == "end";
                let time = read_timecode(fields[usize::from(end)].as_bytes()).expect("a time");
                let identity = if end { 0 } else { number(2) as u16 };
                let mut refusal = call(What::Time { time });
                if refusal == 0 && !end {
                    let verb = Verb::ALL.into_iter().find(|verb| verb.word() == fields[1]);
                    let verb = verb.expect("a verb");
                    let second = if verb.has_two() { number(3) as u16 } else { 0 };
                    refusal = call(What::Act { verb, first: identity, second });
                }
                if refusal != 0 {
                    call(What::Refused { identity, number: refusal });
                }
            }
        }
    }
    let mut buffer = vec![0; MUCH];
    let mut quick = Vec::new();
    fast::run(&list, &mut buffer, |_, written| quick.extend_from_slice(written));
    assert!(quick == sheet);
    String::from_utf8(sheet).expect("plain text")
}
