//! What the pairs of a day and a damaged sheet cover, counted.

use crate::day;
use crate::judge::judge;
use crate::pairs::{pairs, write, Length, Pair, Pairs, Way};
use std::collections::BTreeMap;

const SEEDS: [u64; 3] = [1, 2, 7];
const COUNT: usize = 300;
const MOST_BYTES: usize = 600_000;

fn lines(bytes: &[u8]) -> Vec<&[u8]> {
    bytes.split_inclusive(|&byte| byte == b'\n').collect()
}

#[test]
fn every_way_occurs_and_does_what_it_says() {
    for seed in SEEDS {
        let mut seen: BTreeMap<Way, usize> = BTreeMap::new();
        for pair in pairs(seed, COUNT) {
            *seen.entry(pair.way).or_default() += 1;
            assert_eq!(pair.due, day::sheet(&pair.day));
            assert_eq!(pair.answer().is_none(), pair.way == Way::Untouched, "{:?}", pair.way);
            check(&pair);
        }
        for way in Way::ALL {
            assert!(seen.get(&way).is_some_and(|&times| times >= COUNT / 25), "{way:?}");
        }
    }
}

/// What is known of the sheet, and of the answer, by the way alone.
fn check(pair: &Pair) {
    let (due, sheet) = (lines(&pair.due), lines(&pair.sheet));
    let answer = pair.answer().unwrap_or(0);
    let is_refused = due[due.len() - 1].starts_with(b"line\t");
    let longer = sheet.len() as i64 - due.len() as i64;
    let ends = pair.sheet.ends_with(b"\n");
    let past = due.len() + 1;
    match pair.way {
        Way::Untouched => assert_eq!(pair.sheet, pair.due),
        Way::LineDropped | Way::NoHeader | Way::RunDropped | Way::NoRefusal => {
            assert_eq!(longer, -1)
        }
        Way::LineDoubled
        | Way::SurplusLine
        | Way::EmptyLine
        | Way::RunDoubled
        | Way::TwoHeaders => assert_eq!((longer, ends), (1, true)),
        Way::LinesSwapped => assert_eq!((longer, ends), (0, true)),
        Way::ByteChanged => assert_eq!(pair.sheet.len(), pair.due.len()),
        Way::ByteLeftOut => assert_eq!(pair.sheet.len() + 1, pair.due.len()),
        Way::Truncated => assert!(pair.due.starts_with(&pair.sheet)),
        Way::NoLineFeed => assert_eq!((answer, longer, ends), (due.len(), 0, false)),
        Way::Piece => assert_eq!((answer, longer, ends), (past, 1, false)),
        Way::Returns => assert_eq!((answer, pair.sheet.len()), (1, pair.due.len() + due.len())),
        Way::OneReturn | Way::Nul => assert_eq!(pair.sheet.len(), pair.due.len() + 1),
        Way::Empty => assert_eq!((answer, pair.sheet.len()), (1, 0)),
        Way::OtherDay => {}
        Way::LongLine => assert!(sheet[answer - 1].len() > 65 && longer == 0),
        Way::LongSurplus => assert!(answer == past && sheet[due.len()].len() > 65),
        Way::AfterRefusal => assert!(answer == past && longer > 0),
    }
    match pair.way {
        Way::NoRefusal => assert!(is_refused && answer == due.len()),
        Way::AfterRefusal => assert!(is_refused),
        Way::NoHeader => assert_eq!(answer, 1),
        Way::TwoHeaders => assert_eq!(answer, 2),
        Way::RunDropped => assert_eq!(due[answer - 2], sheet[answer - 2]),
        Way::RunDoubled => assert!(sheet[answer - 1] == due[answer - 2] && answer > 3),
        Way::EmptyLine => assert_eq!(sheet[answer - 1], b"\n"),
        _ => {}
    }
}

#[test]
fn every_kind_of_answer_and_of_day_occurs() {
    for seed in SEEDS {
        let mut seen: BTreeMap<&str, usize> = BTreeMap::new();
        let mut add = |name, is_so| *seen.entry(name).or_default() += usize::from(is_so);
        for pair in pairs(seed, COUNT) {
            let due = lines(&pair.due);
            let answer = pair.answer();
            add("same", answer.is_none());
            add("line 1", answer == Some(1));
            add("a line between", answer.is_some_and(|line| 1 < line && line < due.len()));
            add("the last line", due.len() > 1 && answer == Some(due.len()));
            add("one past the last", answer == Some(due.len() + 1));
            let is_refused = due[due.len() - 1].starts_with(b"line\t");
            add("a refused day", is_refused);
            add("a day that is played", !is_refused);
            add("a refused day, same", is_refused && answer.is_none());
            add("a day that is played, same", !is_refused && answer.is_none());
            add("an empty day", pair.day.is_empty());
            add("a day without a last line feed", !lines(&pair.day).concat().ends_with(b"\n"));
            add("a NUL in the sheet", pair.sheet.contains(&0));
            add("a long sheet", pair.sheet.len() > 1_000);
        }
        for (name, least) in [
            ("same", COUNT / 25),
            ("line 1", COUNT / 10),
            ("a line between", COUNT / 10),
            ("the last line", COUNT / 10),
            ("one past the last", COUNT / 10),
            ("a refused day", COUNT / 5),
            ("a day that is played", COUNT / 5),
            ("a refused day, same", 2),
            ("a day that is played, same", 2),
            ("an empty day", 3),
            ("a day without a last line feed", COUNT / 20),
            ("a NUL in the sheet", COUNT / 25),
            ("a long sheet", 5),
        ] {
            assert!(seen[name] >= least, "{name}: {} and not {least} or more", seen[name]);
        }
    }
}

#[test]
fn the_file_is_read_back() {
    for seed in SEEDS {
        let made = pairs(seed, COUNT);
        let file = write(&made);
        assert!(file.len() < MOST_BYTES, "{} bytes", file.len());
        let mut rest = file.as_slice();
        assert_eq!(numbers(&mut rest), [COUNT]);
        for pair in &made {
            let line = numbers(&mut rest);
            let &[day, sheet, answer] = line.as_slice() else { panic!("three numbers: {line:?}") };
            let (day, left) = rest.split_at(day);
            let (sheet, left) = left.split_at(sheet);
            rest = left;
            assert_eq!((day, sheet), (pair.day.as_slice(), pair.sheet.as_slice()));
            assert_eq!(judge(day, sheet).expect("a day in memory").unwrap_or(0), answer);
        }
        assert!(rest.is_empty());
    }
}

/// The numbers of a line, which is taken off.
fn numbers(rest: &mut &[u8]) -> Vec<usize> {
    let end = rest.iter().position(|&byte| byte == b'\n').expect("a line");
    let line = std::str::from_utf8(&rest[..end]).expect("plain text");
    let numbers = line.split('\t').map(|field| field.parse().expect("a number")).collect();
    *rest = &rest[end + 1..];
    numbers
}

#[test]
fn the_same_seed_gives_the_same_pairs() {
    assert_eq!(write(&pairs(5, 40)), write(&pairs(5, 40)));
    assert_ne!(write(&pairs(5, 40)), write(&pairs(6, 40)));
    // the first of more are the same
    let few: Vec<Vec<u8>> = pairs(5, 10).into_iter().map(|pair| pair.sheet).collect();
    let more: Vec<Vec<u8>> = pairs(5, 40).into_iter().map(|pair| pair.sheet).take(10).collect();
    assert_eq!(few, more);
}

#[test]
fn every_way_suits_long_days() {
    let mut pairs = Pairs::new(3);
    let mut long = 0;
    for way in Way::ALL {
        let pair = pairs.next(Length::Long);
        assert_eq!(pair.way, way);
        check(&pair);
        long += usize::from(pair.due.len() > 100_000);
    }
    assert!(long >= Way::ALL.len() - 4, "{long}");
}
