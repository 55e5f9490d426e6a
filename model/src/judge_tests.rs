//! Each sentence of the request, on days and sheets made by hand.

use crate::day;
use crate::judge::{departure, judge, read, said};
use crate::script::timed;
use std::fs;

/// D1 of document 01, whose sheet has 13 lines.
const D1: &str = "period 2\nserver 1 10\nserver 2 20\n@0 start 1\n@0 ready 1\n@0 start 2\n\
    @0 ready 2\nend @8";
const D1_SHEET: &str = "time server what\n@0 1 sync\n@0 1 backup\n@0 2 sync\n@0 2 backup\n\
    @4 1 prospect\n@4 1 reveal\n@4 2 prospect\n@4 2 reveal\n@5 1 backup\n@5 2 beat\n@7 2 beat\n\
    @8 2 primary";
const D1_LINES: usize = 13;

fn text(text: &str) -> Vec<u8> {
    timed(text).replace(' ', "\t").into_bytes()
}

fn verdict(day: &[u8], sheet: &[u8]) -> Option<usize> {
    judge(day, sheet).expect("a day in memory")
}

/// The lines of D1's sheet, each with its line feed.
fn d1_lines() -> Vec<Vec<u8>> {
    text(D1_SHEET).split_inclusive(|&byte| byte == b'\n').map(<[u8]>::to_vec).collect()
}

fn of_d1(lines: &[Vec<u8>]) -> Option<usize> {
    verdict(&text(D1), &lines.concat())
}

#[test]
fn the_sheet_of_the_day_is_the_same_and_no_other() {
    let sheet = text(D1_SHEET);
    assert_eq!(of_d1(&d1_lines()), None);
    for at in 0..sheet.len() {
        let mut other = sheet.clone();
        other[at] ^= 1;
        let line = 1 + sheet[..at].iter().filter(|&&byte| byte == b'\n').count();
        assert_eq!(verdict(&text(D1), &other), Some(line), "byte {at}");
        assert_eq!(verdict(&text(D1), &sheet[..at]), Some(line), "the first {at} bytes");
    }
}

#[test]
fn the_header_is_line_1() {
    let mut lines = d1_lines();
    lines[0] = b"time\tserver\twhen\n".to_vec();
    assert_eq!(of_d1(&lines), Some(1));
    lines.remove(0);
    assert_eq!(of_d1(&lines), Some(1));
    let mut lines = d1_lines();
    lines.insert(0, lines[0].clone());
    assert_eq!(of_d1(&lines), Some(2));
}

#[test]
fn a_missing_line_counts_at_its_place() {
    for place in 0..D1_LINES {
        let mut lines = d1_lines();
        lines.remove(place);
        assert_eq!(of_d1(&lines), Some(place + 1));
    }
    for kept in 0..D1_LINES {
        assert_eq!(of_d1(&d1_lines()[..kept]), Some(kept + 1));
    }
}

#[test]
fn a_surplus_line_counts_at_its_own_place() {
    for place in 0..=D1_LINES {
        for surplus in [&b"\n"[..], b"00:00:00:01\t1\tlower\n", b"\0\r\n"] {
            let mut lines = d1_lines();
            lines.insert(place, surplus.to_vec());
            assert_eq!(of_d1(&lines), Some(place + 1));
        }
    }
    // also where it has no line feed
    for surplus in [&b"0"[..], b"\r", b"\0", &[b'x'; 5_000]] {
        let mut lines = d1_lines();
        lines.push(surplus.to_vec());
        assert_eq!(of_d1(&lines), Some(D1_LINES + 1));
    }
}

#[test]
fn a_line_without_its_line_feed_departs() {
    for last in 0..D1_LINES {
        let mut lines = d1_lines();
        lines.truncate(last + 1);
        lines[last].pop();
        assert_eq!(of_d1(&lines), Some(last + 1));
    }
}

#[test]
fn another_line_end_departs() {
    let returns: Vec<Vec<u8>> =
        d1_lines().iter().map(|line| [&line[..line.len() - 1], b"\r\n"].concat()).collect();
    assert_eq!(of_d1(&returns), Some(1));
    for place in 0..D1_LINES {
        let mut lines = d1_lines();
        lines[place] = returns[place].clone();
        assert_eq!(of_d1(&lines), Some(place + 1));
    }
}

#[test]
fn the_sheet_of_a_refused_day_ends_with_its_refusal() {
    let day = text("period 2\nserver 1 1\n@0 start 1\n@0 ready 9\nend @4");
    let lines = ["time server what\n", "@0 1 sync\n", "line 4 refused-8\n"].map(text);
    assert_eq!(day::sheet(&day), lines.concat());
    assert_eq!(verdict(&day, &lines.concat()), None);
    assert_eq!(verdict(&day, &lines[..2].concat()), Some(3));
    let after = [lines.concat(), text("@4 1 backup")].concat();
    assert_eq!(verdict(&day, &after), Some(4));
    // what follows the refusal in the day does not matter
    let longer = [day.as_slice(), b"\0\n", &day].concat();
    assert_eq!(verdict(&longer, &lines.concat()), None);
}

#[test]
fn no_day_is_an_empty_day() {
    let sheet = text("time server what\nline 1 refused-4");
    assert_eq!(verdict(b"", &sheet), None);
    assert_eq!(verdict(b"", b"time\tserver\twhat\n"), Some(2));
    assert_eq!(verdict(b"", b""), Some(1));
    assert_eq!(verdict(&text(D1), b""), Some(1));
}

#[test]
fn of_a_run_of_equal_lines_the_place_after_those_that_are_right() {
    let day = text("period 2\nserver 1 1\n@0 ready 1\n@0 ready 1\n@0 ready 1\n@0 start 1\nend @0");
    let head = text("time server what");
    let equal = text("@0 1 refused-14");
    let tail = text("@0 1 sync");
    let sheet = |times: usize| [head.clone(), equal.repeat(times), tail.clone()].concat();
    assert_eq!(verdict(&day, &sheet(3)), None);
    // one missing: the last of the run; one too many: the place after it
    assert_eq!(verdict(&day, &sheet(2)), Some(4));
    assert_eq!(verdict(&day, &sheet(4)), Some(5));
}

#[test]
fn what_is_said() {
    assert_eq!(said(None), "same\n");
    assert_eq!(said(Some(57)), "57\n");
    assert_eq!(departure(b"", b""), None);
}

#[test]
fn a_file_that_cannot_be_opened_counts_as_empty() {
    let folder = std::env::temp_dir().join(format!("judge-{}", std::process::id()));
    fs::create_dir_all(&folder).expect("a folder");
    let name = |file: &str| folder.join(file).to_str().expect("plain").to_string();
    fs::write(name("sheet"), D1).expect("a file");
    assert_eq!(read(&name("sheet")).expect("a file"), D1.as_bytes());
    assert_eq!(read(&name("day")).expect("no file"), b"");
    assert_eq!(read(&name("sheet/day")).expect("no file"), b"");
    assert_eq!(read(folder.to_str().expect("plain")).expect("a folder"), b"");
    fs::remove_dir_all(&folder).expect("the folder");
}
