//! A sheet, read: for each server the roles it entered and its other lines.

use crate::words::count;
use std::fmt;

pub const FRAMES_A_SECOND: u32 = 25;
const MOST_SERVERS: usize = 16;
const HEADER: [&[u8]; 3] = [b"time", b"server", b"what"];

#[derive(Clone, Copy, Debug, PartialEq, Eq)]
pub enum Role {
    Primary,
    Prospect,
    Backup,
    Sync,
    Idle,
    Down,
}

impl Role {
    /// In the order in which a column of several roles is filled, from the bottom.
    pub const ALL: [Role; 6] =
        [Role::Primary, Role::Prospect, Role::Backup, Role::Sync, Role::Idle, Role::Down];

    pub fn word(self) -> &'static str {
        match self {
            Role::Primary => "primary",
            Role::Prospect => "prospect",
            Role::Backup => "backup",
            Role::Sync => "sync",
            Role::Idle => "idle",
            Role::Down => "down",
        }
    }
}

/// What a line tells if it is no role.
#[derive(Clone, Copy, Debug, PartialEq, Eq)]
pub enum Kind {
    Beat,
    Lower,
    Reveal,
    Pass,
    Cut,
    Mended,
    Refused,
}

impl Kind {
    pub const ALL: [Kind; 7] =
        [Kind::Beat, Kind::Lower, Kind::Reveal, Kind::Pass, Kind::Cut, Kind::Mended, Kind::Refused];

    /// The word of the sheet; a refusal has its number after it.
    pub fn word(self) -> &'static str {
        match self {
            Kind::Beat => "beat",
            Kind::Lower => "lower",
            Kind::Reveal => "reveal",
            Kind::Pass => "pass",
            Kind::Cut => "cut",
            Kind::Mended => "mended",
            Kind::Refused => "refused-",
        }
    }
}

#[derive(Clone, Copy, Debug, PartialEq, Eq)]
pub enum Word {
    Role(Role),
    Mark(Kind),
    Refused(u8),
}

#[derive(Clone, Copy, Debug, PartialEq, Eq)]
pub enum Line {
    /// Identity 0 is the day's `end`, which can only be refused.
    Server { frame: u32, identity: u16, word: Word },
    /// A refusal of the day's line with this number; it ends the sheet.
    Input { line: u32, number: u8 },
}

#[derive(Clone, Copy, Debug, PartialEq, Eq)]
pub struct Mark {
    pub frame: u32,
    /// Of a refusal, else 0.
    pub number: u8,
}

/// The lines of one server, in the order of the sheet.
#[derive(Debug)]
pub struct Row {
    pub identity: u16,
    pub roles: Vec<(u32, Role)>,
    marks: [Vec<Mark>; Kind::ALL.len()],
}

impl Row {
    fn new(identity: u16) -> Row {
        Row { identity, roles: Vec::new(), marks: Default::default() }
    }

    pub fn marks(&self, kind: Kind) -> &[Mark] {
        &self.marks[kind as usize]
    }

    fn add(&mut self, frame: u32, word: Word) {
        let (kind, number) = match word {
            Word::Role(role) => return self.roles.push((frame, role)),
            Word::Mark(kind) => (kind, 0),
            Word::Refused(number) => (Kind::Refused, number),
        };
        self.marks[kind as usize].push(Mark { frame, number });
    }
}

/// Where the line that departs stands in the picture.
#[derive(Clone, Copy, Debug, PartialEq, Eq)]
pub enum Place {
    /// It is line 1.
    Header,
    Frame(u32),
    /// It is the refusal that ends the sheet, or no line of a sheet.
    NoTime,
    /// The sheet has ended before it.
    End,
}

/// The first line at which a sheet is not that of its day.
#[derive(Clone, Copy, Debug, PartialEq, Eq)]
pub struct Departure {
    pub line: usize,
    pub place: Place,
    /// Whether the lines from it on are those of a sheet, and drawn.
    pub whole: bool,
}

#[derive(Debug, Default)]
pub struct Sheet {
    /// In rising identity; the row of `end`, if any, is the last.
    pub rows: Vec<Row>,
    /// The lines after the header.
    pub lines: usize,
    /// The frames of the first and the last line that has a time.
    pub times: Option<(u32, u32)>,
    /// The line of the day and the number of an input refusal.
    pub refusal: Option<(u32, u8)>,
    pub departure: Option<Departure>,
}

/// Why some bytes are no sheet.
#[derive(Debug, PartialEq, Eq)]
pub enum Fault {
    Empty,
    Header,
    Spaces,
    Day,
    Line {
        line: usize,
        text: String,
        why: &'static str,
    },
    /// It has too few lines to depart where it is said to.
    Beyond {
        lines: usize,
    },
}

impl fmt::Display for Fault {
    fn fmt(&self, f: &mut fmt::Formatter) -> fmt::Result {
        match self {
            Fault::Empty => write!(
                f,
                "it is empty. A sheet has at least a header: look whether the program that was to \
                 write it said why it did not."
            ),
            Fault::Header => write!(
                f,
                "its first line is not `time`, `server` and `what`, parted by tabs. Give the file \
                 that the sheet program wrote for a day."
            ),
            Fault::Spaces => write!(
                f,
                "its fields are parted by spaces, a sheet's by tabs. Give the file as the sheet \
                 program wrote it."
            ),
            Fault::Day => write!(
                f,
                "it looks like a day. Give the day to the sheet program first, and what that \
                 writes to this one."
            ),
            Fault::Line { line, text, why } => write!(
                f,
                "line {line}, `{text}`, {why}. Give the file as the sheet program wrote it, whole \
                 and unchanged."
            ),
            Fault::Beyond { lines } => write!(
                f,
                "it has {}, and so departs at line {} or before it. Give the number that ./accept \
                 says of this very sheet.",
                count(*lines, "line", "lines"),
                lines + 1
            ),
        }
    }
}

pub fn read(bytes: &[u8]) -> Result<Sheet, Fault> {
    let mut lines = bytes.split(|&byte| byte == b'\n').map(without_return);
    check_header(lines.next().unwrap_or_default(), bytes.is_empty())?;
    let mut sheet = Sheet::default();
    let mut ended = false;
    for (at, text) in lines.enumerate() {
        // what follows the last line feed
        if ended {
            return Err(fault(at + 1, b"", "is empty"));
        }
        if text.is_empty() {
            ended = true;
            continue;
        }
        sheet.add(text).map_err(|why| fault(at + 2, text, why))?;
    }
    sheet.rows.sort_by_key(|row| (row.identity == 0, row.identity));
    Ok(sheet)
}

/// A sheet that departs at this line. From there on it may be no sheet: then only what comes before
/// the line is read.
pub fn read_departed(bytes: &[u8], line: usize) -> Result<Sheet, Fault> {
    let lines: Vec<&[u8]> = bytes.split_inclusive(|&byte| byte == b'\n').collect();
    if line > lines.len() + 1 {
        return Err(Fault::Beyond { lines: lines.len() });
    }
    let before = lines[..line - 1].concat();
    let (mut sheet, whole) = match read(bytes) {
        Ok(sheet) => (sheet, true),
        Err(_) if before.is_empty() => (Sheet::default(), false),
        Err(_) => (read(&before)?, false),
    };
    let place = match lines.get(line - 1) {
        None => Place::End,
        Some(_) if line == 1 => Place::Header,
        Some(text) => place(text),
    };
    sheet.departure = Some(Departure { line, place, whole });
    Ok(sheet)
}

fn place(text: &[u8]) -> Place {
    match read_line(without_return(text.strip_suffix(b"\n").unwrap_or(text))) {
        Ok(Line::Server { frame, .. }) => Place::Frame(frame),
        _ => Place::NoTime,
    }
}

fn fault(line: usize, text: &[u8], why: &'static str) -> Fault {
    const SHOWN: usize = 40;
    let shown = String::from_utf8_lossy(&text[..text.len().min(SHOWN)]);
    // a tab is shown as a space, other control characters by their escapes
    let mut text: String = shown.replace('\t', " ").escape_debug().collect();
    if shown.len() >= SHOWN {
        text += "...";
    }
    Fault::Line { line, text, why }
}

/// A sheet that came by way of another system may have a carriage return before each line feed.
fn without_return(line: &[u8]) -> &[u8] {
    line.strip_suffix(b"\r").unwrap_or(line)
}

fn check_header(line: &[u8], no_bytes: bool) -> Result<(), Fault> {
    let by_tab = line.split(|&byte| byte == b'\t');
    let by_space = line.split(|&byte| byte == b' ').filter(|field| !field.is_empty());
    if no_bytes {
        Err(Fault::Empty)
    } else if by_tab.eq(HEADER) {
        Ok(())
    } else if by_space.eq(HEADER) {
        Err(Fault::Spaces)
    } else if line.starts_with(b"period") {
        Err(Fault::Day)
    } else {
        Err(Fault::Header)
    }
}

impl Sheet {
    fn add(&mut self, text: &[u8]) -> Result<(), &'static str> {
        if self.refusal.is_some() {
            return Err("stands after the refusal that ends the sheet");
        }
        self.lines += 1;
        match read_line(text)? {
            Line::Input { line, number } => self.refusal = Some((line, number)),
            Line::Server { frame, identity, word } => {
                let (first, last) = self.times.unwrap_or((frame, frame));
                if frame < last {
                    return Err("has an earlier time than the line before it");
                }
                self.times = Some((first, frame));
                self.row(identity)?.add(frame, word);
            }
        }
        Ok(())
    }

    fn row(&mut self, identity: u16) -> Result<&mut Row, &'static str> {
        let place = match self.rows.iter().position(|row| row.identity == identity) {
            Some(place) => place,
            None => {
                let servers = self.rows.iter().filter(|row| row.identity != 0).count();
                if identity != 0 && servers == MOST_SERVERS {
                    return Err("names a seventeenth server");
                }
                self.rows.push(Row::new(identity));
                self.rows.len() - 1
            }
        };
        Ok(&mut self.rows[place])
    }
}

pub fn read_line(text: &[u8]) -> Result<Line, &'static str> {
    let mut fields = text.split(|&byte| byte == b'\t');
    let (Some(time), Some(server), Some(what), None) =
        (fields.next(), fields.next(), fields.next(), fields.next())
    else {
        return Err("has not three fields parted by tabs");
    };
    if time == b"line" {
        let line = number(server, 65_536).filter(|&line| line > 0).ok_or("has no line number")?;
        return match word(what) {
            Some(Word::Refused(number)) => Ok(Line::Input { line, number }),
            _ => Err("has no refusal"),
        };
    }
    let frame = timecode(time).ok_or("has no time HH:MM:SS:FF at 25 frames a second")?;
    let identity = number(server, 65_535).ok_or("has no server from 1 to 65535")? as u16;
    let word = word(what).ok_or("has a word that no sheet has")?;
    if identity == 0 && !matches!(word, Word::Refused(_)) {
        return Err("has no server from 1 to 65535");
    }
    Ok(Line::Server { frame, identity, word })
}

fn word(text: &[u8]) -> Option<Word> {
    if let Some(digits) = text.strip_prefix(Kind::Refused.word().as_bytes()) {
        return number(digits, 99).filter(|&number| number > 0).map(|n| Word::Refused(n as u8));
    }
    let mark = Kind::ALL.into_iter().find(|kind| kind.word().as_bytes() == text);
    let role = || Role::ALL.into_iter().find(|role| role.word().as_bytes() == text);
    mark.map(Word::Mark).or_else(|| role().map(Word::Role))
}

/// Digits with no leading zero.
fn number(digits: &[u8], most: u32) -> Option<u32> {
    let leading = digits.len() > 1 && digits[0] == b'0';
    if digits.is_empty() || digits.len() > 6 || leading {
        return None;
    }
    let value = all_digits(digits)?;
    (value <= most).then_some(value)
}

fn all_digits(digits: &[u8]) -> Option<u32> {
    digits.iter().try_fold(0, |value, digit| {
        digit.is_ascii_digit().then(|| value * 10 + u32::from(digit - b'0'))
    })
}

fn timecode(text: &[u8]) -> Option<u32> {
    let &[h, i, b':', m, n, b':', s, t, b':', f, g] = text else { return None };
    let pair = |a, b, most| all_digits(&[a, b]).filter(|&value| value <= most);
    let (hours, minutes) = (pair(h, i, 23)?, pair(m, n, 59)?);
    let (seconds, frames) = (pair(s, t, 59)?, pair(f, g, FRAMES_A_SECOND - 1)?);
    Some(((hours * 60 + minutes) * 60 + seconds) * FRAMES_A_SECOND + frames)
}

#[cfg(test)]
mod tests {
    use super::*;

    fn line(text: &str) -> Result<Line, &'static str> {
        read_line(text.replace(' ', "\t").as_bytes())
    }

    fn sheet(lines: &str) -> Result<Sheet, Fault> {
        read(format!("time server what\n{lines}").replace(' ', "\t").as_bytes())
    }

    fn faulty_line(lines: &str) -> usize {
        match sheet(lines) {
            Err(Fault::Line { line, .. }) => line,
            other => panic!("{other:?}"),
        }
    }

    #[test]
    fn every_word_is_read() {
        for role in Role::ALL {
            let read = line(&format!("00:00:01:02 7 {}", role.word()));
            assert_eq!(read, Ok(Line::Server { frame: 27, identity: 7, word: Word::Role(role) }));
        }
        for kind in Kind::ALL.into_iter().filter(|&kind| kind != Kind::Refused) {
            let read = line(&format!("23:59:59:24 65535 {}", kind.word()));
            let word = Word::Mark(kind);
            assert_eq!(read, Ok(Line::Server { frame: 2_159_999, identity: 65_535, word }));
        }
        for number in [1, 9, 14, 19] {
            let read = line(&format!("00:00:00:00 1 refused-{number}"));
            let word = Word::Refused(number);
            assert_eq!(read, Ok(Line::Server { frame: 0, identity: 1, word }));
        }
        assert_eq!(line("line 65536 refused-4"), Ok(Line::Input { line: 65_536, number: 4 }));
    }

    #[test]
    fn other_lines_are_not() {
        for text in [
            "",
            "00:00:00:00 1",
            "00:00:00:00 1 beat 2",
            "00:00:00:00  beat",
            "00:00:00:25 1 beat",
            "24:00:00:00 1 beat",
            "00:60:00:00 1 beat",
            "00:00:00;00 1 beat",
            "0:00:00:00 1 beat",
            "00:00:00:0x 1 beat",
            "00:00:00:00 65536 beat",
            "00:00:00:00 01 beat",
            "00:00:00:00 99999999999 beat",
            "00:00:00:00 0 beat",
            "00:00:00:00 1 Beat",
            "00:00:00:00 1 <b>",
            "00:00:00:00 1 refused-",
            "00:00:00:00 1 refused-0",
            "00:00:00:00 1 refused-07",
            "00:00:00:00 1 refused-100",
            "line 0 refused-1",
            "line 3 beat",
        ] {
            assert!(line(text).is_err(), "{text}");
        }
    }

    #[test]
    fn rows_rise_and_the_end_is_last() {
        let sheet = sheet(
            "00:00:00:00 9 sync\n00:00:00:01 2 cut\n00:00:00:01 0 refused-11\n\
             00:00:00:02 9 beat\nline 8 refused-4\n",
        )
        .expect("a sheet");
        let identities: Vec<u16> = sheet.rows.iter().map(|row| row.identity).collect();
        assert_eq!(identities, [2, 9, 0]);
        assert_eq!(sheet.rows[1].roles, [(0, Role::Sync)]);
        assert_eq!(sheet.rows[1].marks(Kind::Beat), [Mark { frame: 2, number: 0 }]);
        assert_eq!(sheet.rows[2].marks(Kind::Refused), [Mark { frame: 1, number: 11 }]);
        assert_eq!((sheet.lines, sheet.times), (5, Some((0, 2))));
        assert_eq!(sheet.refusal, Some((8, 4)));
    }

    #[test]
    fn a_header_alone_is_a_sheet() {
        let sheet = sheet("").expect("a sheet");
        assert!(sheet.rows.is_empty() && sheet.times.is_none());
        assert!(read(b"time\tserver\twhat").is_ok());
        assert!(read(b"time\tserver\twhat\r\n00:00:00:00\t1\tsync\r\n").is_ok());
    }

    #[test]
    fn what_is_no_sheet() {
        assert_eq!(read(b"").err(), Some(Fault::Empty));
        assert_eq!(read(b"\n").err(), Some(Fault::Header));
        assert_eq!(read(b"\x89PNG\r\n\x1a\n\0").err(), Some(Fault::Header));
        assert_eq!(read(b"time server what\n").err(), Some(Fault::Spaces));
        assert_eq!(read(b"period\t2\nserver\t1\t10\n").err(), Some(Fault::Day));
    }

    #[test]
    fn the_faulty_line_is_named() {
        assert_eq!(faulty_line("00:00:00:00 1 sync\n00:00:00:00 1 bea\n"), 3);
        assert_eq!(faulty_line("00:00:00:01 1 sync\n00:00:00:00 1 backup\n"), 3);
        assert_eq!(faulty_line("00:00:00:01 1 sync\n\n00:00:00:01 1 backup\n"), 3);
        assert_eq!(faulty_line("line 2 refused-1\n00:00:00:01 1 backup\n"), 3);
        let many: String = (1..=17).map(|i| format!("00:00:00:00 {i} sync\n")).collect();
        assert_eq!(faulty_line(&many), 18);
    }

    fn departed(lines: &str, line: usize) -> Result<Sheet, Fault> {
        read_departed(format!("time server what\n{lines}").replace(' ', "\t").as_bytes(), line)
    }

    const THREE: &str = "00:00:00:00 1 sync\n00:00:00:04 1 backup\nline 5 refused-1\n";

    #[test]
    fn the_line_that_departs_has_a_place() {
        let place = |line| departed(THREE, line).expect("a sheet").departure.expect("a departure");
        let places = [Place::Header, Place::Frame(0), Place::Frame(4), Place::NoTime, Place::End];
        for (at, expected) in places.into_iter().enumerate() {
            assert_eq!(place(at + 1), Departure { line: at + 1, place: expected, whole: true });
        }
        assert_eq!(departed(THREE, 6).err(), Some(Fault::Beyond { lines: 4 }));
        assert!(sheet(THREE).expect("a sheet").departure.is_none());
        // a last line without its line feed is there, and so is one with a carriage return
        let bytes = b"time\tserver\twhat\n00:00:00:07\t1\tsync\r\n00:00:00:08\t1\tbackup";
        for (line, frame) in [(2, 7), (3, 8)] {
            let departure = read_departed(bytes, line).expect("a sheet").departure;
            assert_eq!(departure.map(|at| at.place), Some(Place::Frame(frame)));
        }
    }

    #[test]
    fn what_is_no_sheet_may_depart_at_that_line_or_before_it() {
        let lines = "00:00:00:02 1 sync\n00:00:00:03 1 backup\n00:00:00:01 1 sync\n\0\n";
        assert_eq!(faulty_line(lines), 4);
        let read = |line| departed(lines, line).expect("a sheet");
        let seen = |line| (read(line).lines, read(line).departure.expect("a departure").place);
        assert_eq!(seen(4), (2, Place::Frame(1)));
        assert_eq!(seen(3), (1, Place::Frame(3)));
        assert_eq!(seen(2), (0, Place::Frame(2)));
        assert_eq!(seen(1), (0, Place::Header));
        assert!(!read(3).departure.expect("a departure").whole);
        // a fault before the line is one of the sheet
        assert!(matches!(departed(lines, 5), Err(Fault::Line { line: 4, .. })));
        assert_eq!(
            departed("x\n", 2).expect("a sheet").departure.map(|at| at.place),
            Some(Place::NoTime)
        );
    }

    #[test]
    fn no_header_at_all_departs_at_line_1() {
        for (bytes, place) in [
            (&b""[..], Place::End),
            (b"\0\r\n\xff", Place::Header),
            (b"period\t2\n", Place::Header),
        ] {
            let sheet = read_departed(bytes, 1).expect("a departure");
            assert_eq!(sheet.departure, Some(Departure { line: 1, place, whole: false }));
            assert!(sheet.rows.is_empty() && read(bytes).is_err());
        }
        assert_eq!(read_departed(b"period\t2\n", 2).err(), Some(Fault::Day));
        assert_eq!(read_departed(b"", 2).err(), Some(Fault::Beyond { lines: 0 }));
    }

    #[test]
    fn a_message_shows_no_control_characters() {
        let text = fault(2, b"\x1b[31m\t\xff\0", "is odd").to_string();
        assert!(!text.contains(char::is_control), "{text}");
    }
}
