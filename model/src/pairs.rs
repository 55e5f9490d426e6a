//! Pairs of a day and a sheet that is damaged in a known way, for a program that judges sheets.
//!
//! The file begins with a line of one number: how many pairs it has. Then comes each pair: a line
//! of three numbers,
//!
//!     DAY SHEET ANSWER
//!
//! parted by tabs and ended by a line feed, then DAY bytes of the day and SHEET bytes of the sheet,
//! and nothing between these and the next pair's line. ANSWER is the number of the first line that
//! departs, 0 where the sheet is the day's. All numbers are decimal without leading zeros.

use crate::judge::departure;
use crate::program::sheet_of;
use crate::script::Rng;
use crate::{generate, long, special};

/// Longer days and sheets are not in the file.
const MOST_DAY: usize = 800;
const MOST_SHEET: usize = 1_200;

/// What is done to the sheet.
#[derive(Clone, Copy, Debug, PartialEq, Eq, PartialOrd, Ord)]
pub enum Way {
    Untouched,
    LineDropped,
    LineDoubled,
    LinesSwapped,
    ByteChanged,
    ByteLeftOut,
    /// At any byte.
    Truncated,
    /// The last line feed is left out, and nothing else.
    NoLineFeed,
    /// Bytes without a line feed after the last line.
    Piece,
    SurplusLine,
    EmptyLine,
    /// Every line ends in a carriage return and a line feed.
    Returns,
    OneReturn,
    Nul,
    Empty,
    OtherDay,
    /// A line that goes on behind what is due.
    LongLine,
    /// A surplus line that goes on as the last one again and again, but for a byte behind the 64th.
    LongSurplus,
    /// Of days that are refused: the last line is left out, or others follow it.
    NoRefusal,
    AfterRefusal,
    NoHeader,
    TwoHeaders,
    /// Of lines that are equal and stand one after the other, one too few or one too many.
    RunDropped,
    RunDoubled,
}

impl Way {
    pub const ALL: [Way; 24] = [
        Way::Untouched,
        Way::LineDropped,
        Way::LineDoubled,
        Way::LinesSwapped,
        Way::ByteChanged,
        Way::ByteLeftOut,
        Way::Truncated,
        Way::NoLineFeed,
        Way::Piece,
        Way::SurplusLine,
        Way::EmptyLine,
        Way::Returns,
        Way::OneReturn,
        Way::Nul,
        Way::Empty,
        Way::OtherDay,
        Way::LongLine,
        Way::LongSurplus,
        Way::NoRefusal,
        Way::AfterRefusal,
        Way::NoHeader,
        Way::TwoHeaders,
        Way::RunDropped,
        Way::RunDoubled,
    ];
}

pub struct Pair {
    pub way: Way,
    pub day: Vec<u8>,
    /// The day's own sheet.
    pub due: Vec<u8>,
    pub sheet: Vec<u8>,
}

impl Pair {
    pub fn answer(&self) -> Option<usize> {
        departure(&self.due, &self.sheet)
    }
}

/// How long days and sheets may be.
#[derive(Clone, Copy, PartialEq, Eq)]
pub enum Length {
    Short,
    Any,
    /// Whole days.
    Long,
}

/// Pairs one after another; the ways take turns.
pub struct Pairs {
    rng: Rng,
    by_hand: Vec<Vec<u8>>,
    turn: usize,
}

impl Pairs {
    pub fn new(seed: u64) -> Pairs {
        Pairs { rng: Rng::new(seed), by_hand: special::days(), turn: 0 }
    }

    pub fn next(&mut self, mut length: Length) -> Pair {
        let way = Way::ALL[self.turn % Way::ALL.len()];
        self.turn += 1;
        loop {
            let (day, due) = self.day_and_sheet(length);
            let other =
                if way == Way::OtherDay { self.day_and_sheet(length).1 } else { Vec::new() };
            if let Some(sheet) = damaged(&mut self.rng, way, &due, &other) {
                return Pair { way, day, due, sheet };
            }
            // no whole day is refused, and not every one has equal lines
            if length == Length::Long {
                length = Length::Any;
            }
        }
    }

    fn day_and_sheet(&mut self, length: Length) -> (Vec<u8>, Vec<u8>) {
        loop {
            let day = self.day(length);
            let due = sheet_of(&day).expect("a day in memory");
            let fits = day.len() <= MOST_DAY && due.len() <= MOST_SHEET;
            if fits || length != Length::Short {
                return (day, due);
            }
        }
    }

    fn day(&mut self, length: Length) -> Vec<u8> {
        let rng = &mut self.rng;
        if length == Length::Long {
            let servers = rng.between(1, 16);
            let period = rng.between(servers.max(2), 250);
            return long::long_day(servers, period, *rng.pick(&[33, 100, 1_000, 20_000]));
        }
        match rng.below(24) {
            0 => Vec::new(),
            1..=3 => {
                let mut day = self.drawn(length);
                let bytes = self.rng.below(day.len() as u32 + 1);
                day.truncate(bytes as usize);
                day
            }
            4..=11 => rng.pick(&self.by_hand).clone(),
            _ => self.drawn(length),
        }
    }

    fn drawn(&mut self, length: Length) -> Vec<u8> {
        loop {
            let seed = self.rng.next();
            // the days of these seeds are at the limit of lines
            if length == Length::Any || seed % 997 != 0 {
                return generate::day(seed);
            }
        }
    }
}

/// Nothing where a sheet cannot be damaged so.
fn damaged(rng: &mut Rng, way: Way, due: &[u8], other: &[u8]) -> Option<Vec<u8>> {
    let lines: Vec<&[u8]> = due.split_inclusive(|&byte| byte == b'\n').collect();
    let sheet = match way {
        Way::Untouched => return Some(due.to_vec()),
        Way::Empty => Vec::new(),
        Way::OtherDay => other.to_vec(),
        Way::ByteChanged
        | Way::ByteLeftOut
        | Way::Truncated
        | Way::NoLineFeed
        | Way::Piece
        | Way::Nul => by_bytes(rng, way, due.to_vec()),
        Way::Returns | Way::OneReturn | Way::LongLine | Way::LongSurplus => {
            by_ends(rng, way, &lines)
        }
        _ => by_lines(rng, way, lines)?.concat(),
    };
    (sheet != due).then_some(sheet)
}

fn by_bytes(rng: &mut Rng, way: Way, mut sheet: Vec<u8>) -> Vec<u8> {
    let at = rng.below(sheet.len() as u32) as usize;
    match way {
        Way::ByteChanged if rng.chance(1, 2) => sheet[at] ^= 1 << rng.below(8),
        Way::ByteChanged => sheet[at] = *rng.pick(b"0123456789:\t\n\r \0aeps"),
        Way::ByteLeftOut => {
            sheet.remove(at);
        }
        Way::Truncated => sheet.truncate(at),
        Way::NoLineFeed => {
            sheet.pop();
        }
        Way::Nul => sheet.insert(at, 0),
        _ => {
            let pieces: &[&[u8]] = &[b"0", b" ", b"\t", b"\r", b"\0", b"time\tserver", &[b'0'; 80]];
            sheet.extend_from_slice(*rng.pick(pieces));
        }
    }
    sheet
}

fn without_feed(line: &[u8]) -> &[u8] {
    line.strip_suffix(b"\n").unwrap_or(line)
}

/// Lines with other ends, and lines of more than 64 bytes.
fn by_ends(rng: &mut Rng, way: Way, lines: &[&[u8]]) -> Vec<u8> {
    let mut sheet: Vec<Vec<u8>> = lines.iter().map(|line| line.to_vec()).collect();
    let last = without_feed(lines[lines.len() - 1]);
    let some = rng.below(lines.len() as u32) as usize;
    let bytes = rng.between(65, 400) as usize;
    let long = |line: &[u8], filler: &[u8]| -> Vec<u8> {
        line.iter().chain(filler.iter().cycle()).take(bytes).copied().chain(*b"\n").collect()
    };
    match way {
        Way::Returns => {
            for line in &mut sheet {
                line.insert(line.len() - 1, b'\r');
            }
        }
        Way::OneReturn => {
            let end = sheet[some].len() - 1;
            sheet[some].insert(end, b'\r');
        }
        Way::LongLine => {
            let filler = *rng.pick(&[b' ', b'\t', b'\r', b'\0', b'0', b'x']);
            sheet[some] = long(without_feed(lines[some]), &[filler]);
        }
        _ => {
            let mut line = long(last, last);
            line[rng.between(64, bytes as u32 - 1) as usize] ^= 2;
            sheet.push(line);
        }
    }
    sheet.concat()
}

/// Lines left out, put in and put elsewhere.
fn by_lines<'a>(rng: &mut Rng, way: Way, lines: Vec<&'a [u8]>) -> Option<Vec<&'a [u8]>> {
    const SURPLUS: &[&[u8]] = &[
        b"00:00:00:00\t1\tbeat\n",
        b"23:59:59:24\t65535\tdown\n",
        b"line\t9\trefused-4\n",
        b"x\n",
    ];
    let count = lines.len();
    let last = count - 1;
    let is_refused = lines[last].starts_with(b"line\t");
    let some = rng.below(count as u32) as usize;
    // behind the last line, or anywhere
    let place = if rng.chance(1, 2) { count } else { rng.below(count as u32 + 1) as usize };
    let runs: Vec<usize> = (1..count).filter(|&at| lines[at] == lines[at - 1]).collect();
    let mut sheet = lines;
    match way {
        Way::LineDropped => drop(sheet.remove(some)),
        Way::LineDoubled => sheet.insert(some, sheet[some]),
        Way::LinesSwapped => sheet.swap(some, rng.other(count, some)),
        Way::SurplusLine => sheet.insert(place, *rng.pick(SURPLUS)),
        Way::EmptyLine => sheet.insert(place, b"\n"),
        Way::NoRefusal if is_refused => drop(sheet.pop()),
        Way::AfterRefusal if is_refused => {
            let after = [sheet[last], sheet[some], *rng.pick(SURPLUS)];
            for _ in 0..rng.between(1, 3) {
                sheet.push(*rng.pick(&after));
            }
        }
        Way::NoHeader => drop(sheet.remove(0)),
        Way::TwoHeaders => sheet.insert(0, sheet[0]),
        Way::RunDropped if !runs.is_empty() => drop(sheet.remove(*rng.pick(&runs))),
        Way::RunDoubled if !runs.is_empty() => {
            let at = *rng.pick(&runs);
            sheet.insert(at, sheet[at]);
        }
        _ => return None,
    }
    Some(sheet)
}

/// `count` short pairs from a seed.
pub fn pairs(seed: u64, count: usize) -> Vec<Pair> {
    let mut pairs = Pairs::new(seed);
    (0..count).map(|_| pairs.next(Length::Short)).collect()
}

pub fn write(pairs: &[Pair]) -> Vec<u8> {
    let mut file = format!("{}\n", pairs.len()).into_bytes();
    for pair in pairs {
        let answer = pair.answer().unwrap_or(0);
        let line = format!("{}\t{}\t{answer}\n", pair.day.len(), pair.sheet.len());
        for bytes in [line.as_bytes(), &pair.day, &pair.sheet] {
            file.extend_from_slice(bytes);
        }
    }
    file
}
