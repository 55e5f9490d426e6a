//! Days with their sheets in one file, for a program that sets the engine's sheets against them.
//!
//! The file begins with a line of two numbers, parted by a tab: how many days it has, and how many
//! of these, the last ones, have a repeated part. Then comes each day: a line of seven numbers,
//!
//!     HEAD TIMES BODY TAIL SHEET SHOWN CHECK
//!
//! parted by tabs and ended by a line feed, then HEAD + BODY + TAIL bytes of the day, then SHOWN
//! bytes of its sheet, and nothing between these and the next day's line.
//! - The day is the first HEAD bytes, the next BODY bytes TIMES times over, and the last TAIL
//!   bytes. Where nothing is repeated TIMES, BODY and TAIL are 0, and the HEAD bytes are the day.
//! - SHEET is the length of the sheet. SHOWN is SHEET where the whole sheet follows, which it does
//!   up to 2,000 bytes, and 0 where it does not.
//! - CHECK is FNV-1a over the whole sheet, 64 bits: from 14695981039346656037, for each byte the
//!   exclusive or with it, times 1099511628211, modulo 2^64. As that factor is 2^40 + 435, the
//!   product of x is also the sum, modulo 2^64, of x << 40, ((x >> 32) * 435) << 32 and
//!   (x & 0xFFFFFFFF) * 435, where only what is shifted out is lost.
//!
//! All numbers are decimal without leading zeros. The days made by hand come first, then days drawn
//! from seeds, then those at the limit of lines.

use crate::bench::{fnv, FNV_START};
use crate::day;
use crate::generate;
use crate::special::{self, Repeated};
use crate::text::{fields, read_timecode};

/// Sheets up to this length are in the file.
pub const MOST_SHOWN: usize = 2_000;

/// Longer sheets of drawn days are left out, and days beyond the first hour but for some.
const MOST_SHEET: usize = 16_384;
const MOST_FAR: usize = 12;
const HOUR: u32 = 60 * 60 * 25;

/// `count` days, drawn from `seed` on but for those made by hand. An error is the least count.
pub fn vectors(seed: u64, count: usize) -> Result<Vec<Repeated>, usize> {
    let plain = |day| Repeated { head: day, times: 0, body: Vec::new(), tail: Vec::new() };
    let mut days: Vec<Repeated> = special::days().into_iter().map(plain).collect();
    let full = special::full();
    let least = days.len() + full.len();
    if count < least {
        return Err(least);
    }
    let mut far = 0;
    let mut seeds = seed..;
    while days.len() + full.len() < count {
        // the days of these seeds are at the limit of lines
        let Some(seed) = seeds.find(|seed| seed % 997 != 0) else { return Err(least) };
        let day = generate::day(seed);
        let is_far = reach(&day) > HOUR;
        if day::sheet(&day).len() <= MOST_SHEET && (!is_far || far < MOST_FAR) {
            far += usize::from(is_far);
            days.push(plain(day));
        }
    }
    days.extend(full);
    Ok(days)
}

/// The last frame that some line of the day names.
pub fn reach(day: &[u8]) -> u32 {
    day.split(|&byte| byte == b'\n')
        .flat_map(|line| fields(line).into_iter().take(2))
        .filter_map(|field| read_timecode(field).ok())
        .max()
        .unwrap_or(0)
}

pub fn write(days: &[Repeated]) -> Vec<u8> {
    let repeated = days.iter().filter(|day| day.times > 0).count();
    let mut file = format!("{}\t{repeated}\n", days.len()).into_bytes();
    for day in days {
        let sheet = day::sheet(&day.day());
        let shown = if sheet.len() <= MOST_SHOWN { sheet.as_slice() } else { &[] };
        let numbers = [
            day.head.len() as u64,
            day.times as u64,
            day.body.len() as u64,
            day.tail.len() as u64,
            sheet.len() as u64,
            shown.len() as u64,
            fnv(FNV_START, &sheet),
        ];
        file.extend(numbers.map(|number| number.to_string()).join("\t").into_bytes());
        file.push(b'\n');
        for bytes in [&day.head, &day.body, &day.tail, shown] {
            file.extend_from_slice(bytes);
        }
    }
    file
}
