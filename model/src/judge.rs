//! What the acceptance desk asks: is a sheet that of a day, and if not, which of its lines is the
//! first that departs. Line by line and by place, as the request has it.

use crate::program::sheet_of;
use std::fs::File;
use std::io::{self, Read};

/// Nothing for `same`, else "the number of the first sheet line that departs".
pub fn judge(day: &[u8], sheet: &[u8]) -> io::Result<Option<usize>> {
    Ok(departure(&sheet_of(day)?, sheet))
}

/// "A missing line counts at the place it should have had; a surplus line at its own place."
pub fn departure(due: &[u8], sheet: &[u8]) -> Option<usize> {
    let (due, sheet) = (lines(due), lines(sheet));
    let most = due.len().max(sheet.len());
    // "The header is line 1"
    (1..=most).find(|number| due.get(number - 1) != sheet.get(number - 1))
}

/// Each line with its line feed: "a line without its line feed departs".
fn lines(bytes: &[u8]) -> Vec<&[u8]> {
    bytes.split_inclusive(|&byte| byte == b'\n').collect()
}

/// `same` or the number, with a line feed.
pub fn said(verdict: Option<usize>) -> String {
    match verdict {
        None => String::from("same\n"),
        Some(number) => format!("{number}\n"),
    }
}

/// "A file that cannot be opened counts as empty"; a folder is no such file either.
pub fn read(name: &str) -> io::Result<Vec<u8>> {
    let mut bytes = Vec::new();
    if let Ok(mut file) = File::open(name) {
        if !file.metadata()?.is_dir() {
            file.read_to_end(&mut bytes)?;
        }
    }
    Ok(bytes)
}
