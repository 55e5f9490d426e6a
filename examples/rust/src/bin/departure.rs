//! Whether a sheet is that of a day, by one call of the library: `departure DAY SHEET`, as
//! examples/c/departure.c. Prints `same`, or the number of the first line that departs. Status 0 for
//! `same`, 1 for a departure, 2 where a file cannot be read.

#[allow(dead_code)]
#[path = "../playout.rs"]
mod playout;

use std::ffi::OsString;
use std::fs;
use std::io::{self, Write};
use std::process::ExitCode;

fn main() -> ExitCode {
    let names: Vec<OsString> = std::env::args_os().skip(1).collect();
    let [day, sheet] = names.as_slice() else {
        eprintln!("usage: departure DAY SHEET");
        return ExitCode::from(2);
    };
    match judge(day, sheet) {
        Ok(0) => ExitCode::SUCCESS,
        Ok(_) => ExitCode::FAILURE,
        Err(message) => {
            eprintln!("departure: {message}");
            ExitCode::from(2)
        }
    }
}

/// Prints the answer, and gives its number.
fn judge(day: &OsString, sheet: &OsString) -> Result<u64, String> {
    let line = playout::departure(&whole(day)?, &whole(sheet)?);
    let said = if line == 0 { String::from("same") } else { line.to_string() };
    writeln!(io::stdout(), "{said}").map_err(|error| format!("cannot print: {error}"))?;
    Ok(line)
}

fn whole(name: &OsString) -> Result<Vec<u8>, String> {
    fs::read(name).map_err(|error| {
        let name = name.to_string_lossy();
        format!("cannot read {name}: {error}; give the files of a day and of a sheet")
    })
}
