//! Draws a sheet as a timeline: one row a server, from the sheet's first frame to its last line.

mod draw;
mod sheet;
mod spans;
mod words;

use std::ffi::{OsStr, OsString};
use std::io::{self, Read, Write};
use std::path::Path;
use std::process::ExitCode;

const USAGE: &str = "usage: timeline/run SHEET [LINE] > picture.svg\n\
    SHEET is the file that the sheet program wrote for a day, or - for standard input.\n\
    LINE is the number that ./accept says of a sheet that departs from its day's: that line is\n\
    marked, and what follows it need be no sheet.\n";

fn main() -> ExitCode {
    let arguments: Vec<OsString> = std::env::args_os().skip(1).collect();
    let (name, line) = match arguments.as_slice() {
        [name] => (name, None),
        [name, line] => (name, Some(line)),
        _ => {
            eprint!("{USAGE}");
            return ExitCode::FAILURE;
        }
    };
    match run(name, line) {
        Ok(()) => ExitCode::SUCCESS,
        Err(message) => {
            eprintln!("timeline: {message}");
            ExitCode::FAILURE
        }
    }
}

/// The number of a line, as ./accept writes it.
fn line_number(text: &OsStr) -> Result<usize, String> {
    let text = text.to_string_lossy();
    let digits = text.bytes().all(|byte| byte.is_ascii_digit());
    let number = text.parse().ok().filter(|&number| digits && number > 0);
    number.ok_or_else(|| {
        let shown = words::brief(&text).replace(char::is_control, "\u{fffd}");
        format!(
            "{shown} is no number of a line: give the number that ./accept says of the sheet, 1 or \
             more, or leave it out if the sheet is the same."
        )
    })
}

fn run(name: &OsStr, line: Option<&OsString>) -> Result<(), String> {
    let line = line.map(|text| line_number(text)).transpose()?;
    let input = name == "-";
    let shown = if input { "standard input".into() } else { name.to_string_lossy() };
    let shown = shown.replace(char::is_control, "\u{fffd}");
    let bytes = if input { read_input() } else { std::fs::read(name) };
    let bytes = bytes.map_err(|error| {
        format!("cannot read {shown}: {error}. Give the name of a sheet, or - for standard input.")
    })?;
    let sheet = match line {
        None => sheet::read(&bytes).map_err(|fault| format!("{shown} is no sheet: {fault}"))?,
        Some(line) => sheet::read_departed(&bytes, line)
            .map_err(|fault| format!("{shown} is no sheet that departs at line {line}: {fault}"))?,
    };
    let title = if input { None } else { Path::new(name).file_name() };
    let title = title.map_or("sheet".into(), OsStr::to_string_lossy);
    let mut out = io::stdout().lock();
    out.write_all(draw::draw(&sheet, &title).as_bytes())
        .and_then(|()| out.flush())
        .map_err(|error| format!("cannot write the picture: {error}."))
}

fn read_input() -> io::Result<Vec<u8>> {
    let mut bytes = Vec::new();
    io::stdin().lock().read_to_end(&mut bytes)?;
    Ok(bytes)
}

#[cfg(test)]
mod tests {
    use super::*;

    #[test]
    fn the_number_of_a_line_is_1_or_more() {
        for (text, number) in [("1", 1), ("57", 57), ("1000000", 1_000_000)] {
            assert_eq!(line_number(OsStr::new(text)), Ok(number));
        }
        for text in ["", "0", "-1", "+1", "same", "1 ", "1.5", "\u{1b}[1m", &"9".repeat(99)] {
            let message = line_number(OsStr::new(text)).expect_err("no number");
            assert!(message.contains("give the number that ./accept says"), "{message}");
            assert!(!message.contains(char::is_control), "{message}");
        }
    }
}
