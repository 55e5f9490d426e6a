//! A program that reads a day and prints its sheet, against the model.

use crate::script::Rng;
use crate::vectors::reach;
use crate::{day, fast, generate, long};
use std::fs;
use std::io::{self, Read, Write};
use std::path::{Path, PathBuf};
use std::process::{Child, Command, Stdio};
use std::sync::mpsc;
use std::thread;
use std::time::Duration;

/// A program that takes longer for one day is stopped.
const PATIENCE: Duration = Duration::from_secs(120);
/// Bytes that are read beyond the length of the model's sheet.
const BEYOND: u64 = 4_096;
/// Days that reach further, or have more bytes, are played by the quicker of the two models.
const NEAR: u32 = 100_000;
const SHORT: usize = 100_000;

/// Prints what came of it. False if some sheet differs; an error says what to do.
pub fn compare(program: &str, count: u64, seed: u64) -> Result<bool, String> {
    let mut bytes = 0;
    for turn in 0..count {
        let seed = seed.wrapping_add(turn);
        let day = some_day(turn, seed);
        let sheet = sheet_of(&day).map_err(|error| error.to_string())?;
        let run = run(program, &day, sheet.len())?;
        if run.output != sheet || run.fault.is_some() {
            let path = keep(&day, seed)?;
            report(turn, seed, &sheet, &run);
            let path = path.display();
            println!(
                "the day is in {path}; look at `{program} < {path}` and `model sheet < {path}`"
            );
            return Ok(false);
        }
        bytes += sheet.len();
    }
    println!("{count} days: no difference");
    println!("{bytes} bytes of sheets compared");
    Ok(true)
}

// Days

/// Every 500th is a whole day, every 50th of the others has been tampered with.
fn some_day(turn: u64, seed: u64) -> Vec<u8> {
    let mut rng = Rng::new(!seed);
    if turn % 500 == 499 {
        let servers = rng.between(1, 16);
        let period = match rng.below(4) {
            0 => servers.max(2),
            1 => 250,
            _ => rng.between(servers.max(2), 250),
        };
        let gap = *rng.pick(&[33, 100, 1_000, 20_000, 500_000]);
        return long::long_day(servers, period, gap);
    }
    let day = generate::day(seed);
    if turn % 50 == 49 {
        return tampered(&mut rng, day);
    }
    day
}

/// Bytes and lines changed, put in, left out and put elsewhere, without regard to what they say.
pub fn tampered(rng: &mut Rng, mut day: Vec<u8>) -> Vec<u8> {
    if rng.chance(1, 20) {
        // nothing like a day
        let length = rng.below(300);
        return (0..length).map(|_| rng.next() as u8).collect();
    }
    for _ in 0..rng.between(1, 4) {
        let length = day.len() as u32;
        let at = rng.below(length + 1) as usize;
        let other = rng.below(length + 1) as usize;
        let byte = if rng.chance(1, 4) {
            rng.next() as u8
        } else {
            *rng.pick(b"0123456789:\t\n\r \0aeps")
        };
        match rng.below(8) {
            0 => day.insert(at, byte),
            1 | 2 if at < day.len() => day[at] = byte,
            3 if at < day.len() => {
                day.remove(at);
            }
            // a piece left out, or put in again elsewhere
            4 => {
                let piece = at.min(other)..at.max(other).min(at.min(other) + 40);
                day.drain(piece);
            }
            5 => {
                let piece = day[at..day.len().min(at + 40)].to_vec();
                day.splice(other..other, piece);
            }
            // a line put elsewhere
            6 => {
                let mut lines: Vec<Vec<u8>> =
                    day.split_inclusive(|&byte| byte == b'\n').map(<[u8]>::to_vec).collect();
                if !lines.is_empty() {
                    let line = lines.remove(rng.below(lines.len() as u32) as usize);
                    lines.insert(rng.below(lines.len() as u32 + 1) as usize, line);
                }
                day = lines.concat();
            }
            // a digit changed, which is mostly another right day
            _ => {
                let digits: Vec<usize> =
                    (0..day.len()).filter(|&at| day[at].is_ascii_digit()).collect();
                if !digits.is_empty() {
                    day[*rng.pick(&digits)] = b'0' + rng.below(10) as u8;
                }
            }
        }
    }
    day
}

/// The sheet by the model that suits the day.
pub fn sheet_of(day: &[u8]) -> io::Result<Vec<u8>> {
    if day.len() < SHORT && reach(day) < NEAR {
        return Ok(day::sheet(day));
    }
    let mut sheet = Vec::new();
    fast::sheet(day, &mut sheet)?;
    Ok(sheet)
}

// The program

const NO_PIPE: &str = "the pipes of the program are missing: try again";

pub struct Run {
    pub output: Vec<u8>,
    /// What is wrong with the way in which it ended.
    pub fault: Option<String>,
}

/// Runs the program with the day on its standard input.
fn run(program: &str, day: &[u8], expected: usize) -> Result<Run, String> {
    let mut child = Command::new(program)
        .stdin(Stdio::piped())
        .stdout(Stdio::piped())
        .spawn()
        .map_err(|error| cannot_run(program, &error))?;
    let mut input = child.stdin.take().ok_or(NO_PIPE)?;
    let day = day.to_vec();
    // a program may stop reading before the end of the day, after a refusal
    thread::spawn(move || drop(input.write_all(&day)));
    watch(child, expected as u64 + BEYOND)
}

/// What a program prints, `most` bytes of it; it is stopped if it takes too long.
pub fn watch(mut child: Child, most: u64) -> Result<Run, String> {
    let output = child.stdout.take().ok_or(NO_PIPE)?;
    let (sender, receiver) = mpsc::channel();
    thread::spawn(move || {
        let mut bytes = Vec::new();
        let _ = output.take(most).read_to_end(&mut bytes);
        let _ = sender.send(bytes);
    });
    let (output, fault) = match receiver.recv_timeout(PATIENCE) {
        Ok(output) => (output, None),
        Err(_) => {
            child.kill().map_err(|error| format!("the program cannot be stopped: {error}"))?;
            let output = receiver.recv_timeout(Duration::from_secs(1)).unwrap_or_default();
            (output, Some(format!("it was stopped after {} seconds", PATIENCE.as_secs())))
        }
    };
    let ended = child.wait().map_err(|error| format!("the program does not end: {error}"))?;
    // where not all of the output was read, that is what ended the program
    let by_itself = ended.code().is_some() || output.len() as u64 == most;
    let fault = fault.or(if by_itself { None } else { Some(format!("it ended with {ended}")) });
    Ok(Run { output, fault })
}

pub fn cannot_run(program: &str, error: &io::Error) -> String {
    let path = Path::new(program);
    let advice = match error.kind() {
        io::ErrorKind::NotFound if path.exists() && !program.contains('/') => {
            format!("it is in this folder: write ./{program}")
        }
        io::ErrorKind::NotFound if path.exists() => {
            String::from("what its first line asks for, `#!...`, is not there: correct that line")
        }
        io::ErrorKind::NotFound => {
            String::from("there is no such file: build the program first, or correct the path")
        }
        io::ErrorKind::PermissionDenied if path.is_dir() => {
            String::from("it is a folder: give the path of the program in it")
        }
        io::ErrorKind::PermissionDenied => {
            format!("it may not be run: allow it with `chmod +x {program}`, if it is the program")
        }
        _ => format!("{error}; a script needs a first line such as `#!/bin/sh`"),
    };
    format!("cannot run {program}: {advice}")
}

// Differences

fn keep(day: &[u8], seed: u64) -> Result<PathBuf, String> {
    let path = std::env::temp_dir().join(format!("day-{seed}"));
    match fs::write(&path, day) {
        Ok(()) => Ok(path),
        Err(error) => Err(format!(
            "the sheets of seed {seed} differ, but the day cannot be kept in {}: {error}; set \
             TMPDIR to a folder that can be written to",
            path.display()
        )),
    }
}

fn report(turn: u64, seed: u64, sheet: &[u8], run: &Run) {
    match difference(sheet, &run.output) {
        Some((line, model, program)) => {
            println!("day {} (seed {seed}): line {line} of the sheet differs", turn + 1);
            println!("model:   {model}");
            println!("program: {program}");
        }
        None => println!("day {} (seed {seed}): the sheet is right", turn + 1),
    }
    if let Some(fault) = &run.fault {
        println!("the program did not end by itself: {fault}");
    }
}

/// The number of the first line that differs, and that line of both.
pub fn difference(sheet: &[u8], output: &[u8]) -> Option<(usize, String, String)> {
    let lines = |bytes| <[u8]>::split_inclusive(bytes, |&byte| byte == b'\n');
    let (mut left, mut right) = (lines(sheet), lines(output));
    for line in 1.. {
        match (left.next(), right.next()) {
            (None, None) => break,
            (model, program) if model != program => {
                return Some((line, shown(model), shown(program)))
            }
            _ => {}
        }
    }
    None
}

/// A line with its tabs and line feed as `\t` and `\n`.
fn shown(line: Option<&[u8]>) -> String {
    match line {
        None => String::from("no more lines"),
        Some(line) if line.len() > 200 => format!("{}...", line[..200].escape_ascii()),
        Some(line) => line.escape_ascii().to_string(),
    }
}
