//! A program that judges the sheet of a day, against the model.

use crate::judge::said;
use crate::pairs::{Length, Pair, Pairs};
use crate::program::{cannot_run, watch, Run};
use std::fs;
use std::io;
use std::path::{Path, PathBuf};
use std::process::{Command, Stdio};
use std::time::{Duration, Instant};

/// Bytes that are read of what the program says; a verdict is shorter.
const MOST_SAID: u64 = 4_096;
/// Between two lines on how far it has come.
const NOW_AND_THEN: Duration = Duration::from_secs(10);

/// The folder that the program is run in; it is removed at the end, unless it is to be kept.
struct Folder {
    path: PathBuf,
    keep: bool,
}

impl Drop for Folder {
    fn drop(&mut self) {
        if !self.keep {
            let _ = fs::remove_dir_all(&self.path);
        }
    }
}

/// Prints what came of it. False if some verdict differs; an error says what to do.
pub fn accepts(program: &str, count: u64, seed: u64) -> Result<bool, String> {
    let path = absolute(program)?;
    let temporary = std::env::temp_dir().join(format!("pairs-{}-{seed}", std::process::id()));
    let mut folder = Folder { path: temporary, keep: false };
    let mut pairs = Pairs::new(seed);
    let mut told = Instant::now();
    for turn in 0..count {
        let pair = pairs.next(length(turn));
        put(&folder.path, &pair, turn).map_err(|error| cannot_write(&folder.path, &error))?;
        let run = run(&path, program, &folder.path)?;
        if run.output != said(pair.answer()).as_bytes() || run.fault.is_some() {
            folder.keep = true;
            report(turn, &pair, &run, &folder.path, program);
            return Ok(false);
        }
        if told.elapsed() > NOW_AND_THEN {
            eprintln!("model: {} of {count} pairs agree so far", turn + 1);
            told = Instant::now();
        }
    }
    println!("{count} pairs agree");
    Ok(true)
}

/// Every 500th is a whole day, every 20th of the others of any length.
fn length(turn: u64) -> Length {
    match turn {
        _ if turn % 500 == 499 => Length::Long,
        _ if turn % 20 == 19 => Length::Any,
        _ => Length::Short,
    }
}

/// The program is run in another folder, so that its path must not depend on this one.
fn absolute(program: &str) -> Result<PathBuf, String> {
    if !program.contains('/') {
        return Ok(PathBuf::from(program));
    }
    fs::canonicalize(program).map_err(|error| cannot_run(program, &error))
}

// The files

fn put(folder: &Path, pair: &Pair, turn: u64) -> io::Result<()> {
    if folder.exists() {
        fs::remove_dir_all(folder)?;
    }
    fs::create_dir_all(folder)?;
    put_file(&folder.join("day"), &pair.day, turn)?;
    put_file(&folder.join("sheet"), &pair.sheet, turn / 3)
}

/// In the place of an empty file there is none, or a folder, two times out of three.
fn put_file(path: &Path, bytes: &[u8], turn: u64) -> io::Result<()> {
    match turn % 3 {
        0 if bytes.is_empty() => Ok(()),
        1 if bytes.is_empty() => fs::create_dir(path),
        _ => fs::write(path, bytes),
    }
}

fn cannot_write(folder: &Path, error: &io::Error) -> String {
    format!(
        "cannot write to {}: {error}; set TMPDIR to a folder that can be written to",
        folder.display()
    )
}

// The program

fn run(path: &Path, program: &str, folder: &Path) -> Result<Run, String> {
    let child = Command::new(path)
        .current_dir(folder)
        .stdin(Stdio::null())
        .stdout(Stdio::piped())
        .spawn()
        .map_err(|error| cannot_run(program, &error))?;
    watch(child, MOST_SAID)
}

fn report(turn: u64, pair: &Pair, run: &Run, folder: &Path, program: &str) {
    println!("pair {} ({:?}): the verdicts differ", turn + 1, pair.way);
    println!("the day:   {}", shown(&pair.day));
    println!("its sheet: {}", shown(&pair.due));
    println!("the sheet: {}", shown(&pair.sheet));
    println!("model:     {}", said(pair.answer()).escape_default());
    println!("program:   {}", shown(&run.output));
    if let Some(fault) = &run.fault {
        println!("the program did not end by itself: {fault}");
    }
    let path = folder.display();
    println!("both files are in {path}: look at `(cd {path} && {program})` and");
    println!("`model judge {path}/day {path}/sheet`");
}

/// The beginning of some bytes, with what is not to be seen as `\t`, `\n` and the like.
fn shown(bytes: &[u8]) -> String {
    const MOST: usize = 2_000;
    if bytes.len() <= MOST {
        return bytes.escape_ascii().to_string();
    }
    format!("{}... ({} bytes)", bytes[..MOST].escape_ascii(), bytes.len())
}
