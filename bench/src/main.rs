//! The same days through the model in place and through the engine, and how long each takes: first
//! as lists of calls, in one process, then as files, each through two programs. In a list each step
//! is lent 50,000,000 bytes, and the engine advances within the slice, as a day does. Between the
//! two, lists of single calls on a channel by value, one frame at a time. Last, the program that
//! prints the sheet of a day against the one that judges it.

#![allow(dead_code)]

#[path = "../../model/src/bench.rs"]
mod bench;
#[path = "../../model/src/calls.rs"]
mod calls;
#[path = "../../model/src/channel.rs"]
mod channel;
#[path = "../../model/src/day.rs"]
mod day;
#[path = "../../model/src/fast.rs"]
mod fast;
#[path = "../../model/src/long.rs"]
mod long;
#[path = "../../model/src/script.rs"]
mod script;
#[path = "../../model/src/text.rs"]
mod text;

use bench::Case;
use calls::{Call, What, MOST_LENT};
use channel::Verb;
use std::fs::{self, File};
use std::io;
use std::path::Path;
use std::process::{Command, ExitCode, Stdio};
use std::time::{Duration, Instant};

const ROUNDS: usize = 5;
const PROGRAM_ROUNDS: usize = 9;

const MODEL: &str = concat!(env!("CARGO_MANIFEST_DIR"), "/../model/target/release/model");
const SHEET: &str = concat!(env!("CARGO_MANIFEST_DIR"), "/../target/bin/sheet");
const ACCEPT: &str = concat!(env!("CARGO_MANIFEST_DIR"), "/../target/bin/accept");

// a slice is a pointer and a length
extern "C" {
    fn bench_day(
        servers: *const u64,
        servers_len: usize,
        period: u32,
        steps: *const u64,
        steps_len: usize,
        out: *mut u8,
        out_len: usize,
    ) -> u32;
    fn bench_calls(
        servers: *const u64,
        servers_len: usize,
        period: u32,
        calls: *const u64,
        calls_len: usize,
        out: *mut u8,
        out_len: usize,
        numbers: *mut u8,
        numbers_len: usize,
    ) -> u32;
}

/// A day as the engine takes it: a table, a period, and a number for each step.
#[derive(Default)]
struct Day {
    servers: Vec<u64>,
    period: u32,
    steps: Vec<u64>,
}

/// The number of an advance by one frame.
const FRAME: u64 = 8;

impl Day {
    fn new(calls: &[Call]) -> Day {
        let mut day = Day::default();
        for call in calls {
            let (about, kind) = match call.what {
                What::Table => continue,
                What::Server { identity, priority } => {
                    day.servers.extend([u64::from(identity), u64::from(priority)]);
                    continue;
                }
                What::Fresh { period } => {
                    day.period = period;
                    continue;
                }
                What::Act { verb, first, second } => {
                    let kind = Verb::ALL.iter().position(|&known| known == verb);
                    let about = u64::from(second) * 65_536 + u64::from(first);
                    (about, kind.expect("one of all") as u64)
                }
                What::Frame => (0, FRAME),
                What::Time { time } => (u64::from(time), 9),
                What::Refused { .. } => panic!("no case has such a call"),
            };
            day.steps.push(10 * about + kind);
        }
        day
    }

    /// The frame that it ends in.
    fn run(&self, out: &mut [u8]) -> u32 {
        // SAFETY: the pointers and lengths are those of slices, and the function asks for no more.
        unsafe {
            bench_day(
                self.servers.as_ptr(),
                self.servers.len(),
                self.period,
                self.steps.as_ptr(),
                self.steps.len(),
                out.as_mut_ptr(),
                out.len(),
            )
        }
    }
}

/// The same list as single calls on a channel by value: two numbers a call, the second of which is
/// the length of its slice.
struct Singles {
    day: Day,
    calls: Vec<u64>,
    numbers: Vec<u8>,
}

impl Singles {
    fn new(calls: &[Call]) -> Singles {
        let day = Day::new(calls);
        let calls: Vec<u64> = day.steps.iter().flat_map(|&step| [step, MOST_LENT as u64]).collect();
        let numbers = vec![0; day.steps.len()];
        Singles { day, calls, numbers }
    }

    /// The frame that they end in. The number of each call stands in `numbers` afterwards.
    fn run(&mut self, out: &mut [u8]) -> u32 {
        // SAFETY: the pointers and lengths are those of slices, and the function asks for no more.
        unsafe {
            bench_calls(
                self.day.servers.as_ptr(),
                self.day.servers.len(),
                self.day.period,
                self.calls.as_ptr(),
                self.calls.len(),
                out.as_mut_ptr(),
                out.len(),
                self.numbers.as_mut_ptr(),
                self.numbers.len(),
            )
        }
    }
}

/// Of one case: how many calls, or lines of a day; the bytes that come of them; and the times of
/// the two that are compared.
struct Row {
    calls: usize,
    bytes: u64,
    times: [Duration; 2],
}

/// The best of some rounds, in which the two take turns; or what differs.
fn time(calls: &[Call], ours: &mut [u8], theirs: &mut [u8]) -> Result<Row, String> {
    let day = Day::new(calls);
    let count = day.steps.len();
    // so that no run has to wait for its memory
    ours.fill(b'.');
    theirs.fill(b'.');
    let mut row = Row { calls: count, bytes: 0, times: [Duration::MAX; 2] };
    for _ in 0..ROUNDS {
        let start = Instant::now();
        let wanted = fast::run(calls, theirs, |_, _| {});
        row.times[0] = row.times[0].min(start.elapsed());

        let start = Instant::now();
        let ended = day.run(ours);
        row.times[1] = row.times[1].min(start.elapsed());

        if wanted.contains(&9) {
            return Err("a step does not fit its slice".to_string());
        }
        if ended != text::LAST_FRAME {
            return Err(format!("the engine ends in frame {ended}"));
        }
        if ours != theirs {
            return Err("the lent bytes differ".to_string());
        }
    }
    fast::run(calls, theirs, |_, written| row.bytes += written.len() as u64);
    Ok(row)
}

/// The same for single calls.
fn time_singles(calls: &[Call], ours: &mut [u8], theirs: &mut [u8]) -> Result<Row, String> {
    let mut singles = Singles::new(calls);
    let count = singles.numbers.len();
    ours.fill(b'.');
    theirs.fill(b'.');
    let mut row = Row { calls: count, bytes: 0, times: [Duration::MAX; 2] };
    for _ in 0..ROUNDS {
        let start = Instant::now();
        let wanted = fast::run(calls, theirs, |_, _| {});
        row.times[0] = row.times[0].min(start.elapsed());

        let start = Instant::now();
        let ended = singles.run(ours);
        row.times[1] = row.times[1].min(start.elapsed());

        if ended != text::LAST_FRAME {
            return Err(format!("the engine ends in frame {ended}"));
        }
        // the model has answers to the table and to the fresh channel too
        if !wanted.ends_with(&singles.numbers) {
            return Err("the numbers differ".to_string());
        }
        if ours != theirs {
            return Err("the lent bytes differ".to_string());
        }
    }
    fast::run(calls, theirs, |_, written| row.bytes += written.len() as u64);
    Ok(row)
}

/// A program that reads a day on standard input.
fn program(path: &str, words: &[&str], day: &Path, sheet: Stdio) -> io::Result<Command> {
    let mut command = Command::new(path);
    command.args(words).stdin(File::open(day)?).stdout(sheet);
    Ok(command)
}

/// The time of a whole process, whose output nobody reads.
fn process(mut command: Command) -> io::Result<Duration> {
    let start = Instant::now();
    let status = command.status()?;
    let time = start.elapsed();
    if status.success() {
        Ok(time)
    } else {
        Err(io::Error::other(format!("{}: {status}", command.get_program().to_string_lossy())))
    }
}

fn lines(day: &[u8]) -> usize {
    day.iter().filter(|&&byte| byte == b'\n').count()
}

/// The same for the two programs on one day, with its lines in place of calls.
fn time_programs(day: &[u8], file: &Path) -> Result<Row, String> {
    let fault = |error: io::Error| error.to_string();
    fs::write(file, day).map_err(fault)?;
    let sheet = |path, words: &[&str]| {
        program(path, words, file, Stdio::piped()).and_then(|mut command| command.output())
    };
    let wanted = sheet(MODEL, &["fast"]).map_err(fault)?.stdout;
    if sheet(SHEET, &[]).map_err(fault)?.stdout != wanted {
        return Err("the sheets differ".to_string());
    }
    let bytes = wanted.len() as u64;
    let mut row = Row { calls: lines(day), bytes, times: [Duration::MAX; 2] };
    let time = |path, words: &[&str]| program(path, words, file, Stdio::null()).and_then(process);
    for _ in 0..PROGRAM_ROUNDS {
        row.times[0] = row.times[0].min(time(MODEL, &["fast"]).map_err(fault)?);
        row.times[1] = row.times[1].min(time(SHEET, &[]).map_err(fault)?);
    }
    Ok(row)
}

/// The program that judges the files `day` and `sheet` of a folder.
fn accept(folder: &Path, verdict: Stdio) -> Command {
    let mut command = Command::new(ACCEPT);
    command.current_dir(folder).stdin(Stdio::null()).stdout(verdict);
    command
}

/// The middle one of an odd number of times.
fn median(mut times: Vec<Duration>) -> Duration {
    times.sort_unstable();
    times[times.len() / 2]
}

/// Where sheet prints to: a file, as at the desk, or nowhere.
#[derive(Clone, Copy)]
enum Print {
    File,
    Nowhere,
}

impl Print {
    fn to(self, folder: &Path) -> io::Result<Stdio> {
        match self {
            Print::File => Ok(File::create(folder.join("printed"))?.into()),
            Print::Nowhere => Ok(Stdio::null()),
        }
    }
}

/// The median of some rounds, in which sheet prints the sheet of a day and accept reads both; or
/// why there is none.
fn time_accept(day: &[u8], folder: &Path, print: Print) -> Result<Row, String> {
    let fault = |error: io::Error| error.to_string();
    let file = folder.join("day");
    fs::write(&file, day).map_err(fault)?;
    let sheet = program(SHEET, &[], &file, Stdio::piped()).and_then(|mut sheet| sheet.output());
    let sheet = sheet.map_err(fault)?.stdout;
    fs::write(folder.join("sheet"), &sheet).map_err(fault)?;
    let said = accept(folder, Stdio::piped()).output().map_err(fault)?.stdout;
    if said != b"same\n" {
        return Err(format!("accept says {} and not same", said.escape_ascii()));
    }
    let (mut printed, mut judged) = (Vec::new(), Vec::new());
    for _ in 0..PROGRAM_ROUNDS {
        let printing = print.to(folder).and_then(|to| program(SHEET, &[], &file, to));
        printed.push(printing.and_then(process).map_err(fault)?);
        judged.push(process(accept(folder, Stdio::null())).map_err(fault)?);
    }
    let times = [median(printed), median(judged)];
    Ok(Row { calls: lines(day), bytes: sheet.len() as u64, times })
}

/// The days, with their letters.
fn days() -> impl Iterator<Item = (Case, &'static str)> {
    Case::ALL.into_iter().zip(["a", "b", "c", "d"])
}

/// A line for each case, until one fails.
fn table<C>(
    cases: impl IntoIterator<Item = (C, &'static str)>,
    mut row: impl FnMut(C) -> Result<Row, String>,
) -> Result<(), String> {
    for (case, letter) in cases {
        let Row { calls, bytes, times } =
            row(case).map_err(|difference| format!("case {letter}: {difference}"))?;
        let [first, second] = times.map(|time| time.as_secs_f64() * 1000.0);
        let ratio = second / first;
        println!("{letter:<4}  {calls:>7}  {bytes:>13}  {first:>9.2}  {second:>9.2}  {ratio:>6.2}");
    }
    Ok(())
}

fn tables(folder: &Path) -> Result<(), String> {
    let file = &folder.join("day");
    let mut ours = vec![0; MOST_LENT];
    let mut theirs = vec![0; MOST_LENT];
    println!("lists of calls, the libraries in one process");
    println!("case    calls  bytes written   model ms  engine ms   ratio");
    table(days(), |case| time(&bench::list(case, text::LAST_FRAME), &mut ours, &mut theirs))?;
    println!(
        "single calls on a channel, one frame at a time: an entry every 100 frames, and in each"
    );
    println!("case    calls  bytes written   model ms  engine ms   ratio");
    table(bench::SINGLES, |gap| {
        time_singles(&bench::frame_by_frame(gap, text::LAST_FRAME), &mut ours, &mut theirs)
    })?;
    println!("days as files, a process for each: the program fast of the model, and sheet");
    println!("case    lines  bytes printed   model ms  engine ms   ratio");
    table(days(), |case| time_programs(&bench::day(case, text::LAST_FRAME), file))?;
    for (print, to) in [(Print::File, "to a file"), (Print::Nowhere, "to nowhere")] {
        println!("sheet, which prints {to}, and accept on the same day with its right sheet");
        println!("case    lines    sheet bytes   sheet ms  accept ms   ratio");
        table(days(), |case| time_accept(&bench::day(case, text::LAST_FRAME), folder, print))?;
    }
    Ok(())
}

fn main() -> ExitCode {
    let folder = std::env::temp_dir().join(format!("bench-{}", std::process::id()));
    let done = fs::create_dir_all(&folder)
        .map_err(|error| format!("{}: {error}", folder.display()))
        .and_then(|()| tables(&folder));
    // it may not be there
    let _ = fs::remove_dir_all(&folder);
    match done {
        Ok(()) => ExitCode::SUCCESS,
        Err(difference) => {
            eprintln!("{difference}");
            ExitCode::FAILURE
        }
    }
}
