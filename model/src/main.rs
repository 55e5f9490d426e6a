//! A model of the playout group: days in, sheets out, and lists of calls with their answers,
//! written apart from the engine; and what sets other programs against it.

mod accepts;
mod bench;
mod calls;
mod channel;
mod compare;
mod day;
mod fast;
mod generate;
mod judge;
mod lists;
mod long;
mod pairs;
mod program;
mod script;
mod special;
mod text;
mod vectors;

#[cfg(test)]
mod judge_tests;
#[cfg(test)]
mod list_tests;
#[cfg(test)]
mod pair_tests;
#[cfg(test)]
mod reply_tests;
#[cfg(test)]
mod tests;
#[cfg(test)]
mod vector_tests;

use std::io::{self, Read, Write};
use std::process::ExitCode;

const USAGE: &str =
    "usage: model sheet | fast | judge DAY SHEET | day SEED | long SERVERS PERIOD GAP |\n\
    \x20      check N | vectors SEED N | compare PROGRAM N SEED | pairs SEED N |\n\
    \x20      accepts PROGRAM N SEED | lists SEED N | calls | check-calls |\n\
    \x20      bench-list CASE | bench-day CASE | time CASE\n\
    sheet, fast   a day on standard input, its sheet on standard output\n\
    judge         `same` if the file SHEET is the sheet of the file DAY, else the number of its\n\
    \x20             first line that departs; a file that cannot be opened counts as empty\n\
    day           a day made from a seed\n\
    long          a whole day, period at least the servers, gap 1 or more\n\
    check         sheet against fast for seeds 1 to N\n\
    vectors       N days with their sheets in one file: those made by hand, others from seeds\n\
    compare       what PROGRAM prints for N days from SEED on, against their sheets; status 1 if\n\
    \x20             one differs, 2 if PROGRAM cannot be run\n\
    pairs         N days made from a seed, each with a sheet that is damaged in some way or none,\n\
    \x20             and the number of its first line that departs, in one file\n\
    accepts       what PROGRAM says of N such pairs, in a folder with the files day and sheet,\n\
    \x20             against judge; status as of compare\n\
    lists         N short lists of calls made from a seed\n\
    calls         lists of calls on standard input, their answers on standard output\n\
    check-calls   the plain answers against fast, for lists on standard input\n\
    bench-list    a whole day as a list of calls, case a, b, c or d; or as single calls, e or f\n\
    bench-day     a day of these as a file, a, b, c or d\n\
    time          the best of three runs of a case in place, the bytes it writes, and FNV-1a over\n\
    \x20             the number of each answer, as one byte, followed by the bytes written\n";

fn main() -> ExitCode {
    let arguments: Vec<String> = std::env::args().skip(1).collect();
    let words: Vec<&str> = arguments.iter().map(String::as_str).collect();
    let numbers: Vec<u64> = words.iter().skip(1).filter_map(|word| word.parse().ok()).collect();
    let done = match (words.as_slice(), numbers.as_slice()) {
        (["sheet"], _) => read_input().and_then(|input| print(&day::sheet(&input))),
        (["judge", day, sheet], _) => print_verdict(day, sheet),
        (["fast"], _) => read_input().and_then(|input| fast::sheet(&input, io::stdout().lock())),
        (["day", _], &[seed]) => print(&generate::day(seed)),
        (["long", _, _, _], &[servers @ 1..=16, period @ 2..=250, gap @ 1..=2_159_999])
            if period >= servers =>
        {
            print(&long::long_day(servers as u32, period as u32, gap as u32))
        }
        (["check", _], &[count]) => return check(count),
        (["vectors", _, _], &[seed, count]) => match vectors::vectors(seed, count as usize) {
            Ok(days) => print(&vectors::write(&days)),
            Err(least) => Err(io::Error::new(
                io::ErrorKind::InvalidInput,
                format!("{least} days are made by hand: ask for {least} or more"),
            )),
        },
        (["compare", program, count, seed], _) => {
            return match (count.parse(), seed.parse()) {
                (Ok(count), Ok(seed)) => status(program::compare(program, count, seed)),
                _ => usage(),
            }
        }
        (["pairs", _, _], &[seed, count]) => {
            print(&pairs::write(&pairs::pairs(seed, count as usize)))
        }
        (["accepts", program, count, seed], _) => {
            return match (count.parse(), seed.parse()) {
                (Ok(count), Ok(seed)) => status(accepts::accepts(program, count, seed)),
                _ => usage(),
            }
        }
        (["lists", _, _], &[seed, count]) => {
            print(&calls::write(&lists::lists(seed, count).concat()))
        }
        (["calls"], _) => read_calls().and_then(|list| print_answers(&list)),
        (["check-calls"], _) => read_calls().and_then(|list| check_calls(&list)),
        (["bench-list", case], _) => match bench::lettered(case, text::LAST_FRAME) {
            Some(list) => print(&calls::write(&list)),
            None => return usage(),
        },
        (["bench-day", case], _) => match bench::Case::read(case) {
            Some(case) => print(&bench::day(case, text::LAST_FRAME)),
            None => return usage(),
        },
        (["time", case], _) => match bench::lettered(case, text::LAST_FRAME) {
            Some(list) => print(time(&list).as_bytes()),
            None => return usage(),
        },
        _ => return usage(),
    };
    match done {
        Ok(()) => ExitCode::SUCCESS,
        Err(error) => {
            eprintln!("model: {error}");
            ExitCode::FAILURE
        }
    }
}

fn usage() -> ExitCode {
    eprint!("{USAGE}");
    ExitCode::from(2)
}

fn read_input() -> io::Result<Vec<u8>> {
    let mut input = Vec::new();
    io::stdin().lock().read_to_end(&mut input)?;
    Ok(input)
}

fn bad_line(line: usize, what: &str) -> io::Error {
    io::Error::new(io::ErrorKind::InvalidData, format!("line {line}: {what}"))
}

fn read_calls() -> io::Result<Vec<calls::Call>> {
    calls::read(&read_input()?).map_err(|line| bad_line(line, "not a call"))
}

fn print_answers(list: &[calls::Call]) -> io::Result<()> {
    let answers = calls::answers(list);
    print(&answers.map_err(|line| bad_line(line, "a call without a channel"))?)
}

fn print_verdict(day: &str, sheet: &str) -> io::Result<()> {
    let verdict = judge::judge(&judge::read(day)?, &judge::read(sheet)?)?;
    print(judge::said(verdict).as_bytes())
}

/// Stops at the first call that the two programs answer in different ways.
fn check_calls(list: &[calls::Call]) -> io::Result<()> {
    match compare::compare(list) {
        None => print(format!("{} calls, no difference\n", list.len()).as_bytes()),
        Some(line) => Err(bad_line(line, "the answers differ")),
    }
}

fn time(list: &[calls::Call]) -> String {
    let (best, refused, sum) = bench::time(list);
    let ms = best.as_secs_f64() * 1000.0;
    let calls = list.iter().filter(|call| call.what.is_call()).count();
    format!(
        "{ms:.3} ms, {calls} calls, {refused} refused, {} bytes, checksum {:016x}\n",
        sum.bytes, sum.check
    )
}

fn print(bytes: &[u8]) -> io::Result<()> {
    let mut out = io::stdout().lock();
    out.write_all(bytes)?;
    out.flush()
}

/// Of a comparison with a program, which stops at the first difference.
fn status(compared: Result<bool, String>) -> ExitCode {
    match compared {
        Ok(true) => ExitCode::SUCCESS,
        Ok(false) => ExitCode::FAILURE,
        Err(message) => {
            eprintln!("model: {message}");
            ExitCode::from(2)
        }
    }
}

/// Stops at the first seed whose two sheets differ.
fn check(count: u64) -> ExitCode {
    for seed in 1..=count {
        let input = generate::day(seed);
        let plain = day::sheet(&input);
        let mut quick = Vec::new();
        if let Err(error) = fast::sheet(&input, &mut quick) {
            eprintln!("model: {error}");
            return ExitCode::FAILURE;
        }
        if plain != quick {
            let line = plain
                .split(|&byte| byte == b'\n')
                .zip(quick.split(|&byte| byte == b'\n'))
                .take_while(|(left, right)| left == right)
                .count();
            println!("seed {seed}: the sheets differ at line {}", line + 1);
            return ExitCode::FAILURE;
        }
    }
    println!("{count} days, no difference");
    ExitCode::SUCCESS
}
