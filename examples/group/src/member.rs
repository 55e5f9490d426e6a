//! One server of the group: a process that is told what it hears and when a frame comes.

use std::io::{BufRead, BufReader, BufWriter, Write};
use std::process::{Child, ChildStdin, ChildStdout, Command, Stdio};
use std::sync::mpsc::{self, RecvTimeoutError};
use std::thread;
use std::time::Duration;

/// How long a server may take to tell its rules before the group says that it waits.
const PATIENCE: Duration = Duration::from_secs(5);

pub struct Member {
    pub identity: u16,
    program: String,
    child: Child,
    input: BufWriter<ChildStdin>,
    output: BufReader<ChildStdout>,
    /// The heartbeats that it sent in the present frame, in the order sent.
    pub sent: Vec<Vec<u8>>,
}

impl Member {
    pub fn start(
        program: &str,
        identity: u16,
        priority: u8,
        period: u32,
    ) -> Result<Member, String> {
        let mut child = Command::new(program)
            .args([identity.to_string(), priority.to_string(), period.to_string()])
            .stdin(Stdio::piped())
            .stdout(Stdio::piped())
            .spawn()
            .map_err(|error| format!("{program} cannot be started: {error}"))?;
        let (Some(input), Some(output)) = (child.stdin.take(), child.stdout.take()) else {
            return Err(format!("{program} has no pipes"));
        };
        Ok(Member {
            identity,
            program: program.to_string(),
            child,
            input: BufWriter::new(input),
            output: BufReader::new(output),
            sent: Vec::new(),
        })
    }

    pub fn name(&self) -> String {
        format!("server {} ({})", self.identity, self.program)
    }

    fn fault(&self, what: &str) -> String {
        format!("{} {what}", self.name())
    }

    /// The line that it begins with, which has the number of its rules.
    pub fn rules(&mut self) -> Result<Vec<u8>, String> {
        let (told, waiting) = mpsc::channel::<()>();
        let waits = self.fault("is waited for: it prints `rules`, a tab and a number at its start");
        thread::spawn(move || {
            if waiting.recv_timeout(PATIENCE) == Err(RecvTimeoutError::Timeout) {
                eprintln!("group: {waits}");
            }
        });
        let (line, end) = (self.line()?, self.line()?);
        drop(told);
        let number = line.strip_prefix(b"rules\t").and_then(|rest| rest.strip_suffix(b"\n"));
        match number {
            Some([_, ..]) if end == b"\n" => Ok(line),
            _ => Err(self.fault("does not tell by which rules it plays")),
        }
    }

    /// Hands over what another server told of its rules. Whether this one plays with it: one that
    /// does not ends.
    pub fn plays_by(&mut self, rules: &[u8]) -> bool {
        self.ask(rules).is_ok() && self.answer().is_ok_and(|lines| lines.is_empty())
    }

    /// A line, with its line feed. It goes out with the next `ask`.
    pub fn tell(&mut self, line: &[u8]) -> Result<(), String> {
        self.input.write_all(line).map_err(|error| self.fault(&format!("takes no line: {error}")))
    }

    /// A line that is answered. Others may be asked before the answer is read.
    pub fn ask(&mut self, line: &[u8]) -> Result<(), String> {
        self.tell(line)?;
        self.input.flush().map_err(|error| self.fault(&format!("takes no line: {error}")))
    }

    /// The next line, with its line feed.
    fn line(&mut self) -> Result<Vec<u8>, String> {
        let mut line = Vec::new();
        let read = self.output.read_until(b'\n', &mut line);
        read.map_err(|error| self.fault(&format!("cannot be read: {error}")))?;
        if !line.ends_with(b"\n") {
            return Err(self.fault("ended within its answer"));
        }
        Ok(line)
    }

    /// The lines of the sheet in the answer; what was sent is kept.
    pub fn answer(&mut self) -> Result<Vec<u8>, String> {
        let mut sheet = Vec::new();
        loop {
            let line = self.line()?;
            if line == b"\n" {
                return Ok(sheet);
            }
            match line.iter().filter(|&&byte| byte == b'\t').count() {
                2 => sheet.extend(line),
                3 => self.sent.push(line),
                _ => {
                    let line = String::from_utf8_lossy(&line);
                    let line = line.trim_end();
                    return Err(self.fault(&format!("answered neither line nor heartbeat: {line}")));
                }
            }
        }
    }

    /// Nothing more is asked.
    pub fn end(self) -> Result<(), String> {
        let Member { identity, program, mut child, input, .. } = self;
        drop(input);
        match child.wait() {
            Ok(status) if status.success() => Ok(()),
            Ok(status) => Err(format!("server {identity} ({program}) ended with {status}")),
            Err(error) => Err(format!("server {identity} ({program}) is lost: {error}")),
        }
    }
}
