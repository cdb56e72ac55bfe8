//! A program that is given lines and waited for: each answer is read before the next line is written.

use crate::programs::started;
use crate::tally::same;
use std::io::{BufRead, BufReader, Read, Write};
use std::process::{Child, ChildStdin, ChildStdout};
use std::sync::mpsc::{channel, Receiver, RecvTimeoutError, Sender};
use std::thread;
use std::time::Duration;

/// How long a program may take to print a line.
const PATIENCE: Duration = Duration::from_secs(20);

pub struct Session {
    program: &'static str,
    child: Child,
    input: Option<ChildStdin>,
    lines: Receiver<Vec<u8>>,
    /// All that it was given.
    given: Vec<u8>,
}

/// Hands on the lines of the output, each with its line feed, as they come.
fn hand_on(output: ChildStdout, lines: Sender<Vec<u8>>) {
    let mut output = BufReader::new(output);
    loop {
        let mut line = Vec::new();
        match output.read_until(b'\n', &mut line) {
            Ok(length) if length > 0 && lines.send(line).is_ok() => (),
            _ => return,
        }
    }
}

impl Session {
    pub fn start(program: &'static str) -> Result<Session, String> {
        let mut child = started(program)?;
        let (input, output) = (child.stdin.take(), child.stdout.take().expect("the output is a pipe"));
        let (sender, lines) = channel();
        thread::spawn(move || hand_on(output, sender));
        Ok(Session { program, child, input, lines, given: Vec::new() })
    }

    fn told(&self, fault: &str) -> String {
        format!("{}, fed line by line, {fault}; it was given:\n{}", self.program, String::from_utf8_lossy(&self.given))
    }

    pub fn give(&mut self, bytes: &[u8]) -> Result<(), String> {
        self.given.extend(bytes);
        let input = self.input.as_mut().expect("the input is open");
        input.write_all(bytes).and_then(|()| input.flush()).map_err(|error| self.told(&format!("takes no more: {error}")))
    }

    /// The next line that is printed; none where the output ends.
    fn line(&self) -> Result<Option<Vec<u8>>, String> {
        match self.lines.recv_timeout(PATIENCE) {
            Ok(line) => Ok(Some(line)),
            Err(RecvTimeoutError::Disconnected) => Ok(None),
            Err(RecvTimeoutError::Timeout) => Err(self.told(&format!("prints nothing for {} s", PATIENCE.as_secs()))),
        }
    }

    /// A line, and what is to be printed for it: as many lines are read. Gives the last of them.
    pub fn ask(&mut self, line: &[u8], wanted: &[u8]) -> Result<Vec<u8>, String> {
        self.give(line)?;
        let mut last = Vec::new();
        for wanted in wanted.split_inclusive(|byte| *byte == b'\n') {
            last = self.line()?.ok_or_else(|| self.told("ends its output"))?;
            let told = |text: &[u8]| String::from_utf8_lossy(text).into_owned();
            let differs = |difference| format!("{}, fed line by line: {difference}", self.program);
            same(&self.given, told(wanted), told(&last)).map_err(differs)?;
        }
        Ok(last)
    }

    /// The end of the input: nothing more is printed, and the program ends well.
    pub fn end(mut self) -> Result<(), String> {
        drop(self.input.take());
        if let Some(line) = self.line()? {
            return Err(self.told(&format!("prints a line too many: {}", String::from_utf8_lossy(&line))));
        }
        let status = self.child.wait().map_err(|error| self.told(&format!("does not end: {error}")))?;
        let mut complaint = Vec::new();
        if let Some(mut pipe) = self.child.stderr.take() {
            let _ = pipe.read_to_end(&mut complaint);
        }
        match status.success() {
            true => Ok(()),
            false => Err(self.told(&format!("ends with {status}: {}", String::from_utf8_lossy(&complaint)))),
        }
    }
}

impl Drop for Session {
    fn drop(&mut self) {
        // Nothing is left to end where the program has ended.
        let _ = self.child.kill();
        let _ = self.child.wait();
    }
}
