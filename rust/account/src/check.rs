//! Compares what was printed for a script with the rules.

use std::fmt;
use std::ops::AddAssign;

use crate::any::Step;
use crate::play;
use crate::script::{lines, parse, Command};
use crate::system::{Answer, System};
use crate::tick::Candidates;

/// How much was checked, and which answers there were.
#[derive(Clone, Copy, Debug, Default, PartialEq, Eq)]
pub struct Tally {
    pub lines: u64,
    /// Ticks that were printed.
    pub ticks: u64,
    /// Ticks and calls of `any`.
    pub any_ticks: u64,
    pub any_calls: u64,
    pub done: u64,
    pub ids: u64,
    /// Refusals by number.
    pub no: [u64; 10],
    /// Lines that were not well-formed.
    pub unread: u64,
}

/// Where a transcript parts from the rules.
#[derive(Clone, Debug, PartialEq, Eq)]
pub struct Disagreement {
    /// The line of the script, counted from 1, and what it says.
    pub line: usize,
    pub command: String,
    /// The line of the transcript, counted from 1.
    pub answer_line: usize,
    /// What was found, and what was expected.
    pub what: String,
}

/// Checks a transcript against the rules, to the first disagreement.
pub fn check(script: &[u8], transcript: &[u8]) -> Result<Tally, Disagreement> {
    let mut checker = Checker {
        system: System::default(),
        answers: transcript,
        read: 0,
        tally: Tally::default(),
    };
    let mut last = (0, &b""[..]);
    for (i, line) in lines(script).enumerate() {
        last = (i + 1, line);
        let verdict = checker.line(i + 1, line);
        verdict.map_err(|what| checker.disagreement(last, what))?;
    }
    let verdict = checker.end();
    verdict.map_err(|what| checker.disagreement(last, what))?;
    Ok(checker.tally)
}

struct Checker<'a> {
    system: System,
    /// What is still to be read of the transcript.
    answers: &'a [u8],
    /// The number of the line that was read last, or was to be read.
    read: usize,
    tally: Tally,
}

/// What was found and what was expected, where these differ.
type Verdict = Result<(), String>;

impl<'a> Checker<'a> {
    fn line(&mut self, number: usize, line: &[u8]) -> Verdict {
        self.tally.lines += 1;
        match parse(line) {
            None => {
                self.tally.unread += 1;
                self.expect(&format!("line {number}?"))
            }
            Some(Command::Had) => self.expect(&self.system.had()),
            Some(Command::Tick(count)) => (0..count).try_for_each(|_| self.tick()),
            Some(Command::Any { seed, steps }) => self.any(seed, steps),
            Some(Command::Call(call)) => {
                let answer = self.system.call(call);
                self.tally.count(answer);
                self.expect(&answer.to_string())?;
                self.system.audit().map_err(|breach| breach.to_string())
            }
        }
    }

    /// Reads a line of the transcript, if there is one that has an end.
    fn next(&mut self) -> Option<&'a [u8]> {
        self.read += 1;
        let end = self.answers.iter().position(|&byte| byte == b'\n')?;
        let (line, rest) = self.answers.split_at(end);
        self.answers = &rest[1..];
        Some(line)
    }

    /// Reads a line of the transcript, which must be this one.
    fn expect(&mut self, expected: &str) -> Verdict {
        match self.next() {
            Some(line) if line == expected.as_bytes() => Ok(()),
            line => Err(self.difference(line, &format!("`{expected}`"))),
        }
    }

    /// Says what differs, after reading a line, or nothing.
    fn difference(&self, line: Option<&[u8]>, expected: &str) -> String {
        let found = match line {
            Some(line) => format!("`{}`", printable(line)),
            None if self.answers.is_empty() => "the end".to_string(),
            None => format!("`{}` and no end of a line", printable(self.answers)),
        };
        format!("found {found}, expected {expected}")
    }

    /// Reads whose a tick is, which must be allowed, and lets it pass.
    fn tick(&mut self) -> Verdict {
        let candidates = self.system.begin_tick();
        let line = self.next();
        let right = |whose| line == Some(self.system.tick_line(whose).as_bytes());
        match line.and_then(whose) {
            Some(whose) if candidates.allow(whose) && right(whose) => {
                self.tally.ticks += 1;
                let passed = self.system.pass(whose);
                passed.map_err(|breach| breach.to_string())
            }
            _ => Err(self.difference(line, &self.allowed(candidates))),
        }
    }

    /// All lines that would do for a tick.
    fn allowed(&self, candidates: Candidates) -> String {
        let line = |whose| format!("`{}`", self.system.tick_line(whose));
        match candidates {
            Candidates::Nobody => line(None),
            _ => {
                let places = candidates.places().iter();
                let lines: Vec<String> = places.map(|place| line(Some(place))).collect();
                lines.join(" or ")
            }
        }
    }

    fn any(&mut self, seed: u32, steps: u32) -> Verdict {
        let tally = &mut self.tally;
        let count = |step| match step {
            Step::Tick => tally.any_ticks += 1,
            Step::Call(_) => tally.any_calls += 1,
        };
        let made = play::any(&mut self.system, seed, steps, count);
        made.map_err(|breach| format!("within it {breach}"))
    }

    /// There is nothing more.
    fn end(&mut self) -> Verdict {
        if self.answers.is_empty() {
            return Ok(());
        }
        let line = self.next();
        Err(self.difference(line, "the end"))
    }

    /// Where the checker stands, and why it stopped there.
    fn disagreement(&self, (line, command): (usize, &[u8]), what: String) -> Disagreement {
        Disagreement {
            line,
            command: printable(command),
            answer_line: self.read,
            what,
        }
    }
}

/// Whose a tick is by a line of the transcript; `None` if it doesn't say.
fn whose(line: &[u8]) -> Option<Option<usize>> {
    if line == b"-" {
        return Some(None);
    }
    let word = line.split(|&byte| byte == b' ').next()?;
    let place = std::str::from_utf8(word).ok()?.parse().ok()?;
    Some(Some(place))
}

/// Bytes in a form that can be shown, cut if they are many.
fn printable(bytes: &[u8]) -> String {
    let shown = bytes.len().min(60);
    let dots = if bytes.len() > shown { ".." } else { "" };
    format!("{}{dots}", bytes[..shown].escape_ascii())
}

impl Tally {
    fn count(&mut self, answer: Answer) {
        match answer {
            Answer::Done => self.done += 1,
            Answer::Id(_) => self.ids += 1,
            Answer::No(refusal) => self.no[refusal as usize] += 1,
        }
    }

    /// All ticks, those of `any` among them.
    pub fn all_ticks(&self) -> u64 {
        self.ticks + self.any_ticks
    }
}

impl AddAssign for Tally {
    fn add_assign(&mut self, other: Tally) {
        self.lines += other.lines;
        self.ticks += other.ticks;
        self.any_ticks += other.any_ticks;
        self.any_calls += other.any_calls;
        self.done += other.done;
        self.ids += other.ids;
        for (sum, count) in self.no.iter_mut().zip(other.no) {
            *sum += count;
        }
        self.unread += other.unread;
    }
}

impl fmt::Display for Tally {
    fn fmt(&self, f: &mut fmt::Formatter) -> fmt::Result {
        write!(
            f,
            "{} lines, {} ticks ({} of any, with {} calls); answers: done {}, id {}",
            self.lines,
            self.all_ticks(),
            self.any_ticks,
            self.any_calls,
            self.done,
            self.ids
        )?;
        for number in [1, 2, 3, 4, 5, 6, 8, 9] {
            write!(f, ", no {number} {}", self.no[number])?;
        }
        write!(f, ", line? {}", self.unread)
    }
}

impl fmt::Display for Disagreement {
    fn fmt(&self, f: &mut fmt::Formatter) -> fmt::Result {
        let Disagreement { line, command, .. } = self;
        let (answer_line, what) = (self.answer_line, &self.what);
        write!(
            f,
            "script line {line} `{command}`, answer line {answer_line}: {what}"
        )
    }
}
