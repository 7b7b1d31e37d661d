//! Steps to play, and the log that comes of them.

use crate::raw;

/// What a task is to be made as. The numbers are as asked for, in range or not.
#[derive(Clone, Copy, Debug, PartialEq, Eq)]
pub enum Kind {
    Reserved { quota: u32, period: u32 },
    Fixed { rank: u32 },
    Fair { weight: u32 },
}

/// A call to the scheduler. The numbers are as asked for, in range or not.
#[derive(Clone, Copy, Debug, PartialEq, Eq)]
pub enum Call {
    Make(Kind),
    End(u32),
    Wake(u32),
    Sleep(u32),
    Lock(u32, u32),
    Unlock(u32, u32),
}

/// What is asked for next.
#[derive(Clone, Copy, Debug, PartialEq, Eq)]
pub enum Step {
    Tick,
    Call(Call),
}

/// The answer to a call: done, the new task's number, or the refusal's number.
#[derive(Clone, Copy, Debug, PartialEq, Eq)]
pub enum Answer {
    Done,
    Id(u32),
    No(u32),
}

/// What came of a step.
#[derive(Clone, Copy, Debug, PartialEq, Eq)]
pub enum Entry {
    /// A tick: whose it was, if anybody's, and who ran in it.
    Ran(Option<u32>, u32),
    Called(Call, Answer),
}

/// A step as plain numbers: 0 a tick; 1 to 3 make reserved (quota, period),
/// fixed (rank), fair (weight); 4 end, 5 wake and 6 sleep (task); 7 lock and
/// 8 unlock (task, lock).
#[repr(C)]
#[derive(Clone, Copy, Debug, Default, PartialEq, Eq)]
pub struct RawStep {
    pub what: u32,
    pub first: u32,
    pub second: u32,
}

/// An entry as plain numbers: its step, and the answer. To a tick: 0 nobody's,
/// 1 somebody's, `first` says whose and `second` who ran. To a call: 0 done,
/// 1 the task's number, 2 the refusal's number, which is `value`.
#[repr(C)]
#[derive(Clone, Copy, Debug, Default, PartialEq, Eq)]
pub struct RawEntry {
    pub what: u32,
    pub first: u32,
    pub second: u32,
    pub answer: u32,
    pub value: u32,
}

/// The first step, counted from 0, that is none.
#[derive(Clone, Copy, Debug, PartialEq, Eq)]
pub struct BadStep(pub usize);

impl std::fmt::Display for BadStep {
    fn fmt(&self, f: &mut std::fmt::Formatter) -> std::fmt::Result {
        write!(f, "step {} is none that there is", self.0)
    }
}

impl std::error::Error for BadStep {}

impl From<Call> for RawStep {
    fn from(call: Call) -> RawStep {
        let (what, first, second) = match call {
            Call::Make(Kind::Reserved { quota, period }) => (1, quota, period),
            Call::Make(Kind::Fixed { rank }) => (2, rank, 0),
            Call::Make(Kind::Fair { weight }) => (3, weight, 0),
            Call::End(task) => (4, task, 0),
            Call::Wake(task) => (5, task, 0),
            Call::Sleep(task) => (6, task, 0),
            Call::Lock(task, lock) => (7, task, lock),
            Call::Unlock(task, lock) => (8, task, lock),
        };
        RawStep {
            what,
            first,
            second,
        }
    }
}

impl From<Step> for RawStep {
    fn from(step: Step) -> RawStep {
        match step {
            Step::Tick => RawStep::default(),
            Step::Call(call) => call.into(),
        }
    }
}

impl RawEntry {
    /// What the numbers say; `None` if they are none that is written.
    pub fn entry(self) -> Option<Entry> {
        if self.what == 0 {
            return match self.answer {
                0 => Some(Entry::Ran(None, self.second)),
                1 => Some(Entry::Ran(Some(self.first), self.second)),
                _ => None,
            };
        }
        let answer = match self.answer {
            0 => Answer::Done,
            1 => Answer::Id(self.value),
            2 => Answer::No(self.value),
            _ => return None,
        };
        Some(Entry::Called(self.call()?, answer))
    }

    fn call(self) -> Option<Call> {
        let (first, second) = (self.first, self.second);
        Some(match self.what {
            1 => Call::Make(Kind::Reserved {
                quota: first,
                period: second,
            }),
            2 => Call::Make(Kind::Fixed { rank: first }),
            3 => Call::Make(Kind::Fair { weight: first }),
            4 => Call::End(first),
            5 => Call::Wake(first),
            6 => Call::Sleep(first),
            7 => Call::Lock(first, second),
            8 => Call::Unlock(first, second),
            _ => return None,
        })
    }
}

/// Plays steps into a log, from its start, as far as it has room, by the
/// scheduler's `hours`; says how many entries were written.
///
/// If a step is none that there is, nothing is played.
pub fn hours_into(steps: &[RawStep], log: &mut [RawEntry]) -> Result<usize, BadStep> {
    count(steps, raw::hours(steps, log))
}

/// The same by a loop whose contract says what the log holds: a legal run
/// that answers the steps one by one.
pub fn record_into(steps: &[RawStep], log: &mut [RawEntry]) -> Result<usize, BadStep> {
    count(steps, raw::record(steps, log))
}

fn count(steps: &[RawStep], answer: u64) -> Result<usize, BadStep> {
    match answer {
        raw::REFUSED => Err(BadStep(raw::first_bad(steps) as usize)),
        written => Ok(written as usize),
    }
}

/// Plays all steps by the scheduler's `hours`.
pub fn hours(steps: &[Step]) -> Vec<Entry> {
    whole(steps, hours_into)
}

/// Plays all steps by the loop of [`record_into`].
pub fn record(steps: &[Step]) -> Vec<Entry> {
    whole(steps, record_into)
}

type Play = fn(&[RawStep], &mut [RawEntry]) -> Result<usize, BadStep>;

fn whole(steps: &[Step], play: Play) -> Vec<Entry> {
    let steps: Vec<RawStep> = steps.iter().map(|&step| step.into()).collect();
    let mut log = vec![RawEntry::default(); steps.len()];
    let written = play(&steps, &mut log).expect("every step is one");
    let entries = log[..written].iter();
    entries.map(|raw| raw.entry().expect("written")).collect()
}
