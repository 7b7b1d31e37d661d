//! The state of the scheduler, and calls.

use std::fmt;

use crate::fairness::{Fairness, Unfair};
use crate::script::{Call, Kind};
use crate::task::{share, Far, Lock, Place, Role, Task};
use crate::{PLACES, SHARES};

/// Why a call is turned away.
#[derive(Clone, Copy, Debug, PartialEq, Eq)]
pub enum Refusal {
    BadNumber = 1,
    NoPlace = 2,
    NoShare = 3,
    NoTask = 4,
    Ring = 5,
    Owns = 6,
    NotOwner = 8,
    Waits = 9,
}

/// The answer to a call.
#[derive(Clone, Copy, Debug, PartialEq, Eq)]
pub enum Answer {
    Done,
    Id(usize),
    No(Refusal),
}

impl fmt::Display for Answer {
    fn fmt(&self, f: &mut fmt::Formatter) -> fmt::Result {
        match self {
            Answer::Done => write!(f, "done"),
            Answer::Id(place) => write!(f, "id {place}"),
            Answer::No(refusal) => write!(f, "no {}", *refusal as u8),
        }
    }
}

/// Something promised that does not hold.
#[derive(Clone, Copy, Debug, PartialEq, Eq)]
pub enum Breach {
    /// A window is over of which its task has had more than its quota, or less
    /// though it was whole.
    Quota { place: usize, had: u32, quota: u32 },
    /// A pair of fair tasks was served too differently.
    Unfair(Unfair),
    /// Tasks wait for each other in a ring.
    Ring { place: usize },
    /// Shares come to more than is allowed.
    Shares { sum: u32 },
}

impl fmt::Display for Breach {
    fn fmt(&self, f: &mut fmt::Formatter) -> fmt::Result {
        match self {
            Breach::Quota { place, had, quota } => write!(
                f,
                "found that the window of {place} is over with {had} ticks had, expected {quota}"
            ),
            Breach::Unfair(u) => write!(
                f,
                "found {} of weight {} with {} ticks since {} of weight {} had {}, expected fewer",
                u.first, u.v, u.a, u.second, u.w, u.b
            ),
            Breach::Ring { place } => write!(f, "found a ring where {place} waits"),
            Breach::Shares { sum } => write!(f, "found shares of {sum}, expected {SHARES} at most"),
        }
    }
}

/// The state of the scheduler.
#[derive(Clone, Debug)]
pub struct System {
    pub(crate) places: [Place; PLACES],
    locks: Vec<Lock>,
    pub(crate) mark: Far,
    /// Counts makings and ticks, to tell which was longer ago.
    pub(crate) moment: u64,
    pub(crate) fairness: Fairness,
}

impl Default for System {
    fn default() -> System {
        System {
            places: [Place::Free; PLACES],
            locks: vec![Lock::default(); PLACES],
            mark: Far::ZERO,
            moment: 0,
            fairness: Fairness::default(),
        }
    }
}

impl System {
    /// Makes a call.
    pub fn call(&mut self, call: Call) -> Answer {
        let answer = match call {
            Call::Make(kind) => self.make(kind),
            Call::End(i) => self.end(i),
            Call::Wake(i) => self.wake(i),
            Call::Sleep(i) => self.sleep(i),
            Call::Lock(i, m) => self.lock(i, m),
            Call::Unlock(i, m) => self.unlock(i, m),
        };
        answer.unwrap_or_else(Answer::No)
    }

    fn make(&mut self, kind: Kind) -> Result<Answer, Refusal> {
        if !kind.in_range() {
            return Err(Refusal::BadNumber);
        }
        let free = |place: &Place| matches!(place, Place::Free);
        let place = self.places.iter().position(free).ok_or(Refusal::NoPlace)?;
        if let Kind::Reserved { quota, period } = kind {
            if self.shares() + share(quota, period) > SHARES {
                return Err(Refusal::NoShare);
            }
        }
        let role = self.role(kind);
        self.places[place] = Place::Taken(Task {
            role,
            awake: false,
            awaits: None,
            had: 0,
        });
        Ok(Answer::Id(place))
    }

    /// What a new task of a kind begins with.
    fn role(&mut self, kind: Kind) -> Role {
        match kind {
            Kind::Reserved { quota, period } => Role::Reserved {
                quota,
                period,
                window: None,
            },
            Kind::Fixed { rank } => Role::Fixed {
                rank,
                last: self.next_moment(),
            },
            Kind::Fair { weight } => Role::Fair {
                far: self.mark.rounded_up(weight).on(1),
                wanted: false,
            },
        }
    }

    pub(crate) fn next_moment(&mut self) -> u64 {
        self.moment += 1;
        self.moment
    }

    fn end(&mut self, i: u32) -> Result<Answer, Refusal> {
        let place = self.find(i)?;
        self.not_waiting(place)?;
        if self.locks.iter().any(|lock| lock.owner == Some(place)) {
            return Err(Refusal::Owns);
        }
        self.places[place] = match self.places[place].task().map(|task| task.role) {
            Some(Role::Reserved {
                quota,
                period,
                window: Some(window),
            }) => Place::Kept {
                share: share(quota, period),
                left: window.left,
            },
            _ => Place::Free,
        };
        Ok(Answer::Done)
    }

    fn wake(&mut self, i: u32) -> Result<Answer, Refusal> {
        let place = self.find(i)?;
        self.task_mut(place).awake = true;
        Ok(Answer::Done)
    }

    fn sleep(&mut self, i: u32) -> Result<Answer, Refusal> {
        let place = self.find(i)?;
        self.not_waiting(place)?;
        self.task_mut(place).awake = false;
        Ok(Answer::Done)
    }

    fn lock(&mut self, i: u32, m: u32) -> Result<Answer, Refusal> {
        let place = self.find(i)?;
        let lock = find_lock(m)?;
        self.not_waiting(place)?;
        if !self.places[place].task().is_some_and(|task| task.awake) {
            return Err(Refusal::Waits);
        }
        match self.locks[lock].owner {
            None => self.locks[lock].owner = Some(place),
            Some(owner) if self.runner(owner) == place => return Err(Refusal::Ring),
            Some(_) => {
                self.locks[lock].queue.push_back(place);
                self.task_mut(place).awaits = Some(lock);
            }
        }
        Ok(Answer::Done)
    }

    fn unlock(&mut self, i: u32, m: u32) -> Result<Answer, Refusal> {
        let place = self.find(i)?;
        let lock = find_lock(m)?;
        self.not_waiting(place)?;
        if self.locks[lock].owner != Some(place) {
            return Err(Refusal::NotOwner);
        }
        let next = self.locks[lock].queue.pop_front();
        self.locks[lock].owner = next;
        if let Some(next) = next {
            self.task_mut(next).awaits = None;
        }
        Ok(Answer::Done)
    }

    fn find(&self, i: u32) -> Result<usize, Refusal> {
        let place = usize::try_from(i).map_err(|_| Refusal::NoTask)?;
        self.task(place).map(|_| place).ok_or(Refusal::NoTask)
    }

    fn not_waiting(&self, place: usize) -> Result<(), Refusal> {
        match self.places[place].task().and_then(|task| task.awaits) {
            Some(_) => Err(Refusal::Waits),
            None => Ok(()),
        }
    }

    pub(crate) fn task_mut(&mut self, place: usize) -> &mut Task {
        self.places[place].task_mut().expect("a task at the place")
    }

    /// The task at a place, if there is one.
    pub fn task(&self, place: usize) -> Option<&Task> {
        self.places.get(place)?.task()
    }

    /// The tasks and their places, the lowest place first.
    pub fn tasks<'a>(&'a self) -> impl Iterator<Item = (usize, &'a Task)> {
        let taken = |(i, place): (usize, &'a Place)| place.task().map(|task| (i, task));
        self.places.iter().enumerate().filter_map(taken)
    }

    /// The locks, by number.
    pub fn locks(&self) -> &[Lock] {
        &self.locks
    }

    /// What all shares come to, kept ones among them.
    pub fn shares(&self) -> u32 {
        self.places.iter().map(Place::share).sum()
    }

    /// Who runs for the task at a place.
    pub fn runner(&self, place: usize) -> usize {
        self.walk(place).expect("a way to a runner")
    }

    /// Walks from a task to whom it waits for, and on. `None` in a ring.
    fn walk(&self, start: usize) -> Option<usize> {
        let mut place = start;
        for _ in 0..PLACES {
            match self.task(place)?.awaits {
                None => return Some(place),
                Some(lock) => place = self.locks[lock].owner?,
            }
        }
        None
    }

    /// What holds of the state between calls and ticks.
    pub fn audit(&self) -> Result<(), Breach> {
        for (place, _) in self.tasks() {
            self.walk(place).ok_or(Breach::Ring { place })?;
        }
        match self.shares() {
            0..=SHARES => Ok(()),
            sum => Err(Breach::Shares { sum }),
        }
    }

    /// The answer to `had`.
    pub fn had(&self) -> String {
        let counts = self.tasks().map(|(_, task)| format!(" {}", task.had));
        format!("had{}", counts.collect::<String>())
    }
}

fn find_lock(m: u32) -> Result<usize, Refusal> {
    match usize::try_from(m) {
        Ok(lock) if lock < PLACES => Ok(lock),
        _ => Err(Refusal::BadNumber),
    }
}
