//! Tasks and what is kept about them, how far fair tasks are, and locks.

use std::cmp::Ordering;
use std::collections::VecDeque;

use crate::script::Kind;
use crate::WHOLE;

/// How far: a whole number of parts of a weight, an exact fraction.
#[derive(Clone, Copy, Debug)]
pub struct Far {
    pub parts: u128,
    pub weight: u32,
}

impl Far {
    /// The beginning, where the mark is at first.
    pub const ZERO: Far = Far {
        parts: 0,
        weight: 1,
    };

    /// This, rounded up to parts of a weight.
    pub fn rounded_up(self, weight: u32) -> Far {
        let parts = (self.parts * u128::from(weight)).div_ceil(u128::from(self.weight));
        Far { parts, weight }
    }

    /// Some parts farther.
    pub fn on(self, parts: u128) -> Far {
        Far {
            parts: self.parts + parts,
            ..self
        }
    }
}

impl Ord for Far {
    fn cmp(&self, other: &Far) -> Ordering {
        let left = self.parts * u128::from(other.weight);
        left.cmp(&(other.parts * u128::from(self.weight)))
    }
}

impl PartialOrd for Far {
    fn partial_cmp(&self, other: &Far) -> Option<Ordering> {
        Some(self.cmp(other))
    }
}

impl PartialEq for Far {
    fn eq(&self, other: &Far) -> bool {
        self.cmp(other) == Ordering::Equal
    }
}

impl Eq for Far {}

/// An open window of a reserved task.
#[derive(Clone, Copy, Debug, PartialEq, Eq)]
pub struct Window {
    /// Ticks to go, the one at hand among them.
    pub left: u32,
    /// Ticks of it that its task has had.
    pub had: u32,
    /// Whether its task has wanted every tick of it.
    pub whole: bool,
}

/// A task's kind, with numbers in range, and what that kind needs.
#[derive(Clone, Copy, Debug)]
pub enum Role {
    Reserved {
        quota: u32,
        period: u32,
        window: Option<Window>,
    },
    /// `last` is the moment of its last tick, or of its making.
    Fixed { rank: u32, last: u64 },
    /// `wanted` says whether it wanted the last tick that passed.
    Fair { far: Far, wanted: bool },
}

impl Role {
    /// The share of the processor that is set aside for it, in 10,080ths.
    pub fn share(&self) -> u32 {
        match *self {
            Role::Reserved { quota, period, .. } => share(quota, period),
            _ => 0,
        }
    }

    /// Whether it has an open window.
    pub fn has_window(&self) -> bool {
        matches!(self, Role::Reserved { window, .. } if window.is_some())
    }
}

/// The share of a reservation.
pub fn share(quota: u32, period: u32) -> u32 {
    quota * (WHOLE / period)
}

impl Kind {
    /// Whether there is such a period, quota, rank or weight.
    pub fn in_range(self) -> bool {
        match self {
            Kind::Reserved { quota, period } => {
                period >= 4 && WHOLE.is_multiple_of(period) && (1..=period).contains(&quota)
            }
            Kind::Fixed { rank } => rank <= 15,
            Kind::Fair { weight } => (1..=1024).contains(&weight),
        }
    }
}

/// A task.
#[derive(Clone, Copy, Debug)]
pub struct Task {
    pub role: Role,
    pub awake: bool,
    /// The lock for which it waits.
    pub awaits: Option<usize>,
    /// Ticks that it has had since it was made.
    pub had: u64,
}

/// A place for a task.
#[derive(Clone, Copy, Debug)]
pub enum Place {
    Free,
    /// The share of an ended task, kept until its window is over.
    Kept {
        share: u32,
        left: u32,
    },
    Taken(Task),
}

impl Place {
    pub fn task(&self) -> Option<&Task> {
        match self {
            Place::Taken(task) => Some(task),
            _ => None,
        }
    }

    pub fn task_mut(&mut self) -> Option<&mut Task> {
        match self {
            Place::Taken(task) => Some(task),
            _ => None,
        }
    }

    /// What it counts for in the sum of shares.
    pub fn share(&self) -> u32 {
        match self {
            Place::Free => 0,
            Place::Kept { share, .. } => *share,
            Place::Taken(task) => task.role.share(),
        }
    }
}

/// A lock: its owner, and those who wait for it in the order in which they came.
#[derive(Clone, Debug, Default)]
pub struct Lock {
    pub owner: Option<usize>,
    pub queue: VecDeque<usize>,
}

#[cfg(test)]
mod tests {
    use super::*;

    fn far(parts: u128, weight: u32) -> Far {
        Far { parts, weight }
    }

    #[test]
    fn fractions_are_exact() {
        assert!(far(1, 3) < far(1, 2));
        assert_eq!(far(2, 6), far(1, 3));
        assert_eq!(far(1, 3).rounded_up(2).parts, 1);
        assert_eq!(far(4, 2).rounded_up(3).parts, 6);
        assert_eq!(Far::ZERO.rounded_up(7).on(1), far(1, 7));
    }

    #[test]
    fn ranges_are_those_of_the_rules() {
        let reserved = |quota, period| Kind::Reserved { quota, period }.in_range();
        assert!(reserved(1, 4) && reserved(4, 4) && reserved(10_080, 10_080));
        assert!(!reserved(0, 4) && !reserved(5, 4) && !reserved(1, 3) && !reserved(1, 11));
        assert!(!reserved(1, 0) && !reserved(1, 20_160));
        assert!(Kind::Fixed { rank: 15 }.in_range() && !Kind::Fixed { rank: 16 }.in_range());
        assert!(Kind::Fair { weight: 1024 }.in_range() && !Kind::Fair { weight: 1025 }.in_range());
        assert!(!Kind::Fair { weight: 0 }.in_range());
    }
}
