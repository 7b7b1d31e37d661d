//! What `any` does: calls and ticks chosen by a number.

use crate::script::{Call, Kind};

const PERIODS: [u32; 12] = [4, 5, 6, 7, 8, 9, 10, 12, 20, 60, 3, 11];

/// A step of `any`.
#[derive(Clone, Copy, Debug, PartialEq, Eq)]
pub enum Step {
    Tick,
    Call(Call),
}

/// The steps of an `any`, without end.
#[derive(Clone, Debug)]
pub struct Steps {
    x: u64,
}

impl Steps {
    pub fn new(seed: u32) -> Steps {
        Steps { x: u64::from(seed) }
    }

    fn below(&mut self, k: u32) -> u32 {
        self.x = self
            .x
            .wrapping_mul(6_364_136_223_846_793_005)
            .wrapping_add(1_442_695_040_888_963_407);
        ((self.x >> 33) % u64::from(k)) as u32
    }

    fn pick(&mut self, often: u32, seldom: u32) -> u32 {
        match self.below(8) {
            0 => self.below(seldom),
            _ => self.below(often),
        }
    }

    fn task(&mut self) -> u32 {
        self.pick(16, 80)
    }

    fn lock(&mut self) -> u32 {
        match self.below(5) {
            4 => 64,
            lock => lock,
        }
    }

    fn kind(&mut self) -> Kind {
        match self.below(4) {
            0 | 1 => {
                let period = PERIODS[self.below(12) as usize];
                let quota = self.below(period / 2 + 1);
                Kind::Reserved { quota, period }
            }
            2 => Kind::Fixed {
                rank: self.pick(3, 20),
            },
            _ => Kind::Fair {
                weight: self.pick(4, 1100),
            },
        }
    }

    /// The next step. Arguments are drawn in the order in which they are written.
    pub fn step(&mut self) -> Step {
        Step::Call(match self.below(64) {
            0..=31 => return Step::Tick,
            32 | 33 => Call::Make(self.kind()),
            34..=39 => Call::End(self.below(72)),
            40..=46 => Call::Wake(self.task()),
            47 | 48 => Call::Sleep(self.task()),
            49..=51 => Call::Lock(self.below(8), self.lock()),
            _ => Call::Unlock(self.below(8), self.lock()),
        })
    }
}

#[cfg(test)]
mod tests {
    use super::*;

    /// What another program, written for this, draws.
    #[test]
    fn steps_are_drawn_as_documented() {
        let mut steps = Steps::new(26_642);
        let expected = [
            "end 59",
            "sleep 4",
            "tick",
            "make reserved 1 6",
            "tick",
            "tick",
            "make fixed 0",
            "lock 1 3",
            "tick",
            "wake 3",
            "unlock 1 3",
            "make fair 0",
            "unlock 4 64",
            "unlock 7 2",
        ];
        for line in expected {
            let step = match steps.step() {
                Step::Tick => "tick".to_string(),
                Step::Call(call) => call.to_string(),
            };
            assert_eq!(step, line);
        }
    }

    #[test]
    fn half_of_the_steps_are_ticks() {
        let mut steps = Steps::new(1);
        let ticks = (0..10_000).filter(|_| steps.step() == Step::Tick).count();
        assert!((4_500..5_500).contains(&ticks), "{ticks}");
    }
}
