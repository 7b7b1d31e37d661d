//! The bound on how differently two fair tasks are served, kept for every pair.

use crate::set::Set;
use crate::PLACES;

/// For every pair of fair tasks that have both wanted every tick since both
/// began to, how many ticks each has had since then.
#[derive(Clone, Debug)]
pub struct Fairness {
    /// Fair ticks given at each place, ever.
    given: [u64; PLACES],
    weight: [u32; PLACES],
    /// `base[i][j]`: what was given at place i when i and j both began to want.
    base: Box<[[u64; PLACES]; PLACES]>,
}

/// A pair that was served too differently: the first has had `a` ticks and is
/// of weight `v`, the second `b` and `w`.
#[derive(Clone, Copy, Debug, PartialEq, Eq)]
pub struct Unfair {
    pub first: usize,
    pub second: usize,
    pub a: u64,
    pub v: u32,
    pub b: u64,
    pub w: u32,
}

impl Default for Fairness {
    fn default() -> Fairness {
        Fairness {
            given: [0; PLACES],
            weight: [1; PLACES],
            base: Box::new([[0; PLACES]; PLACES]),
        }
    }
}

impl Fairness {
    /// A fair task wants the tick at hand and did not want the one before.
    pub fn begins(&mut self, place: usize, weight: u32) {
        self.weight[place] = weight;
        self.base[place] = [self.given[place]; PLACES];
        for (other, row) in self.base.iter_mut().enumerate() {
            row[place] = self.given[other];
        }
    }

    /// A fair task is given the tick, which the tasks in `wanting` want.
    pub fn given(&mut self, first: usize, wanting: Set) -> Result<(), Unfair> {
        self.given[first] += 1;
        for second in wanting.iter().filter(|&other| other != first) {
            let pair = self.pair(first, second);
            if !pair.is_fair() {
                return Err(pair);
            }
        }
        Ok(())
    }

    fn pair(&self, first: usize, second: usize) -> Unfair {
        Unfair {
            first,
            second,
            a: self.given[first] - self.base[first][second],
            v: self.weight[first],
            b: self.given[second] - self.base[second][first],
            w: self.weight[second],
        }
    }
}

impl Unfair {
    /// a·w is not above b·v by more than 2·v + w.
    fn is_fair(&self) -> bool {
        let (v, w) = (u64::from(self.v), u64::from(self.w));
        self.a * w <= self.b * v + 2 * v + w
    }
}

#[cfg(test)]
mod tests {
    use super::*;

    #[test]
    fn the_bound_is_exact_and_starts_anew() {
        let both: Set = [0, 1].into_iter().collect();
        let mut fairness = Fairness::default();
        fairness.begins(0, 1);
        fairness.begins(1, 1);
        for _ in 0..3 {
            assert_eq!(fairness.given(0, both), Ok(()));
        }
        fairness.begins(1, 1);
        for _ in 0..3 {
            assert_eq!(fairness.given(0, both), Ok(()));
        }
        let unfair = fairness.given(0, both).unwrap_err();
        assert_eq!((unfair.a, unfair.b), (4, 0));
    }

    #[test]
    fn weights_count() {
        let both: Set = [0, 1].into_iter().collect();
        let mut fairness = Fairness::default();
        fairness.begins(0, 3);
        fairness.begins(1, 1);
        // a·1 may come to 2·3 + 1.
        for _ in 0..7 {
            assert_eq!(fairness.given(0, both), Ok(()));
        }
        assert!(fairness.given(0, both).is_err());
    }
}
