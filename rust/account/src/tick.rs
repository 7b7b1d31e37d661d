//! A tick: who wants it, whose it may be, and its passing.

use crate::set::Set;
use crate::system::{Breach, System};
use crate::task::{Far, Place, Role, Window};

/// Whose the tick at hand may be.
#[derive(Clone, Copy, Debug, PartialEq, Eq)]
pub enum Candidates {
    /// Any of these reserved tasks, which are due.
    Due(Set),
    /// This fixed task's.
    Fixed(usize),
    /// Any of these fair tasks', which are equally far.
    Fair(Set),
    Nobody,
}

impl Candidates {
    /// Everybody whose the tick may be.
    pub fn places(self) -> Set {
        match self {
            Candidates::Due(set) | Candidates::Fair(set) => set,
            Candidates::Fixed(place) => [place].into_iter().collect(),
            Candidates::Nobody => Set::default(),
        }
    }

    /// Whether the tick may be this task's, or nobody's.
    pub fn allow(self, whose: Option<usize>) -> bool {
        match whose {
            None => self == Candidates::Nobody,
            Some(place) => self.places().contains(place),
        }
    }
}

impl System {
    /// The first three steps of a tick, and then whose it may be.
    pub fn begin_tick(&mut self) -> Candidates {
        let wanting = self.wanting();
        self.open_windows(wanting);
        self.come_back(wanting);
        self.move_mark(wanting);
        self.candidates(wanting)
    }

    /// Gives the tick that has begun to a task, or to nobody, and lets it pass.
    pub fn pass(&mut self, whose: Option<usize>) -> Result<(), Breach> {
        let fair = whose.map_or(Ok(()), |place| self.give(place));
        let windows = self.close_windows();
        fair.and(windows)
    }

    /// A whole tick, with the documented choice.
    pub fn tick(&mut self) -> Result<Option<usize>, Breach> {
        let candidates = self.begin_tick();
        let whose = self.choice(candidates);
        self.pass(whose).map(|()| whose)
    }

    /// Who wants the tick: those whose runner is awake.
    fn wanting(&self) -> Set {
        let awake = |place| self.task(place).is_some_and(|task| task.awake);
        self.tasks()
            .map(|(place, _)| place)
            .filter(|&place| awake(self.runner(place)))
            .collect()
    }

    /// Windows open, or stop being whole.
    fn open_windows(&mut self, wanting: Set) {
        for (i, place) in self.places.iter_mut().enumerate() {
            let Some(task) = place.task_mut() else {
                continue;
            };
            let Role::Reserved { period, window, .. } = &mut task.role else {
                continue;
            };
            match window {
                None if wanting.contains(i) => {
                    *window = Some(Window {
                        left: *period,
                        had: 0,
                        whole: true,
                    })
                }
                None => {}
                Some(window) => window.whole &= wanting.contains(i),
            }
        }
    }

    /// Fair tasks that did not want the tick before are brought to the mark.
    fn come_back(&mut self, wanting: Set) {
        for (i, place) in self.places.iter_mut().enumerate() {
            let Some(task) = place.task_mut() else {
                continue;
            };
            let Role::Fair { far, wanted } = &mut task.role else {
                continue;
            };
            if wanting.contains(i) && !*wanted {
                *far = self.mark.rounded_up(far.weight).max(*far);
                self.fairness.begins(i, far.weight);
            }
            *wanted = wanting.contains(i);
        }
    }

    /// The mark moves up to the least far of those that want.
    fn move_mark(&mut self, wanting: Set) {
        if let Some(least) = self.fair(wanting).map(|(_, far)| far).min() {
            self.mark = self.mark.max(least);
        }
    }

    /// The fair tasks among some, and how far they are.
    fn fair(&self, among: Set) -> impl Iterator<Item = (usize, Far)> + '_ {
        among
            .iter()
            .filter_map(|place| match self.task(place)?.role {
                Role::Fair { far, .. } => Some((place, far)),
                _ => None,
            })
    }

    fn candidates(&self, wanting: Set) -> Candidates {
        let due: Set = wanting.iter().filter(|&i| self.is_due(i)).collect();
        if !due.is_empty() {
            return Candidates::Due(due);
        }
        let turn = |place: usize| match self.task(place)?.role {
            Role::Fixed { rank, last } => Some((rank, last, place)),
            _ => None,
        };
        if let Some((_, _, place)) = wanting.iter().filter_map(turn).min() {
            return Candidates::Fixed(place);
        }
        match self.fair(wanting).map(|(_, far)| far).min() {
            None => Candidates::Nobody,
            Some(least) => Candidates::Fair(
                self.fair(wanting)
                    .filter(|&(_, far)| far == least)
                    .map(|(place, _)| place)
                    .collect(),
            ),
        }
    }

    /// Whether a task that wants the tick is due.
    fn is_due(&self, place: usize) -> bool {
        let quota = match self.task(place).map(|task| task.role) {
            Some(Role::Reserved { quota, .. }) => quota,
            _ => return false,
        };
        self.window(place).is_some_and(|window| window.had < quota)
    }

    /// The open window of a task.
    pub fn window(&self, place: usize) -> Option<Window> {
        match self.task(place)?.role {
            Role::Reserved { window, .. } => window,
            _ => None,
        }
    }

    /// The documented choice: of due tasks those with whole windows first, then
    /// the earliest end, then the lowest place; of fair tasks the lowest place.
    pub fn choice(&self, candidates: Candidates) -> Option<usize> {
        let urgency = |&place: &usize| self.window(place).map(|w| (!w.whole, w.left, place));
        candidates.places().iter().min_by_key(urgency)
    }

    /// Counts the tick for the task whose it is.
    fn give(&mut self, place: usize) -> Result<(), Breach> {
        let moment = self.next_moment();
        let task = self.task_mut(place);
        task.had = task.had.saturating_add(1);
        match &mut task.role {
            Role::Reserved { window, .. } => {
                window.as_mut().expect("an open window").had += 1;
                Ok(())
            }
            Role::Fixed { last, .. } => {
                *last = moment;
                Ok(())
            }
            Role::Fair { far, .. } => {
                *far = far.on(1);
                let wanting = self.fair_wanting();
                let verdict = self.fairness.given(place, wanting);
                verdict.map_err(Breach::Unfair)
            }
        }
    }

    /// The fair tasks that want the tick at hand.
    fn fair_wanting(&self) -> Set {
        let wants = |role: &Role| matches!(role, Role::Fair { wanted: true, .. });
        self.tasks()
            .filter(|(_, task)| wants(&task.role))
            .map(|(place, _)| place)
            .collect()
    }

    /// Every window has one tick less to go, and may be over.
    fn close_windows(&mut self) -> Result<(), Breach> {
        let mut verdict = Ok(());
        for (i, place) in self.places.iter_mut().enumerate() {
            match place {
                Place::Kept { left: 1, .. } => *place = Place::Free,
                Place::Kept { left, .. } => *left -= 1,
                Place::Free => {}
                Place::Taken(task) => {
                    if let Role::Reserved { quota, window, .. } = &mut task.role {
                        verdict = verdict.and(pass_window(i, *quota, window));
                    }
                }
            }
        }
        verdict
    }
}

/// A window has one tick less to go; if it is over, it has had what it was owed.
fn pass_window(place: usize, quota: u32, window: &mut Option<Window>) -> Result<(), Breach> {
    let Some(open) = window else {
        return Ok(());
    };
    open.left -= 1;
    if open.left > 0 {
        return Ok(());
    }
    let Window { had, whole, .. } = *open;
    *window = None;
    if had > quota || whole && had != quota {
        return Err(Breach::Quota { place, had, quota });
    }
    Ok(())
}
