//! What happens in scripts: a few lines each, mostly meaningful.

use account::task::Role;
use account::{Answer, Call, Kind, Refusal, WHOLE};

use crate::draft::Draft;

/// So many ticks at most, seldom none.
pub fn some_ticks(d: &mut Draft, most: u32) {
    let count = match d.random.percent(2) {
        true => 0,
        false => d.random.within(1, most),
    };
    d.ticks(count);
}

/// Mostly one that can goes to sleep.
pub fn sleep(d: &mut Draft) {
    let place = match d.random.percent(80) {
        true => d.some(|_, task| Draft::is_free(task)),
        false => None,
    };
    let place = place.unwrap_or_else(|| d.task());
    d.call(Call::Sleep(place));
}

/// Mostly a sleeper is woken.
pub fn wake(d: &mut Draft) {
    let place = match d.random.percent(85) {
        true => d.some(|_, task| !task.awake),
        false => None,
    };
    let place = place.unwrap_or_else(|| d.task());
    d.call(Call::Wake(place));
}

/// Some task is ended, at times one with an open window.
pub fn end(d: &mut Draft) {
    let place = match d.random.percent(30) {
        true => d.some(|_, task| task.role.has_window()),
        false => None,
    };
    let place = place.unwrap_or_else(|| d.task());
    d.call(Call::End(place));
}

/// Ends a task, and makes another at its place.
pub fn replace(d: &mut Draft) {
    let place = d.task();
    d.call(Call::End(place));
    let same = d.random.percent(70);
    let kind = match same {
        true => d.fair(),
        false => d.kind(),
    };
    d.make_awake(kind);
}

/// A reserved task sleeps through most of its window, and comes back for all of
/// its quota when another's window, which is whole and ends later, begins.
pub fn ambush(d: &mut Draft) {
    let Some((late, other)) = d.rivals() else {
        return d.ticks(1);
    };
    let Some((quota, period)) = d.reserved(other) else {
        return;
    };
    d.call(Call::Wake(late));
    d.ticks(1);
    d.call(Call::Sleep(late));
    d.call(Call::Sleep(other));
    let left = d
        .system
        .window(late as usize)
        .map_or(0, |window| window.left);
    let goal = d.random.within(period - quota, period - 1);
    d.ticks(left.saturating_sub(goal));
    d.call(Call::Wake(late));
    d.call(Call::Wake(other));
    d.ticks(period);
}

/// A short period, and a long one whose quota is more than the short one can spare.
pub fn tight_pair(d: &mut Draft) {
    let period = d.random.within(4, 10);
    let quota = d.random.within(period / 3, 2 * period / 3);
    d.make_awake(Kind::Reserved { quota, period });
    let period = d.random.one_of(&[12, 20, 24, 30, 36, 40, 48, 60]);
    let quota = d.left() / (WHOLE / period);
    d.make_awake(Kind::Reserved { quota, period });
}

/// Drives the mark far away, where numbers are large, to just before a power of 2.
pub fn far_away(d: &mut Draft) {
    d.call(Call::Make(Kind::Fair { weight: 1 }));
    d.call(Call::Wake(0));
    let power = d.random.within(10, 14);
    let before = d.random.below(4);
    d.ticks((1 << power) - before);
    for weight in [1024, 1024, 1023] {
        d.make_awake(Kind::Fair { weight });
    }
    some_ticks(d, 4000);
}

/// All go to sleep but one, and others come back soon.
pub fn relieve(d: &mut Draft) {
    for place in d.all(|_, task| Draft::is_free(task)) {
        d.call(Call::Sleep(place));
    }
    for _ in 0..3 {
        wake(d);
        some_ticks(d, 2);
    }
    some_ticks(d, 40);
}

/// A task locks one of a few locks.
pub fn lock_some(d: &mut Draft, few: u32) {
    let place = match d.random.percent(80) {
        true => d.some(|_, task| Draft::is_free(task)),
        false => None,
    };
    let place = place.unwrap_or_else(|| d.task());
    let lock = d.lock(few);
    d.call(Call::Lock(place, lock));
}

/// A task that others wait for locks what is not its own: chains grow.
pub fn chain(d: &mut Draft) {
    let Some(place) = d.some(|_, task| Draft::is_free(task)) else {
        return wake(d);
    };
    let target = foreign_locks(d, |runner| runner != place);
    match d.random.some_of(&target) {
        Some(lock) => {
            if d.owned(place).is_empty() {
                let own = d.random.within(5, 9);
                d.call(Call::Lock(place, own));
            }
            d.call(Call::Lock(place, lock));
        }
        None => lock_some(d, 5),
    }
}

/// A task locks what is owned by one that waits for it, near or far: a ring.
pub fn ring(d: &mut Draft) {
    let system = &d.system;
    let lends = |place: usize| system.runner(place) != place;
    let waiting = d.all(|place, _| lends(place));
    let Some(waiting) = d.random.some_of(&waiting) else {
        return chain(d);
    };
    let runner = d.system.runner(waiting as usize) as u32;
    let target = foreign_locks(d, |other| other == runner);
    match d.random.some_of(&target) {
        Some(lock) => {
            d.call(Call::Lock(runner, lock));
        }
        None => lock_some(d, 5),
    }
}

/// Each task waits for the one before it; the first tries to close the ring.
pub fn line_up(d: &mut Draft) {
    let free = d.all(|_, task| Draft::is_free(task));
    for pair in free.windows(2) {
        d.call(Call::Lock(pair[0], pair[0]));
        d.call(Call::Lock(pair[1], pair[1]));
        d.call(Call::Lock(pair[1], pair[0]));
    }
    if let [first, .., last] = free[..] {
        d.call(Call::Lock(first, last));
    }
    some_ticks(d, 10);
}

/// The locks whose owner waits, or not, for a runner of which something holds.
fn foreign_locks(d: &Draft, holds: impl Fn(u32) -> bool) -> Vec<u32> {
    let runner = |owner: usize| d.system.runner(owner) as u32;
    (0..64)
        .filter(|&lock| {
            let owner = d.system.locks()[lock as usize].owner;
            owner.is_some_and(|owner| holds(runner(owner)))
        })
        .collect()
}

/// An owner hands on a lock, mostly one for which others wait.
pub fn unlock(d: &mut Draft) {
    let locks = d.system.locks().iter().enumerate();
    let owned: Vec<(u32, u32, usize)> = locks
        .filter_map(|(lock, it)| Some((it.owner? as u32, lock as u32, it.queue.len())))
        .collect();
    let longest = owned.iter().copied().max_by_key(|&(_, _, waiting)| waiting);
    let (place, lock) = match (d.random.below(10), longest) {
        (0..=3, Some((place, lock, _))) => (place, lock),
        (4..=8, Some(_)) => {
            let (place, lock, _) = d.random.one_of(&owned);
            (place, lock)
        }
        _ => (d.task(), d.lock(5)),
    };
    d.call(Call::Unlock(place, lock));
    if d.random.percent(50) {
        some_ticks(d, 3);
    }
}

/// A reservation of just what is left, or of a little more. Those of long periods
/// mostly stay asleep, since their shares would be kept for long.
pub fn brim(d: &mut Draft) {
    let long = d.random.percent(20);
    let period = match long {
        true => d.random.one_of(&[10_080, 10_080, 5_040, 2_520, 96, 63]),
        false => d.random.one_of(&[4, 5, 6, 7, 8, 12, 15, 18, 24, 30, 60]),
    };
    let fits = d.left() / (WHOLE / period);
    let quota = match d.random.below(10) {
        0..=2 => fits,
        3..=4 => fits + 1,
        5 => d.random.within(0, period + 1),
        _ => d.random.within(1, fits / 2 + 1),
    };
    let kind = Kind::Reserved { quota, period };
    if long && d.random.percent(80) {
        d.call(Call::Make(kind));
    } else {
        d.make_awake(kind);
    }
}

/// Makes tasks until no place is free, and ends most again.
pub fn fill(d: &mut Draft) {
    while d.count() < 64 {
        let kind = d.fair();
        if matches!(d.call(Call::Make(kind)), Answer::No(Refusal::NoPlace)) {
            break;
        }
    }
    for _ in 0..3 {
        brim(d);
        end(d);
        some_ticks(d, 6);
    }
    for place in d.all(|_, task| matches!(task.role, Role::Fair { .. })) {
        if d.random.percent(90) {
            d.call(Call::End(place));
        }
    }
}
