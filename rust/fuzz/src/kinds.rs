//! Kinds of random scripts. Each begins somehow and goes on step by step; each
//! looks for trouble somewhere else.

use account::{Call, SHARES};

use crate::draft::Draft;
use crate::malformed;
use crate::moves::{
    ambush, brim, chain, end, far_away, fill, line_up, lock_some, relieve, replace, ring, sleep,
    some_ticks, tight_pair, unlock, wake,
};

/// A kind of script: its name, and a step of it.
pub type KindOfScript = (&'static str, fn(&mut Draft));

/// All kinds of scripts.
pub const KINDS: [KindOfScript; 9] = [
    ("locks", locks),
    ("crowd", crowd),
    ("shares", shares),
    ("windows", windows),
    ("fair", fair),
    ("fixed", fixed),
    ("malformed", malformed::step),
    ("mixed", mixed),
    ("any", any),
];

/// Tasks of all kinds lock, wait in chains and try to close rings.
pub fn locks(d: &mut Draft) {
    if d.count() < 4 || d.random.percent(2) && d.count() < 12 {
        let kind = d.kind();
        return d.make_awake(kind);
    }
    match d.random.below(100) {
        0..=24 => lock_some(d, 5),
        25..=34 => chain(d),
        35..=44 => ring(d),
        45..=54 => unlock(d),
        55..=57 => sleep(d),
        58..=65 => wake(d),
        66..=68 => end(d),
        69..=70 => d.had(),
        _ => some_ticks(d, 3),
    }
}

/// Shares are made to the brim, and ended while their windows are open.
pub fn shares(d: &mut Draft) {
    match d.random.below(100) {
        0..=29 => brim(d),
        30..=31 => fill(d),
        32..=36 => {
            let kind = d.kind();
            d.make_awake(kind);
        }
        37..=54 => end(d),
        55..=59 => wake(d),
        60..=62 => sleep(d),
        63..=64 => lock_some(d, 3),
        65 => unlock(d),
        66 => d.had(),
        67 => some_ticks(d, 300),
        _ => some_ticks(d, 4),
    }
}

/// Nearly all places are taken, and chains are as long as they can be.
pub fn crowd(d: &mut Draft) {
    if d.count() < 50 {
        let kind = d.kind();
        return d.make_awake(kind);
    }
    match d.random.below(100) {
        0..=3 => line_up(d),
        4..=23 => lock_some(d, 64),
        24..=33 => ring(d),
        34..=53 => unlock(d),
        54..=63 => wake(d),
        64..=67 => end(d),
        68 => d.had(),
        69..=73 => {
            let kind = d.kind();
            d.make_awake(kind);
        }
        _ => some_ticks(d, 5),
    }
}

/// Reserved tasks near the brim come and go, so that windows are whole or not.
pub fn windows(d: &mut Draft) {
    if d.lines.is_empty() && d.random.percent(50) {
        return tight_pair(d);
    }
    if d.left() > SHARES / 5 && d.count() < 8 {
        let kind = d.reservation();
        return d.make_awake(kind);
    }
    match d.random.below(100) {
        0..=9 => sleep(d),
        10..=13 => wake(d),
        14..=21 => match d.some(|_, task| !task.awake && !task.role.has_window()) {
            Some(place) => {
                d.call(Call::Wake(place));
            }
            None => d.ticks(1),
        },
        22..=29 => ambush(d),
        30 => end(d),
        31 => d.had(),
        32 => lock_some(d, 2),
        33 => unlock(d),
        _ => some_ticks(d, 2),
    }
}

/// Fair tasks of many weights rest, long at times, and are ended and made.
pub fn fair(d: &mut Draft) {
    if d.lines.is_empty() && d.random.percent(15) {
        return far_away(d);
    }
    if d.count() < 3 || d.random.percent(6) && d.count() < 20 {
        let kind = d.fair();
        return d.make_awake(kind);
    }
    match d.random.below(200) {
        0..=29 => sleep(d),
        30..=64 => wake(d),
        65..=74 => end(d),
        75..=79 => replace(d),
        80..=84 => relieve(d),
        85..=87 => d.had(),
        88..=89 => some_ticks(d, 2000),
        90..=94 => some_ticks(d, 200),
        95 => {
            let kind = d.kind();
            d.make_awake(kind);
        }
        96..=97 => lock_some(d, 3),
        98..=99 => unlock(d),
        _ => some_ticks(d, 20),
    }
}

/// Fixed tasks of few ranks take turns, and lend them.
pub fn fixed(d: &mut Draft) {
    if d.count() < 4 || d.random.percent(3) && d.count() < 12 {
        let kind = match d.random.percent(80) {
            true => d.fixed(2),
            false => d.kind(),
        };
        return d.make_awake(kind);
    }
    match d.random.below(100) {
        0..=14 => lock_some(d, 3),
        15..=24 => unlock(d),
        25..=30 => sleep(d),
        31..=40 => wake(d),
        41..=43 => end(d),
        44..=45 => replace(d),
        46..=47 => d.had(),
        _ => some_ticks(d, 4),
    }
}

/// Everything, one after the other.
pub fn mixed(d: &mut Draft) {
    let (_, step) = d.random.one_of(&[
        ("locks", locks as fn(&mut Draft)),
        ("shares", shares),
        ("windows", windows),
        ("fair", fair),
        ("fixed", fixed),
        ("malformed", malformed::step),
    ]);
    step(d);
    if d.random.percent(1) {
        any(d);
    }
}

/// Many steps at once, and what has come of them.
pub fn any(d: &mut Draft) {
    match d.random.below(10) {
        0..=2 => {
            let most = d.random.one_of(&[0, 1, 10, 100, 1000, 1000, 3000]);
            let steps = d.random.within(0, most);
            let seed = match d.random.percent(10) {
                true => d.random.one_of(&[0, 1, u32::MAX]),
                false => d.random.next() as u32,
            };
            d.any(seed, steps);
        }
        3..=5 => d.had(),
        6..=7 => some_ticks(d, 60),
        _ => some_ticks(d, 3),
    }
}
