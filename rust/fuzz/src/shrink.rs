//! Makes a script smaller while a program still fails on it.

use std::time::{Duration, Instant};

use account::script::parse;
use account::{Call, Command, Kind};

/// The lines of a script, without their ends.
pub type Lines = Vec<Vec<u8>>;

/// A script that fails, and a test of smaller ones.
pub struct Shrinker<F> {
    lines: Lines,
    fails: F,
    /// When to stop trying.
    deadline: Instant,
}

/// Makes a script smaller while it fails, for a time at most.
pub fn shrink(lines: Lines, time: Duration, fails: impl FnMut(&Lines) -> bool) -> Lines {
    let mut shrinker = Shrinker {
        lines,
        fails,
        deadline: Instant::now() + time,
    };
    loop {
        let before = shrinker.lines.clone();
        shrinker.drop_chunks();
        shrinker.drop_tasks();
        shrinker.join_ticks();
        shrinker.lower_numbers();
        if shrinker.lines == before || shrinker.is_late() {
            return shrinker.lines;
        }
    }
}

impl<F: FnMut(&Lines) -> bool> Shrinker<F> {
    fn is_late(&self) -> bool {
        Instant::now() >= self.deadline
    }

    /// Takes a smaller script if it fails too.
    fn attempt(&mut self, smaller: Lines) -> bool {
        if self.is_late() || smaller == self.lines {
            return false;
        }
        let fails = (self.fails)(&smaller);
        if fails {
            self.lines = smaller;
        }
        fails
    }

    /// Leaves out chunks of lines: halves, then quarters, at last single lines.
    fn drop_chunks(&mut self) {
        let mut size = self.lines.len().div_ceil(2);
        while size > 0 {
            let mut start = 0;
            while start < self.lines.len() {
                let end = self.lines.len().min(start + size);
                let smaller = [&self.lines[..start], &self.lines[end..]].concat();
                if !self.attempt(smaller) {
                    start = end;
                }
            }
            size /= 2;
        }
    }

    /// Leaves out a task altogether, the later ones moving up a place.
    fn drop_tasks(&mut self) {
        for place in (0..64).rev() {
            let smaller = without(&self.lines, place);
            self.attempt(smaller);
        }
    }

    /// Puts ticks that follow each other into one line.
    fn join_ticks(&mut self) {
        let mut i = 0;
        while i + 1 < self.lines.len() {
            let pair = (parse(&self.lines[i]), parse(&self.lines[i + 1]));
            let joined = match pair {
                (Some(Command::Tick(a)), Some(Command::Tick(b))) => a.checked_add(b),
                _ => None,
            };
            let better = joined.is_some_and(|sum| {
                let line = Command::Tick(sum).to_string().into_bytes();
                let (before, after) = (&self.lines[..i], &self.lines[i + 2..]);
                self.attempt([before, &[line], after].concat())
            });
            i += usize::from(!better);
        }
    }

    /// Lowers the numbers in all lines.
    fn lower_numbers(&mut self) {
        for i in 0..self.lines.len() {
            while let Some(command) = parse(&self.lines[i]) {
                let better = lower(command).into_iter().any(|command| {
                    let mut smaller = self.lines.clone();
                    smaller[i] = command.to_string().into_bytes();
                    self.attempt(smaller)
                });
                if !better {
                    break;
                }
            }
        }
    }
}

/// The lines without the making of the task at a place and what is done to it,
/// if places are taken in order.
fn without(lines: &Lines, place: u32) -> Lines {
    let mut makes = 0;
    let keep = |line: &Vec<u8>| {
        let Some(Command::Call(call)) = parse(line) else {
            return Some(line.clone());
        };
        let moved = match call {
            Call::Make(_) => {
                makes += 1;
                (makes != place + 1).then_some(call)
            }
            _ => renumber(call, place),
        };
        moved.map(|call| call.to_string().into_bytes())
    };
    lines.iter().filter_map(keep).collect()
}

/// The call when the task at a place is not there, and later ones move up.
fn renumber(call: Call, place: u32) -> Option<Call> {
    let moved = |i: u32| match i {
        _ if i == place => None,
        _ if i > place && i < 64 => Some(i - 1),
        _ => Some(i),
    };
    Some(match call {
        Call::Make(kind) => Call::Make(kind),
        Call::End(i) => Call::End(moved(i)?),
        Call::Wake(i) => Call::Wake(moved(i)?),
        Call::Sleep(i) => Call::Sleep(moved(i)?),
        Call::Lock(i, m) => Call::Lock(moved(i)?, m),
        Call::Unlock(i, m) => Call::Unlock(moved(i)?, m),
    })
}

/// Commands with one number lower.
fn lower(command: Command) -> Vec<Command> {
    let call = |call: Call| Command::Call(call);
    let make = |kind: Kind| call(Call::Make(kind));
    match command {
        Command::Had => Vec::new(),
        Command::Tick(n) => less(n, Command::Tick),
        Command::Any { seed, steps } => {
            let mut all = less(steps, |steps| Command::Any { seed, steps });
            all.extend((0..seed.min(4)).map(|seed| Command::Any { seed, steps }));
            all
        }
        Command::Call(Call::Make(Kind::Reserved { quota, period })) => {
            let mut all = less(quota, |quota| make(Kind::Reserved { quota, period }));
            let periods = [4, 5, 6, 8].into_iter().filter(|&p| p < period);
            all.extend(periods.map(|period| make(Kind::Reserved { quota, period })));
            all
        }
        Command::Call(Call::Make(Kind::Fixed { rank })) => {
            less(rank, |rank| make(Kind::Fixed { rank }))
        }
        Command::Call(Call::Make(Kind::Fair { weight })) => {
            less(weight, |weight| make(Kind::Fair { weight }))
        }
        Command::Call(Call::Lock(i, m)) => less(m, |m| call(Call::Lock(i, m))),
        Command::Call(Call::Unlock(i, m)) => less(m, |m| call(Call::Unlock(i, m))),
        Command::Call(Call::End(_) | Call::Wake(_) | Call::Sleep(_)) => Vec::new(),
    }
}

/// What becomes of a number that is lowered: to 0, 1, a half, by one.
fn less(n: u32, command: impl Fn(u32) -> Command) -> Vec<Command> {
    let mut lower: Vec<u32> = [0, 1, n / 2, n.saturating_sub(1)]
        .into_iter()
        .filter(|&l| l < n)
        .collect();
    lower.dedup();
    lower.into_iter().map(command).collect()
}

#[cfg(test)]
mod tests {
    use super::*;

    fn lines(text: &str) -> Lines {
        text.lines().map(|line| line.as_bytes().to_vec()).collect()
    }

    #[test]
    fn scripts_shrink_to_what_fails() {
        let script = lines("make fair 7\nmake fixed 3\nwake 1\nhad\ntick 90\nhad\n");
        let ticks = |line: &Vec<u8>| matches!(parse(line), Some(Command::Tick(9..)));
        let fails = |lines: &Lines| lines.iter().any(ticks);
        assert_eq!(
            shrink(script, Duration::from_secs(60), fails),
            lines("tick 9")
        );
    }

    #[test]
    fn tasks_are_left_out() {
        let script = lines("make fair 1\nmake fair 2\nwake 0\nwake 1\nlock 1 5\n");
        let expected = lines("make fair 2\nwake 0\nlock 0 5\n");
        assert_eq!(without(&script, 0), expected);
    }
}
