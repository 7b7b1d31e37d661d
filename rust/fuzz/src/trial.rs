//! A script played by a program, and checked.

use std::io;
use std::path::PathBuf;
use std::time::Duration;

use account::stage::{self, Patience};
use account::Tally;

use crate::draft::Draft;
use crate::kinds::KindOfScript;
use crate::random::Random;
use crate::shrink::{shrink, Lines};

/// How long smaller scripts are tried for one that fails.
const TIME: Duration = Duration::from_secs(60);

/// The program that is tried.
pub struct Program {
    pub path: PathBuf,
    pub patience: Patience,
}

/// A script, and where writing it is paused.
pub struct Script {
    pub lines: Lines,
    /// Whether the last line has an end.
    pub ended: bool,
    pub pauses: Vec<usize>,
}

impl Script {
    /// A random script of a kind.
    pub fn random((_, step): KindOfScript, seed: u64) -> Script {
        let mut draft = Draft::new(Random::new(seed));
        let length = draft.random.within(20, 400) as usize;
        while draft.lines.len() < length {
            step(&mut draft);
        }
        let ended = draft.random.percent(90);
        let mut script = Script {
            lines: draft.lines,
            ended,
            pauses: Vec::new(),
        };
        let length = script.bytes().len() as u32;
        let pauses = draft.random.below(4);
        script.pauses = (0..pauses)
            .map(|_| draft.random.below(length) as usize)
            .collect();
        script.pauses.sort_unstable();
        script
    }

    pub fn bytes(&self) -> Vec<u8> {
        bytes(&self.lines, self.ended)
    }
}

fn bytes(lines: &Lines, ended: bool) -> Vec<u8> {
    let mut bytes = lines.join(&b'\n');
    if ended && !lines.is_empty() {
        bytes.push(b'\n');
    }
    bytes
}

impl Program {
    /// Plays a script, and says what was checked, or what is wrong.
    pub fn play(&self, script: &Script) -> io::Result<Result<Tally, String>> {
        stage::run(&self.path, &script.bytes(), &script.pauses, self.patience)
    }

    /// Makes a script that fails smaller, and says what is wrong with it then.
    ///
    /// One that fails only because of pauses in its writing stays as it is.
    pub fn shrink(&self, script: Script) -> io::Result<(Script, String)> {
        let hasty = Patience(self.patience.0 / 10);
        let fails = |lines: &Lines| {
            let script = bytes(lines, script.ended);
            matches!(stage::run(&self.path, &script, &[], hasty), Ok(Err(_)))
        };
        let mut lines = script.lines.clone();
        let mut pauses = script.pauses.clone();
        if fails(&lines) {
            lines = shrink(lines, TIME, fails);
            pauses.clear();
        }
        let smaller = Script {
            lines,
            ended: script.ended,
            pauses,
        };
        let what = match self.play(&smaller)? {
            Ok(_) => "does not fail every time".to_string(),
            Err(what) => what,
        };
        Ok((smaller, what))
    }
}

#[cfg(test)]
mod tests {
    use super::*;
    use crate::kinds::KINDS;

    /// Plays scripts of all kinds with the reference, and checks them.
    fn tally(seeds: std::ops::Range<u64>) -> Tally {
        let mut total = Tally::default();
        for (kind, seed) in KINDS
            .into_iter()
            .flat_map(|kind| seeds.clone().map(move |s| (kind, s)))
        {
            let script = Script::random(kind, seed).bytes();
            let mut transcript = Vec::new();
            account::play(&script[..], &mut transcript).expect("played");
            total += account::check(&script, &transcript).expect("right");
        }
        total
    }

    #[test]
    fn the_reference_is_right_and_every_answer_occurs() {
        let total = tally(0..6);
        let answers = [
            total.done,
            total.ids,
            total.unread,
            total.ticks,
            total.any_ticks,
        ];
        assert!(answers.into_iter().all(|count| count > 100), "{total}");
        for number in [1, 2, 3, 4, 5, 6, 8, 9] {
            assert!(total.no[number] > 0, "{total}");
        }
    }

    #[test]
    fn scripts_are_settled_by_their_seeds() {
        let [first, again, other] = [7, 7, 8].map(|seed| Script::random(KINDS[0], seed).bytes());
        assert!(first == again && first != other);
    }
}
