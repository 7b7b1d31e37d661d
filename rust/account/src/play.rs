//! A reference player: what a program that makes the documented choices prints.

use std::io::{self, BufRead, BufReader, Read, Write};

use crate::any::{Step, Steps};
use crate::script::{parse, Command};
use crate::system::{Breach, System};

/// Plays a script. Answers to all complete lines that have been read are
/// written before more input is waited for.
pub fn play(script: impl Read, mut out: impl Write) -> io::Result<()> {
    let mut script = BufReader::new(script);
    let mut system = System::default();
    let mut line = Vec::new();
    for number in 1u64.. {
        if !script.buffer().contains(&b'\n') {
            out.flush()?;
        }
        line.clear();
        if script.read_until(b'\n', &mut line)? == 0 {
            break;
        }
        let line = line.strip_suffix(b"\n").unwrap_or(&line);
        match parse(line) {
            Some(command) => answer(&mut system, command, &mut out)?,
            None => writeln!(out, "line {number}?")?,
        }
    }
    out.flush()
}

fn answer(system: &mut System, command: Command, out: &mut impl Write) -> io::Result<()> {
    match command {
        Command::Call(call) => writeln!(out, "{}", system.call(call))?,
        Command::Had => writeln!(out, "{}", system.had())?,
        Command::Tick(count) => {
            for _ in 0..count {
                let whose = system.begin_and_choose();
                writeln!(out, "{}", system.tick_line(whose))?;
                system.pass(whose).map_err(broken)?;
            }
        }
        Command::Any { seed, steps } => {
            any(system, seed, steps, |_| {}).map_err(broken)?;
        }
    }
    Ok(())
}

fn broken(breach: Breach) -> io::Error {
    io::Error::other(format!("expected {breach}"))
}

/// Makes the steps of an `any`, and shows each before it is made.
pub fn any(
    system: &mut System,
    seed: u32,
    steps: u32,
    mut show: impl FnMut(Step),
) -> Result<(), Breach> {
    let mut chosen = Steps::new(seed);
    for _ in 0..steps {
        let step = chosen.step();
        show(step);
        match step {
            Step::Tick => {
                system.tick()?;
            }
            Step::Call(call) => {
                system.call(call);
                system.audit()?;
            }
        }
    }
    Ok(())
}

impl System {
    /// Begins a tick, and says whose it is by the documented choice.
    pub fn begin_and_choose(&mut self) -> Option<usize> {
        let candidates = self.begin_tick();
        self.choice(candidates)
    }

    /// The line for a tick.
    pub fn tick_line(&self, whose: Option<usize>) -> String {
        let Some(place) = whose else {
            return "-".to_string();
        };
        match self.runner(place) {
            runner if runner == place => place.to_string(),
            runner => format!("{place} runs {runner}"),
        }
    }
}
