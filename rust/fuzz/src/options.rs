//! What is asked for on the command line.

use std::path::PathBuf;

use crate::kinds::{KindOfScript, KINDS};

const USAGE: &str = "usage: fuzz --stage PATH [--lines N] [--ticks N] [--seed N] [--kind K]..
  --stage PATH     the program: it reads a script and prints answers
  --lines N        go on until so many lines were played (100000)
  --ticks N        and so many ticks (1000000)
  --seed N         what the random choices begin with (1)
  --patience N     how many seconds a script may take (20)
  --kind K         only scripts of this kind; more than one may be given:
                   ";

/// What is asked for.
#[derive(Clone, Debug)]
pub struct Options {
    pub stage: PathBuf,
    pub lines: u64,
    pub ticks: u64,
    pub seed: u64,
    pub patience: u64,
    pub kinds: Vec<KindOfScript>,
}

impl Options {
    /// Reads the words of a command line.
    pub fn read(mut words: impl Iterator<Item = String>) -> Result<Options, String> {
        let mut options = Options {
            stage: PathBuf::new(),
            lines: 100_000,
            ticks: 1_000_000,
            seed: 1,
            patience: 20,
            kinds: Vec::new(),
        };
        while let Some(name) = words.next() {
            let value = words.next().ok_or_else(usage)?;
            match name.as_str() {
                "--stage" => options.stage = PathBuf::from(value),
                "--lines" => options.lines = number(&value)?,
                "--ticks" => options.ticks = number(&value)?,
                "--seed" => options.seed = number(&value)?,
                "--patience" => options.patience = number(&value)?,
                "--kind" => options.kinds.push(kind(&value)?),
                _ => return Err(usage()),
            }
        }
        if options.stage.as_os_str().is_empty() {
            return Err(usage());
        }
        if options.kinds.is_empty() {
            options.kinds = KINDS.to_vec();
        }
        Ok(options)
    }
}

fn number(value: &str) -> Result<u64, String> {
    value.parse().map_err(|_| usage())
}

fn kind(value: &str) -> Result<KindOfScript, String> {
    let found = KINDS.into_iter().find(|(name, _)| *name == value);
    found.ok_or_else(usage)
}

fn usage() -> String {
    let names: Vec<&str> = KINDS.iter().map(|(name, _)| *name).collect();
    format!("{USAGE}{}", names.join(", "))
}
