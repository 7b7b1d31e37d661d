//! Checks and plays scripts.

use std::fmt::Display;
use std::fs;
use std::io::{self, stdin, stdout, BufWriter, Read};
use std::path::Path;
use std::process::ExitCode;
use std::time::Duration;

use account::stage::{self, Patience};
use account::{check, play, Tally};

const USAGE: &str = "usage:
  account check SCRIPT TRANSCRIPT      check what was printed for a script
  account run --stage PATH SCRIPT      run a program on a script and check what it prints
  account play SCRIPT                  print what the documented choices give
A script may be - for standard input.";

/// How long a program may take for a script.
const PATIENCE: Patience = Patience(Duration::from_secs(600));

fn main() -> ExitCode {
    let words: Vec<String> = std::env::args().skip(1).collect();
    let words: Vec<&str> = words.iter().map(String::as_str).collect();
    let verdict = match words[..] {
        ["check", script, transcript] => check_files(script, transcript),
        ["run", "--stage", program, script] => run(program, script),
        ["play", script] => play_file(script),
        _ => Err(io::Error::other(USAGE)),
    };
    match verdict {
        Ok(true) => ExitCode::SUCCESS,
        Ok(false) => ExitCode::FAILURE,
        Err(error) => {
            eprintln!("{error}");
            ExitCode::from(2)
        }
    }
}

fn read(path: &str) -> io::Result<Vec<u8>> {
    let mut bytes = Vec::new();
    match path {
        "-" => stdin().lock().read_to_end(&mut bytes)?,
        _ => fs::File::open(path)?.read_to_end(&mut bytes)?,
    };
    Ok(bytes)
}

fn check_files(script: &str, transcript: &str) -> io::Result<bool> {
    let (script, transcript) = (read(script)?, read(transcript)?);
    Ok(report(check(&script, &transcript)))
}

fn run(program: &str, script: &str) -> io::Result<bool> {
    let script = read(script)?;
    let verdict = stage::run(Path::new(program), &script, &[], PATIENCE)?;
    Ok(report(verdict))
}

/// Says whether a transcript is right, or where it first is not.
fn report(verdict: Result<Tally, impl Display>) -> bool {
    match &verdict {
        Ok(tally) => println!("right: {tally}"),
        Err(what) => println!("{what}"),
    }
    verdict.is_ok()
}

fn play_file(script: &str) -> io::Result<bool> {
    let out = BufWriter::new(stdout().lock());
    match script {
        "-" => play(stdin().lock(), out)?,
        _ => play(fs::File::open(script)?, out)?,
    }
    Ok(true)
}
