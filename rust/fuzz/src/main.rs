//! Plays random scripts with a program and checks what it prints.

use std::io::{self, Write};
use std::process::ExitCode;
use std::time::Duration;

use account::stage::{reports_full_output, Patience};
use account::Tally;

use fuzz::options::Options;
use fuzz::trial::{Program, Script};

fn main() -> ExitCode {
    let verdict = Options::read(std::env::args().skip(1)).and_then(|options| {
        let program = Program {
            path: options.stage.clone(),
            patience: Patience(Duration::from_secs(options.patience)),
        };
        try_all(&options, &program).map_err(|error| error.to_string())
    });
    match verdict {
        Ok(true) => ExitCode::SUCCESS,
        Ok(false) => ExitCode::FAILURE,
        Err(problem) => {
            eprintln!("{problem}");
            ExitCode::from(2)
        }
    }
}

/// Plays scripts until there were enough lines and ticks, or one fails.
fn try_all(options: &Options, program: &Program) -> io::Result<bool> {
    if !reports_full_output(&program.path, program.patience)? {
        println!("found that the exit status is not 1 where the output cannot be written");
        return Ok(false);
    }
    let mut total = Tally::default();
    let mut scripts = 0;
    while total.lines < options.lines || total.all_ticks() < options.ticks {
        let kind = options.kinds[scripts % options.kinds.len()];
        let script = Script::random(kind, options.seed.wrapping_add(scripts as u64));
        scripts += 1;
        match program.play(&script)? {
            Ok(tally) => total += tally,
            Err(what) => {
                println!("in script {scripts}, of kind {}: {what}", kind.0);
                let lines = total.lines + script.lines.len() as u64;
                let smaller = program.shrink(script)?;
                show(smaller)?;
                println!("found after {scripts} scripts, {lines} lines: {what}");
                return Ok(false);
            }
        }
    }
    println!("right: {scripts} scripts, {total}");
    Ok(true)
}

/// Prints a script that fails, and why it does.
fn show((script, what): (Script, String)) -> io::Result<()> {
    println!("a smaller script:");
    for line in &script.lines {
        println!("    {}", line.escape_ascii());
    }
    if !script.ended {
        println!("the last line has no end");
    }
    if !script.pauses.is_empty() {
        println!("written in pieces that end at bytes {:?}", script.pauses);
    }
    println!("{what}");
    io::stdout().flush()
}
