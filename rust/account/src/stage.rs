//! Runs a program on a script, and checks it.

use std::fs::OpenOptions;
use std::io::{self, Read, Write};
use std::path::Path;
use std::process::{Child, ChildStdin, ChildStdout, Command, ExitStatus, Stdio};
use std::sync::mpsc::{channel, Receiver, Sender};
use std::thread;
use std::time::{Duration, Instant};

use crate::check::{check, Tally};
use crate::script::{answers_to, lines};

/// How long a program may take.
#[derive(Clone, Copy, Debug)]
pub struct Patience(pub Duration);

/// Runs a program on a script and checks what it prints.
///
/// The script is written in pieces that end at the given offsets. After each
/// piece, the answers to all its complete lines are waited for before the next
/// is written. The inner error tells what is wrong.
pub fn run(
    program: &Path,
    script: &[u8],
    pauses: &[usize],
    patience: Patience,
) -> io::Result<Result<Tally, String>> {
    let mut child = Command::new(program)
        .stdin(Stdio::piped())
        .stdout(Stdio::piped())
        .stderr(Stdio::null())
        .spawn()?;
    let input = child.stdin.take().expect("a pipe");
    let output = child.stdout.take().expect("a pipe");
    let (sender, pieces) = channel();
    thread::spawn(move || read(output, &sender));
    let mut transcript = Transcript::new(script, &pieces, patience);
    let talk = talk(input, script, pauses, &mut transcript);
    if talk.is_err() {
        child.kill()?;
    }
    let Transcript { bytes, lines, .. } = transcript;
    let status = wait(&mut child, patience)?;
    Ok(match (check(script, &bytes), talk) {
        (Err(wrong), _) if wrong.answer_line as u64 <= lines => Err(wrong.to_string()),
        (_, Err(problem)) => Err(problem),
        (Err(wrong), Ok(())) => Err(format!("{wrong}; the program ended with {status}")),
        (Ok(_), Ok(())) if status.code() != Some(0) => Err(format!("found {status}, expected 0")),
        (Ok(tally), Ok(())) => Ok(tally),
    })
}

/// Sends on what a program prints.
fn read(mut output: ChildStdout, pieces: &Sender<Vec<u8>>) {
    let mut buffer = vec![0; 1 << 16];
    while let Ok(count @ 1..) = output.read(&mut buffer) {
        if pieces.send(buffer[..count].to_vec()).is_err() {
            break;
        }
    }
}

/// Writes the script in pieces, and reads what is printed for it. An error tells
/// why that came to no end.
fn talk(
    input: ChildStdin,
    script: &[u8],
    pauses: &[usize],
    transcript: &mut Transcript,
) -> Result<(), String> {
    let (pieces, written) = channel::<Vec<u8>>();
    thread::spawn(move || write(input, &written));
    let mut start = 0;
    for &pause in pauses {
        pieces.send(script[start..pause].to_vec()).ok();
        start = pause;
        transcript.read_lines(complete_answers(&script[..pause]))?;
    }
    pieces.send(script[start..].to_vec()).ok();
    drop(pieces);
    transcript.read_to_end()
}

/// Writes pieces to a program as they come. A program that stops reading is
/// no problem here: what it has printed tells.
fn write(mut input: ChildStdin, pieces: &Receiver<Vec<u8>>) {
    for piece in pieces {
        if input
            .write_all(&piece)
            .and_then(|()| input.flush())
            .is_err()
        {
            break;
        }
    }
}

/// How many lines of answer all complete lines of a script have.
fn complete_answers(script: &[u8]) -> u64 {
    let end = script.iter().rposition(|&byte| byte == b'\n');
    end.map_or(0, |end| lines(&script[..=end]).map(answers_to).sum())
}

/// What has been read.
struct Transcript<'a> {
    bytes: Vec<u8>,
    lines: u64,
    /// How many lines there should be in the end.
    limit: u64,
    pieces: &'a Receiver<Vec<u8>>,
    deadline: Instant,
}

/// A line of answer is never longer than this.
const LONGEST: u64 = 2_000;

impl<'a> Transcript<'a> {
    /// Nothing has been read yet of what is printed for a script.
    fn new(script: &[u8], pieces: &'a Receiver<Vec<u8>>, patience: Patience) -> Transcript<'a> {
        Transcript {
            bytes: Vec::new(),
            lines: 0,
            limit: lines(script).map(answers_to).sum(),
            pieces,
            deadline: Instant::now() + patience.0,
        }
    }

    /// Reads until there are so many lines, or the program ends.
    fn read_lines(&mut self, lines: u64) -> Result<(), String> {
        while self.lines < lines && self.read_piece(lines)? {}
        Ok(())
    }

    fn read_to_end(&mut self) -> Result<(), String> {
        while self.read_piece(u64::MAX)? {}
        Ok(())
    }

    /// Reads on, while there should be so many lines. `false` at the end.
    fn read_piece(&mut self, lines: u64) -> Result<bool, String> {
        use std::sync::mpsc::RecvTimeoutError::{Disconnected, Timeout};
        let left = self.deadline.saturating_duration_since(Instant::now());
        match self.pieces.recv_timeout(left) {
            Ok(piece) => self.add(&piece).map(|()| true),
            Err(Disconnected) => Ok(false),
            Err(Timeout) if lines == u64::MAX => Err("found that it does not end".to_string()),
            Err(Timeout) => Err(format!(
                "found {} lines where it waits for input, expected {lines}",
                self.lines
            )),
        }
    }

    /// Adds what was read, unless the program goes on far beyond the answers.
    fn add(&mut self, piece: &[u8]) -> Result<(), String> {
        self.lines += piece.iter().filter(|&&byte| byte == b'\n').count() as u64;
        self.bytes.extend(piece);
        if self.bytes.len() as u64 > (self.limit + 100) * LONGEST {
            return Err(format!(
                "found {} bytes, expected {} lines",
                self.bytes.len(),
                self.limit
            ));
        }
        Ok(())
    }
}

/// Waits for a program's end, and ends it if that takes too long.
fn wait(child: &mut Child, patience: Patience) -> io::Result<ExitStatus> {
    let deadline = Instant::now() + patience.0;
    while Instant::now() < deadline {
        if let Some(status) = child.try_wait()? {
            return Ok(status);
        }
        thread::sleep(Duration::from_micros(200));
    }
    child.kill()?;
    child.wait()
}

/// Whether a program that cannot write its output ends with status 1.
pub fn reports_full_output(program: &Path, patience: Patience) -> io::Result<bool> {
    let full = OpenOptions::new().write(true).open("/dev/full")?;
    let mut child = Command::new(program)
        .stdin(Stdio::piped())
        .stdout(full)
        .stderr(Stdio::null())
        .spawn()?;
    let input = child.stdin.take();
    input.expect("a pipe").write_all(b"had\n").ok();
    Ok(wait(&mut child, patience)?.code() == Some(1))
}
