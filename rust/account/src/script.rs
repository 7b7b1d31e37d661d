//! The lines of a script: reading and writing them.

use std::fmt;

/// What a task is to be made as. The numbers are as asked for, in range or not.
#[derive(Clone, Copy, Debug, PartialEq, Eq)]
pub enum Kind {
    Reserved { quota: u32, period: u32 },
    Fixed { rank: u32 },
    Fair { weight: u32 },
}

/// A call to the scheduler. The numbers are as asked for, in range or not.
#[derive(Clone, Copy, Debug, PartialEq, Eq)]
pub enum Call {
    Make(Kind),
    End(u32),
    Wake(u32),
    Sleep(u32),
    Lock(u32, u32),
    Unlock(u32, u32),
}

/// A well-formed line.
#[derive(Clone, Copy, Debug, PartialEq, Eq)]
pub enum Command {
    Call(Call),
    Tick(u32),
    Had,
    Any { seed: u32, steps: u32 },
}

/// The lines of a script, without their ends.
pub fn lines(script: &[u8]) -> impl Iterator<Item = &[u8]> {
    script
        .split_inclusive(|&byte| byte == b'\n')
        .map(|line| line.strip_suffix(b"\n").unwrap_or(line))
}

/// What a line says, or `None` if it is not well-formed.
pub fn parse(line: &[u8]) -> Option<Command> {
    let mut words: [&[u8]; 5] = [b""; 5];
    let mut count = 0;
    for word in line.split(|&byte| byte == b' ').take(words.len()) {
        words[count] = word;
        count += 1;
    }
    match words[..count] {
        [b"had"] => Some(Command::Had),
        [b"tick", n] => Some(Command::Tick(number(n)?)),
        [b"any", s, n] => Some(Command::Any {
            seed: number(s)?,
            steps: number(n)?,
        }),
        ref words => call(words).map(Command::Call),
    }
}

fn call(words: &[&[u8]]) -> Option<Call> {
    Some(match *words {
        [b"make", b"reserved", q, p] => Call::Make(Kind::Reserved {
            quota: number(q)?,
            period: number(p)?,
        }),
        [b"make", b"fixed", r] => Call::Make(Kind::Fixed { rank: number(r)? }),
        [b"make", b"fair", w] => Call::Make(Kind::Fair { weight: number(w)? }),
        [b"end", i] => Call::End(number(i)?),
        [b"wake", i] => Call::Wake(number(i)?),
        [b"sleep", i] => Call::Sleep(number(i)?),
        [b"lock", i, m] => Call::Lock(number(i)?, number(m)?),
        [b"unlock", i, m] => Call::Unlock(number(i)?, number(m)?),
        _ => return None,
    })
}

/// One or more decimal digits of a value below 2^32; leading zeros are allowed.
fn number(word: &[u8]) -> Option<u32> {
    if word.is_empty() {
        return None;
    }
    word.iter().try_fold(0u32, |value, &byte| {
        let digit = byte.is_ascii_digit().then(|| u32::from(byte - b'0'))?;
        value.checked_mul(10)?.checked_add(digit)
    })
}

/// How many lines of answer a line has.
pub fn answers_to(line: &[u8]) -> u64 {
    match parse(line) {
        Some(Command::Tick(count)) => u64::from(count),
        Some(Command::Any { .. }) => 0,
        _ => 1,
    }
}

impl fmt::Display for Kind {
    fn fmt(&self, f: &mut fmt::Formatter) -> fmt::Result {
        match self {
            Kind::Reserved { quota, period } => write!(f, "reserved {quota} {period}"),
            Kind::Fixed { rank } => write!(f, "fixed {rank}"),
            Kind::Fair { weight } => write!(f, "fair {weight}"),
        }
    }
}

impl fmt::Display for Call {
    fn fmt(&self, f: &mut fmt::Formatter) -> fmt::Result {
        match self {
            Call::Make(kind) => write!(f, "make {kind}"),
            Call::End(i) => write!(f, "end {i}"),
            Call::Wake(i) => write!(f, "wake {i}"),
            Call::Sleep(i) => write!(f, "sleep {i}"),
            Call::Lock(i, m) => write!(f, "lock {i} {m}"),
            Call::Unlock(i, m) => write!(f, "unlock {i} {m}"),
        }
    }
}

impl fmt::Display for Command {
    fn fmt(&self, f: &mut fmt::Formatter) -> fmt::Result {
        match self {
            Command::Call(call) => call.fmt(f),
            Command::Tick(n) => write!(f, "tick {n}"),
            Command::Had => write!(f, "had"),
            Command::Any { seed, steps } => write!(f, "any {seed} {steps}"),
        }
    }
}

#[cfg(test)]
mod tests {
    use super::*;

    #[test]
    fn lines_end_with_newlines_or_the_input() {
        let all = |text: &'static [u8]| lines(text).collect::<Vec<_>>();
        assert!(all(b"").is_empty());
        assert_eq!(all(b"\n"), [b""]);
        assert_eq!(all(b"a\n\nb"), [&b"a"[..], b"", b"b"]);
        assert_eq!(all(b"a\r\n"), [b"a\r"]);
    }

    #[test]
    fn well_formed_lines_are_read() {
        let good = [
            "make reserved 3 10",
            "make fixed 2",
            "make fair 100",
            "end 3",
            "wake 4294967295",
            "sleep 0",
            "lock 3 0",
            "unlock 3 0",
            "tick 20",
            "had",
            "any 7 100",
        ];
        for line in good {
            assert_eq!(parse(line.as_bytes()).expect(line).to_string(), line);
        }
        let zeros = [b"tick ".to_vec(), vec![b'0'; 5000], b"7".to_vec()].concat();
        assert_eq!(parse(&zeros), Some(Command::Tick(7)));
    }

    #[test]
    fn other_lines_are_not() {
        let bad: [&[u8]; 22] = [
            b"",
            b" ",
            b"tick",
            b"tick ",
            b"tick  1",
            b" tick 1",
            b"tick 1 ",
            b"tick 1 1",
            b"tick 4294967296",
            b"tick 99999999999999999999999999",
            b"tick -1",
            b"tick +1",
            b"tick 1\r",
            b"tick 1\0",
            b"tick\t1",
            b"TICK 1",
            b"had 1",
            b"make reserved 3",
            b"make reserved 3 10 1",
            b"make odd 3",
            b"lock 1",
            b"any 1",
        ];
        for line in bad {
            assert_eq!(parse(line), None, "{:?}", String::from_utf8_lossy(line));
        }
        assert_eq!(parse(&vec![b' '; 1_000_000]), None);
        assert_eq!(parse(b"\xff\xfe"), None);
    }
}
