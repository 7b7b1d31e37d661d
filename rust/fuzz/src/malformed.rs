//! Lines that are not well-formed, or hardly, among others.

use account::Command;

use crate::draft::Draft;
use crate::kinds;

/// Numbers at the edge of what is a number, and words that nearly are commands.
const EDGES: [&str; 52] = [
    "wake 4294967295",
    "wake 4294967296",
    "wake 4294967297",
    "wake 18446744073709551616",
    "wake 18446744073709551617",
    "lock 0 4294967296",
    "lock 4294967296 0",
    "make fixed 4294967295",
    "make fair 4294967296",
    "make fair 4294967297",
    "make reserved 1 4294967300",
    "make reserved 4294967297 4",
    "make reserved 1 0",
    "make reserved 0 4",
    "make reserved 1 3",
    "make reserved 1 11",
    "make reserved 1 20160",
    "make reserved 10080 10080",
    "make fixed",
    "make",
    "make fair",
    "make reserved 1",
    "make fixed 1 2",
    "make fair 1 2",
    "make Fixed 1",
    "tick",
    "tick 4294967296",
    "tick 00000000000",
    "tick 0",
    "tick 1.",
    "tick 0x1",
    "tick 1e1",
    "tick +1",
    "tick -1",
    "tick -0",
    "any 1",
    "any 1 2 3",
    "any 4294967296 0",
    "any 0 4294967296",
    "had ",
    " had",
    "had had",
    "HAD",
    "",
    " ",
    "id 0",
    "done",
    "\u{feff}had",
    "had\r",
    "had\0",
    "\u{0661}",
    "wake \u{0661}",
];

/// A broken line, or one of another kind of script.
pub fn step(d: &mut Draft) {
    if d.random.percent(50) {
        return match d.random.below(3) {
            0 => kinds::locks(d),
            1 => kinds::windows(d),
            _ => kinds::fixed(d),
        };
    }
    let line = match d.random.below(10) {
        0 => noise(d),
        1 => long(d),
        2..=3 => edge(d),
        _ => damaged(d),
    };
    d.raw(line);
}

/// Any bytes but a newline.
fn noise(d: &mut Draft) -> Vec<u8> {
    let length = d.random.below(20);
    (0..length)
        .map(|_| (d.random.next() % 256) as u8)
        .filter(|&byte| byte != b'\n')
        .collect()
}

/// A long line: of nothing, of zeros, of words.
fn long(d: &mut Draft) -> Vec<u8> {
    let length = d.random.one_of(&[100, 1000, 4095, 4096, 4097, 70_000]);
    match d.random.below(5) {
        0 => vec![b' '; length],
        1 => vec![0; length],
        2 => [b"tick ".to_vec(), vec![b'0'; length], b"1".to_vec()].concat(),
        3 => [b"wake ".to_vec(), vec![b'9'; length]].concat(),
        _ => b"had ".repeat(length / 4),
    }
}

fn edge(d: &mut Draft) -> Vec<u8> {
    d.random.one_of(&EDGES).as_bytes().to_vec()
}

/// A good line with a byte put in, taken out or changed.
fn damaged(d: &mut Draft) -> Vec<u8> {
    let mut line = match d.random.some_of(&d.lines.iter().collect::<Vec<_>>()) {
        Some(line) => line.clone(),
        None => Command::Had.to_string().into_bytes(),
    };
    line.truncate(100);
    let byte = d.random.one_of(b" 0123456789\0\t\r-+adehinuz\xff\x80/:");
    let at = d.random.below(line.len() as u32 + 1) as usize;
    match d.random.below(4) {
        0 => line.insert(at, byte),
        1 => line.truncate(at),
        2 if at < line.len() => line[at] = byte,
        _ if at < line.len() => drop(line.remove(at)),
        _ => line.push(byte),
    }
    line
}
