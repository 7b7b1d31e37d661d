//! Random scripts and steps, played by the static library and checked by the account.

use account::script::{lines, parse};
use account::{check, Command, System};
use fuzz::kinds::KINDS;
use fuzz::trial::Script;
use wendrifoy::{hours, hours_into, play, play_to_vec, record, record_into};
use wendrifoy::{Answer, BadStep, Call, Entry, Kind, NoRoom, RawEntry, RawStep, Step};

/// Random scripts of all kinds, damaged lines among them.
fn scripts(seeds: std::ops::Range<u64>) -> impl Iterator<Item = Vec<u8>> {
    KINDS.into_iter().flat_map(move |kind| {
        seeds
            .clone()
            .map(move |seed| Script::random(kind, seed).bytes())
    })
}

/// A call of the account, as one of the wrapper's.
fn call(call: account::Call) -> Call {
    match call {
        account::Call::Make(account::Kind::Reserved { quota, period }) => {
            Call::Make(Kind::Reserved { quota, period })
        }
        account::Call::Make(account::Kind::Fixed { rank }) => Call::Make(Kind::Fixed { rank }),
        account::Call::Make(account::Kind::Fair { weight }) => Call::Make(Kind::Fair { weight }),
        account::Call::End(i) => Call::End(i),
        account::Call::Wake(i) => Call::Wake(i),
        account::Call::Sleep(i) => Call::Sleep(i),
        account::Call::Lock(i, m) => Call::Lock(i, m),
        account::Call::Unlock(i, m) => Call::Unlock(i, m),
    }
}

/// The steps of a script, and a script of just these: what is no step is left out.
fn steps(script: &[u8]) -> (Vec<Step>, Vec<u8>) {
    let mut steps = Vec::new();
    let mut text = String::new();
    for command in lines(script).filter_map(parse) {
        match command {
            Command::Call(asked) => steps.push(Step::Call(call(asked))),
            Command::Tick(count) => steps.extend(vec![Step::Tick; count as usize]),
            Command::Any { seed, steps: many } => {
                let mut chosen = account::any::Steps::new(seed);
                for _ in 0..many {
                    let step = match chosen.step() {
                        account::any::Step::Tick => {
                            text += "tick 1\n";
                            Step::Tick
                        }
                        account::any::Step::Call(asked) => {
                            text += &format!("{}\n", Command::Call(asked));
                            Step::Call(call(asked))
                        }
                    };
                    steps.push(step);
                }
                continue;
            }
            Command::Had => continue,
        }
        text += &format!("{command}\n");
    }
    (steps, text.into_bytes())
}

/// What the program would print for the entries.
fn transcript(entries: &[Entry]) -> Vec<u8> {
    let mut text = String::new();
    for entry in entries {
        text += &match entry {
            Entry::Ran(None, _) => "-\n".to_string(),
            Entry::Ran(Some(whose), runs) if whose == runs => format!("{whose}\n"),
            Entry::Ran(Some(whose), runs) => format!("{whose} runs {runs}\n"),
            Entry::Called(_, Answer::Done) => "done\n".to_string(),
            Entry::Called(_, Answer::Id(task)) => format!("id {task}\n"),
            Entry::Called(_, Answer::No(number)) => format!("no {number}\n"),
        };
    }
    text.into_bytes()
}

/// Whether the entries are those of the steps, in order.
fn answer_steps(steps: &[Step], entries: &[Entry]) -> bool {
    steps.len() == entries.len()
        && steps
            .iter()
            .zip(entries)
            .all(|(step, entry)| match (step, entry) {
                (Step::Tick, Entry::Ran(..)) => true,
                (Step::Call(asked), Entry::Called(called, _)) => asked == called,
                _ => false,
            })
}

#[test]
fn scripts_are_played_as_the_rules_say() {
    let mut total = account::Tally::default();
    for script in scripts(0..40) {
        total += check(&script, &play_to_vec(&script)).unwrap_or_else(|what| panic!("{what}"));
    }
    for count in [
        total.done,
        total.ids,
        total.unread,
        total.ticks,
        total.any_ticks,
    ] {
        assert!(count > 100, "{total}");
    }
}

#[test]
fn long_scripts_too() {
    let mut script = Vec::new();
    for part in scripts(100..104) {
        script.extend(part);
        script.push(b'\n');
    }
    script.extend(b"any 5 100000\nhad\ntick 100000\nhad\n");
    check(&script, &play_to_vec(&script)).unwrap_or_else(|what| panic!("{what}"));
}

#[test]
fn short_and_damaged_scripts_too() {
    for script in [
        &b""[..],
        b"\n",
        b"had",
        b"tick 0",
        b"\0\xff",
        b"tick 3\r\n",
        b"wake 0\n\n",
    ] {
        check(script, &play_to_vec(script)).unwrap_or_else(|what| panic!("{what}"));
    }
    for script in scripts(200..203) {
        for cut in [1, 7, script.len() / 2, script.len() - 1] {
            let script = &script[..cut];
            check(script, &play_to_vec(script)).unwrap_or_else(|what| panic!("{what}"));
        }
    }
}

#[test]
fn the_transcript_has_room_or_not() {
    for script in scripts(300..303) {
        let whole = play_to_vec(&script);
        for room in [0, 1, whole.len() / 2, whole.len().saturating_sub(1)] {
            let mut small = vec![b'#'; room];
            let played = play(&script, &mut small);
            assert_eq!(
                played,
                if room < whole.len() {
                    Err(NoRoom)
                } else {
                    Ok(whole.len())
                }
            );
        }
        let mut large = vec![b'#'; whole.len() + 100];
        assert_eq!(play(&script, &mut large), Ok(whole.len()));
        assert!(large.starts_with(&whole));
        assert!(large[whole.len()..].iter().all(|&byte| byte == b'#'));
    }
}

#[test]
fn steps_are_played_as_the_rules_say() {
    for script in scripts(400..420) {
        let (steps, text) = steps(&script);
        for entries in [hours(&steps), record(&steps)] {
            assert!(answer_steps(&steps, &entries));
            check(&text, &transcript(&entries)).unwrap_or_else(|what| panic!("{what}"));
        }
    }
}

#[test]
fn both_interfaces_make_the_same_choices() {
    for script in scripts(500..505) {
        let (steps, text) = steps(&script);
        let played = play_to_vec(&text);
        assert_eq!(transcript(&hours(&steps)), played);
        assert_eq!(transcript(&record(&steps)), played);
    }
}

#[test]
fn what_is_beyond_the_entries_stays() {
    let mark = RawEntry {
        what: 77,
        first: 1,
        second: 2,
        answer: 3,
        value: 4,
    };
    for script in scripts(600..602) {
        let steps: Vec<RawStep> = steps(&script).0.into_iter().map(RawStep::from).collect();
        let mut whole = vec![mark; steps.len() + 3];
        for play in [hours_into, record_into] {
            whole.fill(mark);
            assert_eq!(play(&steps, &mut whole), Ok(steps.len()));
            assert_eq!(whole[steps.len()..], [mark; 3]);
            let mut small = vec![mark; steps.len() / 2];
            assert_eq!(play(&steps, &mut small), Ok(small.len()));
            assert_eq!(small[..], whole[..small.len()]);
        }
    }
}

#[test]
fn steps_that_are_none_are_answered() {
    let mark = RawEntry {
        what: 77,
        ..RawEntry::default()
    };
    for bad in [9, 10, 255, 256, u32::MAX] {
        let mut steps = vec![RawStep::default(); 20];
        steps[13].what = bad;
        steps[17].what = 9;
        for play in [hours_into, record_into] {
            let mut log = [mark; 20];
            assert_eq!(play(&steps, &mut log), Err(BadStep(13)));
            assert_eq!(log, [mark; 20]);
        }
    }
    assert_eq!(hours_into(&[], &mut []), Ok(0));
    assert_eq!(record_into(&[RawStep::default()], &mut []), Ok(0));
}

#[test]
fn an_empty_system_has_nothing() {
    assert_eq!(
        System::default().had().as_bytes(),
        &play_to_vec(b"had\n")[..3]
    );
}
