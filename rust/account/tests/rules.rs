//! The worked examples of `docs/RULES.md`: right transcripts are accepted, and
//! wrong ones refused at the right place.

use account::{check, Disagreement, Tally};

/// Checks a dialogue: a line for each command, with its answers after `->`,
/// separated by commas.
fn hold(dialogue: &str) -> Result<Tally, Disagreement> {
    let (mut script, mut transcript) = (String::new(), String::new());
    for line in dialogue
        .lines()
        .map(str::trim)
        .filter(|line| !line.is_empty())
    {
        let (command, answers) = line.split_once("->").expect("an arrow");
        script += &format!("{}\n", command.trim());
        for answer in answers.split(',').map(str::trim).filter(|a| !a.is_empty()) {
            transcript += &format!("{answer}\n");
        }
    }
    check(script.as_bytes(), transcript.as_bytes())
}

fn right(dialogue: &str) {
    if let Err(disagreement) = hold(dialogue) {
        panic!("{disagreement}");
    }
}

/// The dialogue is refused at this line of the script, with these words.
fn wrong(dialogue: &str, line: usize, what: &str) {
    let disagreement = hold(dialogue).expect_err("a disagreement");
    assert_eq!(disagreement.line, line, "{disagreement}");
    assert!(disagreement.what.contains(what), "{disagreement}");
}

const CHAIN: &str = "
    make fair 1 -> id 0
    make fair 1 -> id 1
    make fair 1 -> id 2
    wake 0 -> done
    wake 1 -> done
    wake 2 -> done
    lock 0 3 -> done
    lock 1 4 -> done
    lock 1 3 -> done
    lock 2 4 -> done
";

#[test]
fn who_waits_lends_its_ticks() {
    right(&format!(
        "{CHAIN} tick 3 -> 0, 1 runs 0, 2 runs 0\n had -> had 1 1 1"
    ));
    right(&format!("{CHAIN} tick 3 -> 2 runs 0, 1 runs 0, 0"));
    right(&format!("{CHAIN} sleep 0 -> done\n tick 2 -> -, -"));
    wrong(&format!("{CHAIN} tick 1 -> 1"), 11, "found `1`, expected");
    wrong(&format!("{CHAIN} tick 1 -> 2 runs 1"), 11, "`2 runs 0`");
    wrong(&format!("{CHAIN} tick 1 -> 0 runs 0"), 11, "`0 runs 0`");
    wrong(
        &format!("{CHAIN} tick 2 -> 0, 0"),
        11,
        "expected `1 runs 0`",
    );
    wrong(&format!("{CHAIN} sleep 0 -> done\n tick 1 -> 2"), 12, "`-`");
    wrong(
        &format!("{CHAIN} tick 1 -> 0\n had -> had 0 0 1"),
        12,
        "`had 1 0 0`",
    );
}

#[test]
fn shares_are_set_aside_to_the_brim() {
    right(
        "make reserved 3 4 -> id 0
         make reserved 1 10080 -> no 3
         make fair 1 -> id 1",
    );
    wrong(
        "make reserved 3 4 -> id 0\n make reserved 1 10080 -> id 1",
        2,
        "`no 3`",
    );
    wrong("make reserved 3 4 -> no 3", 1, "expected `id 0`");
    right("make reserved 4 4 -> no 3\n make reserved 5 4 -> no 1\n make fair 0 -> no 1");
}

#[test]
fn rings_are_turned_away() {
    let two = "
        make fair 1 -> id 0
        make fair 1 -> id 1
        wake 0 -> done
        wake 1 -> done
        lock 0 5 -> done
        lock 1 6 -> done
        lock 0 6 -> done
        ";
    right(&format!("{two} lock 1 5 -> no 5"));
    wrong(&format!("{two} lock 1 5 -> done"), 8, "`no 5`");
    right(&format!("{CHAIN} lock 0 4 -> no 5\n lock 0 3 -> no 5"));
    right(&format!(
        "{CHAIN} lock 2 0 -> no 9\n sleep 2 -> no 9\n end 2 -> no 9\n end 0 -> no 6"
    ));
    right(&format!(
        "{CHAIN} unlock 1 4 -> no 9\n unlock 0 4 -> no 8\n unlock 0 64 -> no 1"
    ));
}

#[test]
fn sleepers_may_own_and_unlock_but_not_lock() {
    right(
        "make fixed 0 -> id 0
         lock 0 1 -> no 9
         lock 0 64 -> no 1
         lock 1 64 -> no 4
         wake 0 -> done
         lock 0 1 -> done
         sleep 0 -> done
         unlock 0 1 -> done
         end 0 -> done
         end 0 -> no 4",
    );
}

#[test]
fn queues_hand_on_from_the_front() {
    let queue = "
        make fixed 1 -> id 0
        make fixed 1 -> id 1
        make fixed 0 -> id 2
        wake 0 -> done
        wake 1 -> done
        wake 2 -> done
        lock 0 0 -> done
        lock 1 0 -> done
        lock 2 0 -> done
        tick 1 -> 2 runs 0
        unlock 0 0 -> done
        ";
    right(&format!(
        "{queue} tick 1 -> 2 runs 1\n unlock 1 0 -> done\n tick 1 -> 2"
    ));
    wrong(&format!("{queue} tick 1 -> 2"), 12, "`2 runs 1`");
}

#[test]
fn windows_follow_each_other() {
    let alone = "make reserved 2 4 -> id 0\n wake 0 -> done\n";
    right(&format!("{alone} tick 6 -> 0, 0, -, -, 0, 0"));
    wrong(
        &format!("{alone} tick 3 -> 0, 0, 0"),
        3,
        "found `0`, expected `-`",
    );
    wrong(
        &format!("{alone} tick 1 -> -"),
        3,
        "found `-`, expected `0`",
    );
}

#[test]
fn a_window_does_not_begin_anew_on_wake() {
    let woken = "
        make reserved 2 4 -> id 0
        wake 0 -> done
        tick 2 -> 0, 0
        sleep 0 -> done
        wake 0 -> done
        ";
    right(&format!("{woken} tick 3 -> -, -, 0"));
    wrong(&format!("{woken} tick 1 -> 0"), 6, "expected `-`");
}

/// B's window of 4 is whole and begins when A, with 3 of 12, has 3 ticks left.
const LATE: &str = "
    make reserved 3 12 -> id 0
    make reserved 2 4 -> id 1
    wake 1 -> done
    wake 0 -> done
    tick 1 -> 1
    sleep 0 -> done
    tick 3 -> 1, -, -
    tick 4 -> 1, 1, -, -
    sleep 1 -> done
    tick 1 -> -
    wake 0 -> done
    wake 1 -> done
    ";

#[test]
fn whole_windows_have_their_quota_at_their_end() {
    right(&format!("{LATE} tick 4 -> 1, 1, 0, 0"));
    right(&format!("{LATE} tick 4 -> 0, 0, 1, 1"));
    wrong(
        &format!("{LATE} tick 4 -> 0, 0, 0, 1"),
        13,
        "over with 1 ticks had, expected 2",
    );
}

#[test]
fn shares_are_kept_until_the_window_is_over() {
    let ended = "
        make reserved 3 4 -> id 0
        wake 0 -> done
        tick 1 -> 0
        end 0 -> done
        wake 0 -> no 4
        had -> had
        make reserved 3 4 -> no 3
        ";
    right(&format!(
        "{ended} tick 3 -> -, -, -\n make reserved 3 4 -> id 0"
    ));
    right(&format!(
        "{ended} tick 2 -> -, -\n make fair 1 -> id 1\n tick 1 -> -\n make fair 1 -> id 0"
    ));
    wrong(&format!("{ended} make fair 1 -> id 0"), 8, "`id 1`");
    wrong(
        &format!("{ended} tick 3 -> -, -, -\n make reserved 3 4 -> no 3"),
        9,
        "`id 0`",
    );
    right("make reserved 3 4 -> id 0\n end 0 -> done\n make reserved 3 4 -> id 0");
}

#[test]
fn fixed_tasks_take_turns_within_a_rank() {
    let three = "
        make fixed 1 -> id 0
        make fixed 1 -> id 1
        make fixed 0 -> id 2
        wake 0 -> done
        wake 1 -> done
        ";
    right(&format!(
        "{three} tick 3 -> 0, 1, 0\n wake 2 -> done\n tick 2 -> 2, 2"
    ));
    wrong(&format!("{three} tick 2 -> 0, 0"), 6, "expected `1`");
    right(&format!(
        "{three} lock 0 0 -> done\n lock 1 0 -> done\n tick 3 -> 0, 1 runs 0, 0"
    ));
    let made = "tick 1 -> 0\n make fixed 1 -> id 3\n wake 3 -> done\n";
    right(&format!("{three} {made} tick 3 -> 1, 0, 3"));
    right(&format!(
        "{three} sleep 0 -> done\n wake 0 -> done\n tick 1 -> 0"
    ));
}

const WEIGHTS: &str = "
    make fair 1 -> id 0
    make fair 3 -> id 1
    wake 0 -> done
    wake 1 -> done
    tick 2 -> 1, 1
    ";

#[test]
fn fair_tasks_go_by_weight() {
    right(&format!("{WEIGHTS} tick 8 -> 0, 1, 1, 1, 0, 1, 1, 1"));
    right(&format!("{WEIGHTS} tick 8 -> 1, 0, 1, 1, 1, 0, 1, 1"));
    wrong(&format!("{WEIGHTS} tick 2 -> 0, 0"), 6, "expected `1`");
    wrong(&format!("{WEIGHTS} tick 2 -> 1, 1"), 6, "expected `0`");
    right("make fair 1 -> id 0\n make fair 1 -> id 1\n end 0 -> done\n make fair 9 -> id 0");
}

#[test]
fn who_comes_back_is_brought_to_the_mark() {
    let rested = "
        make fair 1 -> id 0
        make fair 1 -> id 1
        wake 0 -> done
        tick 5 -> 0, 0, 0, 0, 0
        wake 1 -> done
        ";
    // 0 is at 6 and the mark at 5, to which 1 is brought.
    right(&format!("{rested} tick 4 -> 1, 0, 1, 0"));
    right(&format!("{rested} tick 4 -> 1, 1, 0, 0"));
    wrong(&format!("{rested} tick 3 -> 1, 1, 1"), 6, "expected `0`");
    wrong(&format!("{rested} tick 1 -> 0"), 6, "expected `1`");
    // One that is made begins a part beyond the mark: at 6, as 0 is.
    let made = "make fair 1 -> id 2\n wake 2 -> done\n";
    let slept = rested.replace("wake 1 -> done", "sleep 1 -> done");
    right(&format!("{slept} {made} tick 2 -> 0, 2"));
    right(&format!("{slept} {made} tick 2 -> 2, 0"));
    wrong(&format!("{slept} {made} tick 2 -> 2, 2"), 8, "expected `0`");
}

#[test]
fn transcripts_are_read_to_the_byte() {
    let script = b"had\nwake 0\n\0\ntick 1";
    let good = b"had\nno 4\nline 3?\n-\n";
    let tally = check(script, good).expect("right");
    assert_eq!(
        (tally.lines, tally.ticks, tally.unread, tally.no[4]),
        (4, 1, 1, 1)
    );
    let bad: [(&[u8], usize, usize); 7] = [
        (b"had\nno 4\nline 3?\n-", 4, 4),
        (b"had\nno 4\nline 3?\n", 4, 4),
        (b"had\nno 4\nline 3?\n-\n\n", 4, 5),
        (b"had\nno 4\nline 3?\n-\nx", 4, 5),
        (b"had\r\nno 4\nline 3?\n-\n", 1, 1),
        (b"had\nno 04\nline 3?\n-\n", 2, 2),
        (b"", 1, 1),
    ];
    for (transcript, line, answer_line) in bad {
        let disagreement = check(script, transcript).expect_err("a disagreement");
        assert_eq!(
            (disagreement.line, disagreement.answer_line),
            (line, answer_line)
        );
    }
    assert_eq!(check(b"", b"").expect("right").lines, 0);
    assert_eq!(check(b"", b"had\n").expect_err("too much").line, 0);
}

#[test]
fn the_reference_is_right_through_any() {
    for seed in 0..20 {
        let script = format!("any {seed} 3000\nhad\ntick 50\nany {seed} 10\nhad\n");
        let mut transcript = Vec::new();
        account::play(script.as_bytes(), &mut transcript).expect("played");
        let tally = check(script.as_bytes(), &transcript).expect("right");
        assert_eq!(tally.any_ticks + tally.any_calls, 3010);
    }
}
