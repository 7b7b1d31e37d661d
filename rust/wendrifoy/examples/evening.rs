//! Three tasks and a lock for some ticks, by both interfaces.
//!
//!     cargo run --offline -p wendrifoy --example evening

use wendrifoy::{hours, play_to_vec, Call, Entry, Kind, Step};

const SCRIPT: &str = "\
make fair 1
make reserved 5 10
make fixed 0
wake 0
wake 1
wake 2
lock 0 3
lock 1 3
tick 10
had
";

fn main() {
    // the fair task owns the lock that the reserved one waits for, and runs in its ticks
    print!(
        "{}",
        String::from_utf8_lossy(&play_to_vec(SCRIPT.as_bytes()))
    );

    let mut steps = vec![
        Step::Call(Call::Make(Kind::Fair { weight: 1 })),
        Step::Call(Call::Make(Kind::Fair { weight: 3 })),
        Step::Call(Call::Wake(0)),
        Step::Call(Call::Wake(1)),
    ];
    steps.extend([Step::Tick; 400]);
    let mut had = [0; 2];
    for entry in hours(&steps) {
        match entry {
            Entry::Ran(Some(task), _) => had[task as usize] += 1,
            Entry::Ran(None, _) => println!("nobody's"),
            Entry::Called(call, answer) => println!("{call:?}: {answer:?}"),
        }
    }
    println!("of 400 ticks: {had:?}");
}
