//! The static library against the account in plain Rust, on the same steps.
//!
//!     cargo run --offline --release -p wendrifoy --example bench -- [STEPS [SEED]]
//!
//! Plays `any SEED STEPS` by both. The account finds what the documented
//! choices give; it has no mode without its checks of quotas and fairness at
//! each tick, while its audit of rings and shares after each call is left out.
//! There are no buffers but a line of transcript, which is cleared first.

use std::time::{Duration, Instant};

use account::any::{Step, Steps};
use account::System;

const ROUNDS: usize = 5;

fn main() {
    let mut words = std::env::args()
        .skip(1)
        .map(|word| word.parse().expect("a number"));
    let steps: u32 = words.next().unwrap_or(1_000_000);
    let seed: u32 = words.next().unwrap_or(1);
    let script = format!("any {seed} {steps}\nhad\n").into_bytes();

    let mut best = [Duration::MAX; 2];
    for _ in 0..ROUNDS {
        let mut transcript = [0; 4096];
        let begun = Instant::now();
        let written = wendrifoy::play(&script, &mut transcript).expect("room");
        best[0] = best[0].min(begun.elapsed());

        let begun = Instant::now();
        let had = by_account(seed, steps);
        best[1] = best[1].min(begun.elapsed());
        assert_eq!(transcript[..written], *format!("{had}\n").as_bytes());
    }
    let [library, account] = best.map(|time| time.as_secs_f64());
    let each = |time: f64| time * 1e9 / f64::from(steps);
    println!("any {seed} {steps}, the best of {ROUNDS} rounds; buffers cleared before each");
    println!(
        "static library: {library:.3} s, {:.0} ns a step",
        each(library)
    );
    println!(
        "plain account:  {account:.3} s, {:.0} ns a step",
        each(account)
    );
    println!("ratio library / account: {:.2}", library / account);
}

fn by_account(seed: u32, steps: u32) -> String {
    let mut system = System::default();
    let mut chosen = Steps::new(seed);
    for _ in 0..steps {
        match chosen.step() {
            Step::Call(call) => {
                system.call(call);
            }
            Step::Tick => {
                let whose = system.begin_and_choose();
                system.pass(whose).expect("the rules keep their promises");
            }
        }
    }
    system.had()
}
