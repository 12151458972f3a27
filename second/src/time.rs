// Times the fixed packages and runs: the fastest of many rounds, in microseconds.
use crate::gen::special::{special, NAMES};
use crate::holdings::ROOM;
use crate::program::cut;
use crate::readings::Settled;
use std::hint::black_box;
use std::time::Instant;

/// Prints a line for each name: its answer and its best time.
pub fn print_times() {
    for name in NAMES {
        let input = special(name).expect("a listed name");
        let end = cut(&input, Settled);
        let (package, script) = input.split_at(end);
        let mut buffer = [0; ROOM];
        let mut answer = 0;
        let micros = best_of(2000, || {
            answer = if script.is_empty() {
                crate::check(black_box(package)).0
            } else {
                crate::run(black_box(package), black_box(script), &mut buffer).0
            };
        });
        let program = if script.is_empty() { "check" } else { "run" };
        println!("{name:18} {program:5} answers {answer:2}  {micros:8.2} us");
    }
}

fn best_of(rounds: usize, mut call: impl FnMut()) -> f64 {
    let mut best = f64::MAX;
    for _ in 0..rounds {
        let begin = Instant::now();
        call();
        best = best.min(begin.elapsed().as_secs_f64() * 1e6);
    }
    best
}
