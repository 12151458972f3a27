// The tables that are printed: packages, runs, and what the steps of a run cost beyond the same run without them.
use crate::callers::{Who, ROOM};
use crate::cases::{start_of, Case, CHECKS, RUNS};
use crate::timing::{best, Times};

pub fn print() {
    head("package");
    for name in CHECKS {
        let case = Case::named(name).expect("a listed name");
        row(name, case.bytes(), best(name, &case));
    }
    if cfg!(feature = "runs") {
        print_runs();
    }
}

fn print_runs() {
    println!();
    head("run, with its check");
    let mut steps = Vec::new();
    for name in RUNS {
        let (whole, start) = (Case::named(name).expect("a listed name"), start_of(name));
        let bare = Case::named(&start).expect("a run has a start");
        let (with, without) = (best(name, &whole), best(&start, &bare));
        row(name, whole.bytes(), with);
        row(&start, bare.bytes(), without);
        if taken(&whole) > 1 {
            steps.push((name, taken(&whole), with.beyond(without)));
        }
    }
    println!("\n{:<20} {:>8} {:>14} {:>14} {:>8}", "steps alone", "steps", "product, ns", "second, ns", "ratio");
    for (name, count, times) in steps {
        let each = |micros: f64| micros * 1e3 / count as f64;
        println!("{:<20} {:>8} {:>14.1} {:>14.1} {:>8.2}", name, count, each(times.product), each(times.second), times.ratio());
    }
}

/// How many steps are taken. One step alone is too short for a clock: `count` shows it.
fn taken(case: &Case) -> u64 {
    Who::Second.answer(case, &mut [0; ROOM]) >> 32 & 0xFFFF
}

fn head(what: &str) {
    println!("{:<20} {:>8} {:>14} {:>14} {:>8}", what, "bytes", "product, us", "second, us", "ratio");
}

fn row(name: &str, bytes: usize, times: Times) {
    println!("{:<20} {:>8} {:>14.2} {:>14.2} {:>8.2}", name, bytes, times.product, times.second, times.ratio());
}
