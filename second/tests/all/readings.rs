// Does a comparison see anything? 20,000 cases find every wrong reading but the one that cannot be seen.
use second::gen::cases::{case, output, Case};
use second::readings::{Only, Settled, Wrong, ALL};

const CASES: u64 = 20_000;

/// Seed 1, or another one by the variable READINGS_SEED.
fn seed() -> u64 {
    std::env::var("READINGS_SEED").ok().and_then(|value| value.parse().ok()).unwrap_or(1)
}

/// 21 is judged before 22 and asks every class above X to trust X. So where X is under suspicious A and B and 21 holds, A trusts X:
/// A and X are not suspicious, and the pair (A, X) breaks 22, too; A has the lower number, so (X, X) is never the first pair.
const UNSEEN: Wrong = Wrong::SuspicionApart;

fn first_difference(cases: &[(Case, Vec<u8>)], wrong: Wrong) -> Option<usize> {
    cases.iter().position(|(case, settled)| output(case, Only(wrong)) != *settled)
}

#[test]
fn every_wrong_reading_is_found() {
    let seed = seed();
    let cases: Vec<(Case, Vec<u8>)> = (0..CASES)
        .map(|number| case(seed, number))
        .map(|case| {
            let settled = output(&case, Settled);
            (case, settled)
        })
        .collect();
    let mut missed = Vec::new();
    for &(wrong, name, _) in ALL {
        let found = first_difference(&cases, wrong);
        println!("{name}: {}", found.map_or("not seen".to_string(), |number| format!("case {number}")));
        match (found, wrong == UNSEEN) {
            (None, false) => missed.push(name),
            (Some(number), true) => panic!("{name} cannot be seen, but case {number} shows it"),
            _ => {}
        }
    }
    assert!(missed.is_empty(), "not found in {CASES} cases: {missed:?}");
}
