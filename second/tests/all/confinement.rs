// Demand 3 from outside: no breach in a million steps of accepted packages, and one as soon as a rule or a way is left out.
use crate::text;
use second::confinement::{Breach, Watch, Way, WAYS};
use second::gen::breaking::breaking;
use second::gen::packages::Size;
use second::gen::random::Random;
use second::gen::walks::{playground_of, Walker, MANNERS};
use second::machine::Machine;
use second::package::Package;
use second::program::cut;
use second::readings::{Only, Readings, Settled, Wrong};
use second::script::Script;
use second::trust::Trust;

const STEPS: usize = 1_000_000;

/// A small package with several domains, so that much can cross from one into another.
fn any_package(random: &mut Random) -> Package {
    let domains = random.between(2, 7);
    let size = Size {
        domains,
        pairs: domains * 2,
        classes: random.between(3, 10),
        supers: 3,
        fields: 6,
        methods: random.between(3, 10),
        params: 3,
        effects: 0,
    };
    playground_of(random, size)
}

/// Walks from a start made of chance and watches each step: the steps taken, and the first breach.
fn watched_walk(random: &mut Random, package: &Package, without: Option<Way>) -> (usize, Option<Breach>) {
    let trust = Trust::of(package, Settled);
    let manner = *random.pick(&MANNERS).expect("not empty");
    let mut walker = Walker::new(random, package, &trust, manner);
    let watch = Watch::begin(package, &trust, &walker.machine, without);
    let mut idle = 0;
    while walker.steps.len() < 400 && idle < 60 {
        idle = if walker.advance().is_some() { 0 } else { idle + 1 };
        if let Some(breach) = watch.breach_of_step(&walker.machine) {
            return (walker.steps.len(), Some(breach));
        }
    }
    (walker.steps.len(), watch.breach(&walker.machine))
}

#[test]
fn no_breach_in_a_million_steps() {
    let (mut steps, mut number) = (0, 0);
    while steps < STEPS {
        let random = &mut Random::new(3, number);
        let package = any_package(random);
        for _ in 0..3 {
            let (taken, breach) = watched_walk(random, &package, None);
            assert_eq!(breach, None, "package {number} of seed 3");
            steps += taken;
        }
        number += 1;
    }
    println!("{steps} steps over {number} packages, no breach");
}

#[test]
fn each_way_is_needed() {
    for way in WAYS {
        let found = (0..3000).find(|&number| {
            let random = &mut Random::new(4, number);
            let package = any_package(random);
            watched_walk(random, &package, Some(way)).1.is_some()
        });
        println!("without {way:?}: package {found:?} of seed 4 shows a breach");
        assert!(found.is_some(), "{way:?} is never needed");
    }
}

/// A package that breaks one rule only, and a run over it that breaches.
struct HandMade {
    rule: u8,
    switch: Wrong,
    input: &'static str,
}

const HAND_MADE: [HandMade; 8] = [
    // A class of a weaker domain under one of a stronger: what it makes widens to a capability.
    HandMade { rule: 21, switch: Wrong::Without21, input: "010203 020102 030200 03010100 050100010000FF00 06000001 07 1000 210001 2F" },
    // The overriding method has a stronger label than the called one, and hands over what the entry may not.
    HandMade {
        rule: 23,
        switch: Wrong::Without23,
        input: "010204 020103 020203 030100 03010100 030200 050000010000FF00 050000000001FF0102 050103000001FF0102 050200000002FF0100 \
                06000701 06020703 07 1000 110001 110102 140000 140102 280102000101 200000 280303010100 2F",
    },
    // The overriding method gives back what is a capability for the class that was called.
    HandMade {
        rule: 24,
        switch: Wrong::Without24,
        input: "010203 020102 030100 03020100 050000010000FF00 0500000000010100 0501000000010100 06000701 06020001 07 \
                1000 110001 140000 2801020000 210101 2901 2F",
    },
    // The overriding method takes what is a capability for its own domain.
    HandMade {
        rule: 25,
        switch: Wrong::Without25,
        input: "010204 020102 030100 03020100 030300 050000010000FF00 050000000001FF0102 050100000001FF0102 06000701 07 \
                1000 110001 110102 140000 140102 280102000101 2F",
    },
    // A capability is made.
    HandMade { rule: 26, switch: Wrong::Without26, input: "010203 030100 030200 050000010000FF00 06000001 07 1000 210001 2F" },
    // A capability is read out of another domain's field.
    HandMade { rule: 27, switch: Wrong::Without27, input: "010203 030100 030200 04010101 050000010000FF00 06000200 07 1000 110001 12010100 230000 2F" },
    // The called method has a stronger label than its caller.
    HandMade {
        rule: 29,
        switch: Wrong::Without29,
        input: "010204 020103 020203 030100 030200 050000010000FF00 050003010000FF020100 050100000001FF0100 06000601 06010702 07 \
                1000 110000 110101 140000 140101 2701020100 280202010100 2F",
    },
    // A capability is handed to another domain without the label's leave.
    HandMade {
        rule: 30,
        switch: Wrong::Without30,
        input: "010203 030100 030200 050000010000FF00 050100000001FF0100 06000701 07 1000 110000 110101 140000 140101 280101010100 2F",
    },
];

/// Runs an input and watches it; None when it is not accepted or a step is refused.
fn breach_of<R: Readings>(input: &[u8], readings: R) -> Option<Breach> {
    let (package_text, run_text) = input.split_at(cut(input, Settled));
    let mut package = Package::new();
    let trust = second::judge(package_text, &mut package, readings).ok()?;
    let mut script = Script::new();
    assert_eq!(script.read(run_text, &package, &trust, readings).number, 0, "the run text is read");
    let mut machine = Machine::start(&package, &trust, &script, readings);
    let watch = Watch::begin(&package, &trust, &machine, None);
    for step in script.steps.iter() {
        machine.step(step).expect("every step is taken");
    }
    watch.breach(&machine)
}

#[test]
fn each_rule_is_needed() {
    for case in &HAND_MADE {
        let input = text(case.input);
        assert_eq!(second::check(&input[..cut(&input, Settled)]).0, case.rule, "only the rule stands between");
        let breach = breach_of(&input, Only(case.switch));
        println!("without {}: {breach:?}", case.rule);
        assert!(breach.is_some(), "rule {} is not needed for its case", case.rule);
    }
}

/// How far chance alone comes: packages that break just one rule, walked over as if it were off.
#[test]
fn chance_finds_breaches_too() {
    let mut found = Vec::new();
    for rule in [21, 23, 24, 25, 26, 27, 29, 30] {
        let breaches = (0..400).any(|number| {
            let random = &mut Random::new(5, number * 100 + rule as u64);
            let Some(package) = breaking(random, rule) else { return false };
            (0..3).any(|_| watched_walk(random, &package, None).1.is_some())
        });
        if breaches {
            found.push(rule);
        }
    }
    println!("chance finds a breach without {found:?}");
    assert!(found.len() >= 3, "chance finds few breaches: {found:?}");
}
