// Cases of all sorts: inputs of the programs `check` and `run`.
use super::breaking::{breaking, RULES};
use super::damage::{damaged_package, damaged_script, frame_noise, noise};
use super::frames::{package_frames, package_text, text_of};
use super::packages::{accepted, careless, reorder, Size};
use super::random::Random;
use super::walks::{any_start, playground, playground_of, Manner, Walker, MANNERS};
use crate::package::Package;
use crate::program::INPUT_LIMIT;
use crate::readings::Settled;
use crate::script::MAX_STEPS;
use crate::text::LIMIT;
use crate::trust::Trust;

#[derive(Clone, Copy, PartialEq, Eq, Debug)]
pub enum Program {
    Check,
    Run,
}

#[derive(Clone, PartialEq, Eq, Debug)]
pub struct Case {
    pub program: Program,
    pub input: Vec<u8>,
}

impl Case {
    fn check(input: Vec<u8>) -> Case {
        Case { program: Program::Check, input }
    }

    /// A package followed by a run text.
    fn run(package: Vec<u8>, script: &[u8]) -> Case {
        let mut input = package;
        input.extend_from_slice(script);
        Case { program: Program::Run, input }
    }
}

/// The case of a seed with a number.
pub fn case(seed: u64, number: u64) -> Case {
    let random = &mut Random::new(seed, number);
    match random.below(1000) {
        0..=79 => Case::check(package_text(&any_accepted(random))),
        80..=319 => broken_case(random),
        320..=389 => careless_case(random),
        390..=529 => damaged_check(random),
        530..=554 => noisy_check(random),
        555..=679 => walk_case(random),
        680..=839 => refused_case(random),
        840..=849 => refused_package_run(random),
        850..=974 => damaged_run(random),
        975..=981 => long_input(random),
        _ => noisy_run(random),
    }
}

/// A case without an aim: any bytes, any digits and line feeds, or frames with bytes changed.
pub fn noise_case(seed: u64, number: u64) -> Case {
    let random = &mut Random::new(seed, number);
    let longest = if random.chance(5) { 2000 } else { 120 };
    let length = random.below(longest);
    let from =
        |random: &mut Random, bytes: &[u8]| -> Vec<u8> { (0..length).map(|_| *random.pick(bytes).expect("not empty")).collect() };
    let input = match random.below(10) {
        0 => (0..length).map(|_| random.byte()).collect(),
        1 => from(random, b"0123456789ABCDEF\n"),
        2 => [&b"010202\n"[..], &from(random, b"00001234567F\n")].concat(),
        3 => [&b"010202\n030000\n050000010000FF00\n07\n1000\n"[..], &from(random, b"00012345F\n")].concat(),
        4..=6 => return noisy_check(random),
        _ => return noisy_run(random),
    };
    Case { program: if random.chance(60) { Program::Check } else { Program::Run }, input }
}

fn any_accepted(random: &mut Random) -> Package {
    let size = Size::any(random);
    accepted(random, size)
}

fn broken_case(random: &mut Random) -> Case {
    let rule = *random.pick(&RULES).expect("not empty");
    Case::check(package_text(&breaking(random, rule).unwrap_or_else(|| any_accepted(random))))
}

/// Several rules broken in several places.
fn careless_case(random: &mut Random) -> Case {
    let size = if random.chance(5) { Size::any(random) } else { Size::small(random) };
    let percent = *random.pick(&[3, 10, 30]).expect("not empty");
    let package = careless(random, size, percent);
    Case::check(package_text(&reorder(random, &package)))
}

/// A package that is easily damaged: every kind of frame occurs.
fn whole_package(random: &mut Random) -> Package {
    if random.chance(60) {
        playground(random)
    } else {
        any_accepted(random)
    }
}

fn damaged_check(random: &mut Random) -> Case {
    let number = *random.pick(&[1, 2, 2, 2, 3, 4, 5, 5, 6, 6, 7, 7, 7, 8, 8, 9]).expect("not empty");
    let package = whole_package(random);
    let frames = package_frames(&package);
    Case::check(damaged_package(random, &package, frames, number))
}

fn noisy_check(random: &mut Random) -> Case {
    let package = whole_package(random);
    let mut frames = package_frames(&package);
    match random.below(4) {
        0 => Case::check(noise(random, text_of(&frames))),
        1 => Case::check((0..random.below(60)).map(|_| random.byte()).collect()),
        _ => {
            frame_noise(random, &mut frames);
            Case::check(text_of(&frames))
        }
    }
}

/// A package to run over: mostly a playground, sometimes any with methods.
fn run_package(random: &mut Random) -> Package {
    if random.chance(2) {
        let size = Size { classes: 40, fields: 60, methods: 60, ..Size::any(random) };
        return playground_of(random, Size { effects: 0, ..size });
    }
    playground(random)
}

fn any_manner(random: &mut Random) -> Manner {
    *random.pick(&MANNERS).expect("not empty")
}

fn any_length(random: &mut Random) -> usize {
    match random.below(50) {
        0 => MAX_STEPS,
        1..=4 => random.below(300),
        _ => random.below(40),
    }
}

fn walk_case(random: &mut Random) -> Case {
    let package = run_package(random);
    let trust = Trust::of(&package, Settled);
    let (manner, length) = (any_manner(random), any_length(random));
    let mut walker = Walker::new(random, &package, &trust, manner);
    walker.walk(length);
    let script = text_of(&walker.start.frames(&walker.steps));
    Case::run(package_text(&package), &script)
}

/// A walk that ends with a refused step, of each kind and for each reason that the kind has.
fn refused_case(random: &mut Random) -> Case {
    let kind = 0x20 + random.below(11).min(9) as u8;
    let reasons: &[u8] = match kind {
        0x20 => &[62, 63],
        0x29 => &[62, 63, 64],
        _ => &[61, 62, 62, 63, 63],
    };
    let reason = *random.pick(reasons).expect("not empty");
    let mut last = Vec::new();
    for _ in 0..6 {
        let package = run_package(random);
        let trust = Trust::of(&package, Settled);
        let manner = manner_for(random, reason, kind);
        let length = if manner == Manner::Deep { 60 } else { any_length(random) };
        let mut walker = Walker::new(random, &package, &trust, manner);
        walker.walk(length);
        let refused = walker.end_refused(reason, kind);
        let mut frames = walker.start.frames(&walker.steps);
        if refused && walker.random.chance(30) {
            // What stands behind a refused step is never tried, but it is read.
            let behind = frames[frames.len() - 2].clone();
            frames.insert(frames.len() - 1, behind);
        }
        if refused && walker.random.chance(8) && frames.len() < 1000 {
            frames.insert(frames.len() - 1, vec![0x20, 0xFF, 0]);
        }
        last = package_text(&package);
        last.extend_from_slice(&text_of(&frames));
        if refused {
            break;
        }
    }
    Case { program: Program::Run, input: last }
}

fn manner_for(random: &mut Random, reason: u8, kind: u8) -> Manner {
    match (reason, kind) {
        (63, 0x24 | 0x26) => Manner::FullLinks,
        (63, 0x27 | 0x28) => Manner::Deep,
        (63, 0x29) => Manner::FullCaller,
        (63, _) => Manner::FullFrame,
        _ => any_manner(random),
    }
}

/// A run over a package that is not accepted.
fn refused_package_run(random: &mut Random) -> Case {
    let case = match random.below(3) {
        0 => broken_case(random),
        1 => damaged_check(random),
        _ => careless_case(random),
    };
    let script: &[u8] = *random.pick(&[&b"1000\n2F\n"[..], b"", b"10FF\n", b"07\n2F\n"]).expect("not empty");
    Case::run(case.input, script)
}

fn damaged_run(random: &mut Random) -> Case {
    let number = *random.pick(&[51, 52, 52, 53, 53, 55, 55, 56, 57, 57, 57, 58, 58, 59, 60, 60, 60]).expect("not empty");
    let package = run_package(random);
    let trust = Trust::of(&package, Settled);
    let manner = any_manner(random);
    let (start, steps) = if random.chance(30) {
        (any_start(random, &package, &trust, manner), Vec::new())
    } else {
        let length = random.below(20);
        let mut walker = Walker::new(random, &package, &trust, manner);
        walker.walk(length);
        (walker.start, walker.steps)
    };
    let script = damaged_script(random, &package, &trust, start.frames(&steps), number);
    Case::run(package_text(&package), &script)
}

/// Inputs as long as a program looks at, and one byte more; packages without their end that are longer than a text may be.
fn long_input(random: &mut Random) -> Case {
    let mut input = package_text(&playground(random));
    if random.chance(25) {
        input.truncate(input.len() - 3);
        input.extend_from_slice(*random.pick(&[&b"0707\n"[..], b"070\n", b"07\r\n", b""]).expect("not empty"));
        input.resize(LIMIT + random.between(0, 900), b'\n');
        return Case { program: Program::Run, input };
    }
    if random.chance(50) {
        input.extend_from_slice(b"1000\n2F\n");
    }
    let length = INPUT_LIMIT + *random.pick(&[0, 1, 1, 2, 500]).expect("not empty");
    input.resize(length, *random.pick(b"0\n").expect("not empty"));
    let program = if random.chance(70) { Program::Run } else { Program::Check };
    Case { program, input }
}

fn noisy_run(random: &mut Random) -> Case {
    let package = run_package(random);
    let trust = Trust::of(&package, Settled);
    let manner = any_manner(random);
    let length = random.below(25);
    let mut walker = Walker::new(random, &package, &trust, manner);
    walker.walk(length);
    let mut frames = walker.start.frames(&walker.steps);
    match random.below(6) {
        0 => Case::run(package_text(&package), &noise(random, text_of(&frames))),
        1 => {
            // The end line of the package is missing, or hidden in another.
            let mut own = package_frames(&package);
            own.pop();
            if random.chance(50) {
                own.push(vec![0x07, 0x07]);
            }
            Case::run(text_of(&own), &text_of(&frames))
        }
        _ => {
            frame_noise(random, &mut frames);
            Case::run(package_text(&package), &text_of(&frames))
        }
    }
}

/// A case as a line of a batch.
pub fn batch_line(case: &Case) -> Vec<u8> {
    let mut line = vec![if case.program == Program::Check { b'C' } else { b'R' }, b' '];
    crate::text::write_line(&case.input, &mut line);
    line
}

/// What the programs print for a case.
pub fn output<R: crate::readings::Readings>(case: &Case, readings: R) -> Vec<u8> {
    match case.program {
        Program::Check => crate::program::check_output(&case.input, readings),
        Program::Run => crate::program::run_output(&case.input, readings),
    }
}
