// The second program: checks packages and runs scripts as documents 01 and 003 say, independently of the product.
pub mod answer;
pub mod compare;
pub mod confinement;
pub mod fuzzed;
pub mod gen;
pub mod holdings;
pub mod library;
pub mod list;
pub mod machine;
pub mod package;
pub mod plain;
pub mod product;
pub mod program;
pub mod readings;
pub mod restart;
pub mod rules;
pub mod script;
pub mod shrink;
pub mod text;
pub mod time;
pub mod trust;

use answer::{Answer, ACCEPTED};
use machine::Machine;
use package::Package;
use plain::Plain;
use readings::{Readings, Settled, Wrong};
use script::Script;
use trust::Trust;

/// Checks a package text: its number and two places.
pub fn check(text: &[u8]) -> (u8, u16, u16) {
    let answer = check_with(text, Settled);
    (answer.number, answer.first, answer.second)
}

/// Runs a run text over a package text: number, two places, and how many bytes of holdings were written into the buffer.
pub fn run(package: &[u8], script: &[u8], buffer: &mut [u8]) -> (u8, u16, u16, usize) {
    let (answer, length) = run_with(package, script, buffer, Settled);
    (answer.number, answer.first, answer.second, length)
}

/// `check` with a wrong reading on.
pub fn check_with<R: Readings>(text: &[u8], readings: R) -> Answer {
    let mut package = Package::new();
    judge(text, &mut package, readings).map_or_else(|answer| answer, |_| ACCEPTED)
}

/// Reads a package and judges it: its trust if it is accepted, and its answer if not.
pub fn judge<R: Readings>(text: &[u8], package: &mut Package, readings: R) -> Result<Trust, Answer> {
    let answer = package.read(text, readings);
    if !answer.is_accepted() {
        return Err(answer);
    }
    let trust = Trust::of(package, readings);
    let answer =
        if readings.settled() { rules::answer(package, &trust) } else { Plain { package, trust: &trust, readings }.answer() };
    if answer.is_accepted() {
        Ok(trust)
    } else {
        Err(answer)
    }
}

/// `run` with a wrong reading on.
pub fn run_with<R: Readings>(text: &[u8], run_text: &[u8], buffer: &mut [u8], readings: R) -> (Answer, usize) {
    if buffer.len() < holdings::ROOM {
        return (Answer::new(65, 0, 0), 0);
    }
    let mut package = Package::new();
    let trust = match judge(text, &mut package, readings) {
        Ok(trust) => trust,
        Err(answer) => return (answer, 0),
    };
    let mut script = Script::new();
    let read = script.read(run_text, &package, &trust, readings);
    if !read.is_accepted() && !readings.wrong(Wrong::StepsWhileRead) {
        return (read, 0);
    }
    let mut machine = Machine::start(&package, &trust, &script, readings);
    let answer = walk(&mut machine, &script, text, readings);
    if !read.is_accepted() && answer.is_accepted() || answer.number != 0 && readings.wrong(Wrong::HoldingsOfSuccess) {
        return (if read.is_accepted() { answer } else { read }, 0);
    }
    let length = holdings::write(&machine, &package, &trust, readings, buffer);
    (answer, length)
}

/// Takes the steps in order until one is refused; the answer has the number of steps taken.
fn walk<R: Readings>(machine: &mut Machine<R>, script: &Script, package_text: &[u8], readings: R) -> Answer {
    for (taken, step) in script.steps.iter().enumerate() {
        if let Err(number) = machine.step(step) {
            let before =
                if readings.wrong(Wrong::LinesGoOn) { package_text.iter().filter(|&&byte| byte == b'\n').count() } else { 0 };
            let counted = taken + readings.wrong(Wrong::RefusedCounted) as usize;
            return Answer::new(number, before + script.steps_at + taken, counted);
        }
    }
    Answer::new(0, 0, script.steps.len())
}
