// A run that begins where another one stands after some steps: long walks become short ones with the same end.
use crate::gen::frames::{label_frame, link_frame, step_frame};
use crate::judge;
use crate::machine::Machine;
use crate::package::Package;
use crate::program::cut;
use crate::readings::Settled;
use crate::script::{Script, ABSENT, NO_OWNER};
use crate::text::write_line;

/// How many steps an input of `run` has, if all of it is read.
pub fn steps_of(input: &[u8]) -> usize {
    read(input, |_, script| script.steps.len()).unwrap_or(0)
}

/// The same package with a start that is the state after some steps, without its saved frames, and with the steps behind them.
pub fn restarted(input: &[u8], taken: usize) -> Option<Vec<u8>> {
    read(input, |machine, script| {
        for step in &script.steps[..taken] {
            machine.step(step).ok()?;
        }
        let mut text = input[..cut(input, Settled)].to_vec();
        write_state(machine, &mut text);
        script.steps[taken..].iter().for_each(|step| write_line(&step_frame(step), &mut text));
        write_line(&[0x2F], &mut text);
        Some(text)
    })?
}

fn read<T>(input: &[u8], then: impl FnOnce(&mut Machine<Settled>, &Script) -> T) -> Option<T> {
    let (package_text, run_text) = input.split_at(cut(input, Settled));
    let mut package = Package::new();
    let trust = judge(package_text, &mut package, Settled).ok()?;
    let mut script = Script::new();
    if !script.read(run_text, &package, &trust, Settled).is_accepted() {
        return None;
    }
    let mut machine = Machine::start(&package, &trust, &script, Settled);
    Some(then(&mut machine, &script))
}

/// The running frame and the heap as start lines.
fn write_state(machine: &Machine<Settled>, text: &mut Vec<u8>) {
    write_line(&[0x10, machine.running().method], text);
    for reference in (0..=254u8).filter(|&r| machine.pool[r as usize] != ABSENT) {
        write_line(&[0x11, reference, machine.pool[reference as usize]], text);
    }
    let (ownerless, owned): (Vec<_>, Vec<_>) = machine.links.iter().partition(|link| link.owner == NO_OWNER);
    ownerless.iter().chain(&owned).for_each(|link| write_line(&link_frame(link), text));
    machine.running().labels.iter().for_each(|label| write_line(&label_frame(label), text));
}
