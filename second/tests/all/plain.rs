// The fast rules answer what the plain ones answer, on packages of all sorts.
use second::gen::cases::{case, Program};
use second::package::Package;
use second::plain::Plain;
use second::program::cut;
use second::readings::Settled;
use second::rules;
use second::trust::Trust;

#[test]
fn fast_rules_are_the_plain_rules() {
    let mut compared = 0;
    for number in 0..30_000 {
        let case = case(7, number);
        let end = if case.program == Program::Check { case.input.len() } else { cut(&case.input, Settled) };
        let mut package = Package::new();
        if !package.read(&case.input[..end], Settled).is_accepted() {
            continue;
        }
        let trust = Trust::of(&package, Settled);
        let plain = Plain { package: &package, trust: &trust, readings: Settled }.answer();
        assert_eq!(rules::answer(&package, &trust), plain, "case {number} of seed 7");
        compared += 1;
    }
    assert!(compared > 15_000, "only {compared} packages could be compared");
}
