// The comparer finds a difference and makes it small; through a library it finds what only a library can do wrong.
use second::compare::{generated, Subject};
use second::gen::cases::Program;
use second::product::{pack, unpack, Library};
use second::readings::Wrong;

#[test]
fn a_difference_is_found_and_made_small() {
    for (wrong, most) in
        [(Wrong::PairStrongerFirst, 60), (Wrong::GrantToCaller, 120), (Wrong::RunsCalled, 200), (Wrong::SmallLetters, 40)]
    {
        let subject = Subject::Reading(wrong);
        let Err(found) = subject.first_difference(generated(1, false, None).take(5_000)) else {
            panic!("{wrong:?} shows no difference")
        };
        let small = subject.smallest(&found.case);
        assert_ne!(small.settled, small.product);
        assert!(small.case.input.len() <= most, "{wrong:?} is shown by {} bytes", small.case.input.len());
    }
}

#[test]
fn packed_answers() {
    assert_eq!(unpack(63 | 0x1234 << 16 | 1024 << 32 | 7200 << 48), (63, 0x1234, 1024, 7200));
    assert_eq!(unpack(pack(30, 0x03FF, 5, 0)), (30, 0x03FF, 5, 0));
}

fn check(text: &[u8]) -> u64 {
    let (number, first, second) = second::check(text);
    pack(number, first, second, 0)
}

fn run(package: &[u8], script: &[u8], out: &mut [u8]) -> u64 {
    let (number, first, second, length) = second::run(package, script, out);
    pack(number, first, second, length)
}

fn finds_a_difference(library: Library) -> bool {
    Subject::Library(library).first_difference(generated(3, false, None).take(300)).is_err()
}

#[test]
fn a_right_library_shows_no_difference() {
    assert!(!finds_a_difference(Library { check, run: Some(run) }));
    let compared = Subject::Library(Library { check, run: None }).first_difference(generated(3, false, None).take(300));
    let checks = generated(3, false, None).take(300).filter(|case| case.program == Program::Check).count();
    assert_eq!(compared.ok(), Some(checks as u64));
}

#[test]
fn wrong_libraries_are_found() {
    let wrong_checks: [fn(&[u8]) -> u64; 2] = [|text| check(text) | 1 << 12, |text| check(text) | 1 << 60];
    for check in wrong_checks {
        assert!(finds_a_difference(Library { check, run: None }));
    }
    let wrong_runs: [(&str, fn(&[u8], &[u8], &mut [u8]) -> u64); 6] = [
        ("the buffer's length in 16 bits", |package, script, out| {
            let length = out.len() % 65_536;
            run(package, script, &mut out[..length])
        }),
        ("the run text looked at first", |package, script, out| {
            let refused = out.len() >= 7_200 && script.len() > 32_768;
            if refused {
                51
            } else {
                run(package, script, out)
            }
        }),
        ("65 after the package's answer", |package, script, out| match check(package) {
            0 => run(package, script, out),
            answer => answer,
        }),
        ("a refused call clears its buffer", |package, script, out| {
            let answer = run(package, script, out);
            if answer >> 48 == 0 {
                out.fill(0);
            }
            answer
        }),
        ("a closing zero behind the holdings", |package, script, out| {
            let answer = run(package, script, out);
            if let Some(behind) = out.get_mut((answer >> 48) as usize).filter(|_| answer >> 48 > 0) {
                *behind = 0;
            }
            answer
        }),
        ("bits between the number and its place", |package, script, out| run(package, script, out) | 1 << 8),
    ];
    for (name, run) in wrong_runs {
        assert!(finds_a_difference(Library { check, run: Some(run) }), "{name} is not found");
    }
}
