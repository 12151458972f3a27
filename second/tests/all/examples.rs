// The files of examples/: each prints what its .expected file says, and every answer number but 65 occurs. docs/NUMBERS.md names one for each.
use second::compare::examples;
use second::gen::cases::output;
use second::readings::Settled;
use std::collections::BTreeSet;
use std::path::Path;

const NUMBERS: [u8; 36] = [
    0, 1, 2, 3, 4, 5, 6, 7, 8, 9, 10, 11, 12, 21, 22, 23, 24, 25, 26, 27, 28, 29, 30, 51, 52, 53, 55, 56, 57, 58, 59, 60, 61, 62,
    63, 64,
];

#[test]
fn examples_print_what_they_say() {
    let folder = Path::new(env!("CARGO_MANIFEST_DIR")).join("../examples");
    let readme = std::fs::read_to_string(folder.join("README.md")).expect("examples/README.md");
    let mut numbers = BTreeSet::new();
    for (path, case) in examples(&folder).expect("examples/") {
        let printed = output(&case, Settled);
        let expected = std::fs::read(Path::new(&path).with_extension("expected")).expect("the expected output");
        assert_eq!(printed, expected, "{path}");
        let name = Path::new(&path).file_name().and_then(|name| name.to_str()).expect("a name");
        assert!(readme.contains(&format!("| {name} |")), "{name} has no line in examples/README.md");
        numbers.insert(u8::from_str_radix(std::str::from_utf8(&printed[2..4]).expect("digits"), 16).expect("digits"));
    }
    assert_eq!(numbers, BTreeSet::from(NUMBERS));
}

/// A row of docs/NUMBERS.md begins with a number and the digits that are printed for it, and ends with its examples.
#[test]
fn every_number_is_explained_with_an_example_that_gives_it() {
    let root = Path::new(env!("CARGO_MANIFEST_DIR")).join("..");
    let paper = std::fs::read_to_string(root.join("docs/NUMBERS.md")).expect("docs/NUMBERS.md");
    for number in NUMBERS {
        let row = paper.lines().find(|line| line.starts_with(&format!("| {number} | {number:02X} |")));
        let row = row.unwrap_or_else(|| panic!("{number} has no row in docs/NUMBERS.md"));
        let named = row.trim_end_matches(" |").rsplit(" | ").next().expect("the last column");
        for name in named.split(", ") {
            let expected = root.join("examples").join(name).with_extension("expected");
            let printed = std::fs::read_to_string(&expected).unwrap_or_else(|error| panic!("{number}, {name}: {error}"));
            assert!(printed.starts_with(&format!("2E{number:02X}")), "{name} does not give {number}");
        }
    }
}

#[test]
fn every_number_has_a_name_in_the_header() {
    let header = Path::new(env!("CARGO_MANIFEST_DIR")).join("../include/dcc.h");
    let header = std::fs::read_to_string(header).expect("include/dcc.h");
    let numbers = header.split("/* The numbers.").nth(1).expect("the part with the numbers");
    let named = |line: &str| -> Option<u8> {
        line.trim().strip_prefix("DCC_")?.split(" = ").nth(1)?.split([',', ' ']).next()?.parse().ok()
    };
    let named: Vec<u8> = numbers.lines().filter_map(named).collect();
    assert_eq!(named, [&NUMBERS[..], &[65]].concat());
}
