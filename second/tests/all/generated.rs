// The generator: the same cases for the same seed, and every answer number but 65 often enough.
use second::fuzzed::{decoded, encoded};
use second::gen::cases::{case, output};
use second::gen::special::{cases, special};
use second::readings::Settled;

#[test]
fn every_answer_occurs_fifty_times() {
    let mut counts = [0; 256];
    for number in 0..20_000 {
        let printed = output(&case(1, number), Settled);
        counts[u8::from_str_radix(std::str::from_utf8(&printed[2..4]).expect("digits"), 16).expect("digits") as usize] += 1;
    }
    let numbers = (0..=12).chain(21..=30).chain(51..=64).filter(|&number| number != 54);
    let rare: Vec<(usize, i32)> = numbers.map(|number| (number, counts[number])).filter(|entry| entry.1 < 50).collect();
    assert!(rare.is_empty(), "too rare: {rare:?}");
}

#[test]
fn the_same_seed_gives_the_same_cases() {
    for number in 0..300 {
        assert_eq!(case(9, number), case(9, number));
    }
    assert!((0..300).any(|number| case(9, number) != case(10, number)));
}

#[test]
fn fuzzed_bytes_are_decoded_as_the_case_they_came_from() {
    for case in (0..2_000).map(|number| case(4, number)).chain(cases()) {
        assert_eq!(decoded(&encoded(&case)), case);
    }
    assert_eq!(decoded(b"").input, b"");
    assert_eq!(decoded(b"\x03\x02\x10\x00\xFF\x2F").input, b"1000\n2F\n");
}

#[test]
fn the_largest_is_as_large_as_can_be() {
    let largest = special("largest").expect("a fixed case");
    assert_eq!(largest.len(), 21_747);
    assert_eq!(second::check(&largest), (0, 0, 0));
    let printed: Vec<Vec<u8>> = cases().iter().map(|case| output(case, Settled)).collect();
    assert!(printed.iter().any(|output| output.len() == 13 + 7200), "some state holds 800 things");
    let grown = second::check(&special("largest-breaks-30").expect("a fixed case"));
    assert_eq!((grown.0, grown.1), (30, 1023));
}
