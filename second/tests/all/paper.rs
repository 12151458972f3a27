// What the papers say word for word: 01's worked run, its packages (a) to (k), and the settled readings' own examples.
use crate::text;
use second::gen::special::WORKED;
use second::program::run_output;
use second::readings::Settled;
use second::{check, run};

/// Document 01's package as lines; its variants are edits of it.
const A: &str = "010205 020102 020103 020204 020304 030000 03010100 03020101 03030101 03040100 \
                 050404010000FF00 050303000001FF0101 06000002 06000003 06000701 07";

fn answers(words: &str) -> (u8, u16, u16) {
    check(&text(words))
}

#[test]
fn worked_run_byte_for_byte() {
    let printed = run_output(WORKED, Settled);
    assert_eq!(printed, text("2E0000000004 30030001 30030103 30040001 30040002 30040103"));
    assert_eq!(WORKED[..WORKED.len() - text("1000 210002 210103 200001 280101010100 2F").len()], text(A));
}

#[test]
fn packages_a_to_k() {
    let c = A.replace("050303000001FF0101", "050303000001FF0102");
    let h = A
        .replace("010205", "010206")
        .replace("020304", "020304 020305")
        .replace("03040100", "03040100 03050103")
        .replace("050303000001FF0101", "050303000001FF0101 050503000001FF0101");
    let both = |old: &str, new: &str| {
        h.replace(&format!("050303{old}"), &format!("050303{new}")).replace(&format!("050503{old}"), &format!("050503{new}"))
    };
    assert_eq!(answers(A), (0, 0, 0), "(a)");
    assert_eq!(answers(&A.replace("06000701", "06000701 06010102")), (26, 3, 0), "(b)");
    assert_eq!(answers(&c), (0, 0, 0), "(c)");
    assert_eq!(answers(&c.replace("050404010000FF00", "050403010000FF00")), (30, 2, 0), "(d)");
    assert_eq!(answers(&c.replace("050404010000FF00", "050402010000FF00")), (29, 2, 0), "(e)");
    assert_eq!(answers(&A.replace("020304", "020304 020401")), (10, 1, 2), "(f)");
    assert_eq!(answers(&A.replace("03040100", "03040100 03040103")), (22, 2, 5), "(g)");
    assert_eq!(answers(&h), (0, 0, 0), "(h)");
    assert_eq!(answers(&h.replace("050503000001FF0101", "050505000001FF0101")), (23, 2, 1), "(i)");
    assert_eq!(answers(&both("000001FF0101", "000001020101")), (24, 2, 1), "(j)");
    assert_eq!(answers(&both("000001FF0101", "000001FF0102")), (25, 2, 1), "(k)");
}

#[test]
fn examples_of_the_settled_readings() {
    assert_eq!(answers("010321 07"), (3, 1, 0));
    assert_eq!(check(b"010201\n07"), (2, 2, 0));
    assert_eq!(answers("010201 030005 07"), (6, 2, 0));
    assert_eq!(answers("010201 030000 0300050000000000 07"), (7, 3, 0));
    assert_eq!(check(b""), (9, 1, 0));
    assert_eq!(answers("010204 020103 020203 030100 030200 0303020001 07"), (22, 0, 2));
    assert_eq!(answers("010202 020100 07"), (10, 0, 1));
}

/// A package with one class and a static method that may make it and call itself.
const PLAIN_PACKAGE: &str = "010201 030000 050000010000FF00 06000000 06000600 07";

fn run_answer(script: &str, buffer: &mut [u8]) -> (u8, u16, u16, usize) {
    run(&text(PLAIN_PACKAGE), &text(script), buffer)
}

#[test]
fn a_label_32_times_leaves_room_for_31() {
    let labels = "140000 ".repeat(32);
    let news = |count: usize| (1..=count).map(|r| format!("21{r:02X}00 ")).collect::<String>();
    let mut buffer = [0; 7200];
    assert_eq!(run_answer(&format!("1000 110000 {labels} {} 2F", news(31)), &mut buffer), (0, 0, 31, 32 * 9));
    assert_eq!(run_answer(&format!("1000 110000 {labels} {} 2F", news(32)), &mut buffer), (63, 66, 31, 32 * 9));
}

#[test]
fn the_seventeenth_nested_call_has_no_room() {
    let mut buffer = [0; 7200];
    assert_eq!(run_answer(&format!("1000 {} 2F", "270000 ".repeat(16)), &mut buffer), (0, 0, 16, 0));
    assert_eq!(run_answer(&format!("1000 {} 2F", "270000 ".repeat(17)), &mut buffer), (63, 18, 16, 0));
}

#[test]
fn short_buffers_and_bytes_behind() {
    for length in [0, 1, 7199] {
        let mut buffer = vec![0x5A; length];
        assert_eq!(run_answer("1000 210000 2F", &mut buffer), (65, 0, 0, 0));
        assert!(buffer.iter().all(|&byte| byte == 0x5A));
    }
    let mut buffer = vec![0x5A; 10_000];
    assert_eq!(run_answer("1000 210000 2F", &mut buffer), (0, 0, 1, 9));
    assert_eq!(&buffer[..9], b"30000000\n");
    assert!(buffer[9..].iter().all(|&byte| byte == 0x5A));
    let mut buffer = vec![0x5A; 7200];
    assert_eq!(run_answer("1000 210000", &mut buffer), (59, 3, 0, 0));
    assert!(buffer.iter().all(|&byte| byte == 0x5A));
}
