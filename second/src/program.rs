// What the programs `check` and `run` print for an input.
use crate::answer::Answer;
use crate::holdings::ROOM;
use crate::readings::{Readings, Wrong};
use crate::text::digits_of;
use crate::{check_with, run_with};

/// The longest input that is looked at.
pub const INPUT_LIMIT: usize = 65_536;

/// What `check` prints for this input.
pub fn check_output<R: Readings>(input: &[u8], readings: R) -> Vec<u8> {
    if is_too_long(input, readings) {
        return answer_line(Answer::new(1, 0, 0), readings);
    }
    answer_line(check_with(input, readings), readings)
}

/// What `run` prints for this input.
pub fn run_output<R: Readings>(input: &[u8], readings: R) -> Vec<u8> {
    if is_too_long(input, readings) {
        let number = if readings.wrong(Wrong::LongInput) { 51 } else { 1 };
        return answer_line(Answer::new(number, 0, 0), readings);
    }
    let (package, script) = input.split_at(cut(input, readings));
    let mut buffer = [0; ROOM];
    let (answer, length) = run_with(package, script, &mut buffer, readings);
    let mut output = answer_line(answer, readings);
    output.extend_from_slice(&buffer[..length]);
    output
}

fn is_too_long<R: Readings>(input: &[u8], readings: R) -> bool {
    input.len() > INPUT_LIMIT || readings.wrong(Wrong::InputLimit) && input.len() == INPUT_LIMIT
}

/// Where the run text begins: behind the first line that is just 07, or at the end.
pub fn cut<R: Readings>(input: &[u8], readings: R) -> usize {
    let mut begin = 0;
    for line in input.split_inclusive(|&byte| byte == b'\n') {
        begin += line.len();
        let ends_package = line == b"07\n"
            || readings.wrong(Wrong::CutAnywhere) && line.ends_with(b"07\n")
            || readings.wrong(Wrong::CutByKind) && line.starts_with(b"07");
        if ends_package {
            return begin;
        }
    }
    input.len()
}

/// `2E aa pppp qqqq` as a line.
pub fn answer_line<R: Readings>(answer: Answer, readings: R) -> Vec<u8> {
    let [a, b] = answer.first.to_be_bytes();
    let [c, d] = answer.second.to_be_bytes();
    let mut line = Vec::with_capacity(16);
    for byte in [0x2E, answer.number, a, b, c, d] {
        line.extend_from_slice(&digits_of(byte));
    }
    line.push(b'\n');
    if readings.wrong(Wrong::SmallOutput) {
        line.make_ascii_lowercase();
    }
    line
}
