// The bytes of a fuzzer as a case, and a case as such bytes. The first byte says which program, and whether the rest is its input as it
// stands or frames, each behind a byte with its length: chance that changes a byte of a frame leaves a text that can be read.
use crate::gen::cases::{Case, Program};
use crate::shrink::frame_of;
use crate::text::write_line;

const RUN: u8 = 1;
const FRAMES: u8 = 2;

/// Any bytes are a case.
pub fn decoded(bytes: &[u8]) -> Case {
    let (&first, rest) = bytes.split_first().unwrap_or((&0, &[]));
    let program = if first & RUN == 0 { Program::Check } else { Program::Run };
    let input = if first & FRAMES == 0 { rest.to_vec() } else { lines(rest) };
    Case { program, input }
}

/// Frames as lines; a length beyond the end means what is left.
fn lines(mut rest: &[u8]) -> Vec<u8> {
    let mut text = Vec::new();
    while let Some((&length, behind)) = rest.split_first() {
        let (frame, left) = behind.split_at((length as usize).min(behind.len()));
        write_line(frame, &mut text);
        rest = left;
    }
    text
}

/// The bytes that are decoded as this case: frames if all its lines are, and otherwise its input as it stands.
pub fn encoded(case: &Case) -> Vec<u8> {
    let program = if case.program == Program::Check { 0 } else { RUN };
    let frames: Option<Vec<Vec<u8>>> = case.input.split_inclusive(|&byte| byte == b'\n').map(short_frame).collect();
    match frames {
        Some(frames) => [vec![program | FRAMES], frames.into_iter().flat_map(with_length).collect()].concat(),
        None => [&[program], &case.input[..]].concat(),
    }
}

/// The frame of a line that is written back as that line, if its length is one byte.
fn short_frame(line: &[u8]) -> Option<Vec<u8>> {
    let frame = frame_of(line).filter(|frame| frame.len() < 256)?;
    let mut back = Vec::new();
    write_line(&frame, &mut back);
    (back == line).then_some(frame)
}

fn with_length(frame: Vec<u8>) -> Vec<u8> {
    [vec![frame.len() as u8], frame].concat()
}
