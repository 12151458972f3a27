// Makes an input smaller for as long as it still shows what it showed.
use crate::gen::cases::{Case, Program};
use crate::package::{CHECKCAST, INVOKEMETHOD, INVOKESTATIC, NEW};
use crate::restart::{restarted, steps_of};
use crate::text::write_line;
use std::time::{Duration, Instant};

/// A search for a smaller case, until its time is over.
pub struct Shrinker<'a> {
    case: Case,
    shows: &'a mut dyn FnMut(&Case) -> bool,
    until: Instant,
}

/// The smallest case found within the time that still shows the same.
pub fn shrink(case: &Case, time: Duration, shows: &mut dyn FnMut(&Case) -> bool) -> Case {
    let mut shrinker = Shrinker { case: case.clone(), shows, until: Instant::now() + time };
    loop {
        let before = shrinker.case.input.clone();
        shrinker.begin_later();
        shrinker.remove_things();
        shrinker.remove_lines();
        shrinker.lower_bytes();
        shrinker.remove_bytes();
        if shrinker.case.input == before || shrinker.is_over() {
            return shrinker.case;
        }
    }
}

impl Shrinker<'_> {
    fn is_over(&self) -> bool {
        Instant::now() >= self.until
    }

    /// Takes the input if it shows the same.
    fn take(&mut self, input: Vec<u8>) -> bool {
        if self.is_over() || input == self.case.input {
            return false;
        }
        let smaller = Case { program: self.case.program, input };
        let shows = (self.shows)(&smaller);
        if shows {
            self.case = smaller;
        }
        shows
    }

    /// Lets a run begin as late as possible.
    fn begin_later(&mut self) {
        if self.case.program != Program::Run {
            return;
        }
        for taken in (1..=steps_of(&self.case.input)).rev() {
            if restarted(&self.case.input, taken).is_some_and(|input| self.take(input)) || self.is_over() {
                return;
            }
        }
    }

    fn lines(&self) -> Vec<Vec<u8>> {
        self.case.input.split_inclusive(|&byte| byte == b'\n').map(<[u8]>::to_vec).collect()
    }

    /// Removes runs of lines, long ones first.
    fn remove_lines(&mut self) {
        let mut length = self.lines().len().div_ceil(2);
        while length > 0 {
            let mut at = 0;
            while at < self.lines().len() && !self.is_over() {
                let mut lines = self.lines();
                lines.drain(at..(at + length).min(lines.len()));
                if !self.take(lines.concat()) {
                    at += length;
                }
            }
            length /= 2;
        }
    }

    /// Removes whole domains, classes, fields and methods, and renames those behind them.
    fn remove_things(&mut self) {
        for thing in [Thing::Method, Thing::Field, Thing::Class, Thing::Domain] {
            let mut number = 255;
            while number > 0 && !self.is_over() {
                number -= 1;
                let Some(frames) = frames_of(&self.case.input) else { return };
                if thing.count(&frames) > number {
                    self.take(text_without(&frames, thing, number as u8));
                }
            }
        }
    }

    /// Makes bytes 00, and counted lists shorter.
    fn lower_bytes(&mut self) {
        let Some(mut frames) = frames_of(&self.case.input) else { return };
        for line in 0..frames.len() {
            if self.is_over() {
                return;
            }
            for at in 1..frames[line].len() {
                let kept = frames[line].clone();
                if at >= kept.len() {
                    break;
                }
                let shorter = without_item(&kept, at);
                let lowered = if kept[at] == 0 { None } else { Some(with_byte(&kept, at, 0)) };
                for smaller in [shorter, lowered].into_iter().flatten() {
                    frames[line] = smaller;
                    if self.take(text_of(&frames)) {
                        break;
                    }
                    frames[line] = kept.clone();
                }
            }
        }
    }

    /// Removes single bytes of short inputs.
    fn remove_bytes(&mut self) {
        let mut at = 0;
        while self.case.input.len() <= 400 && at < self.case.input.len() && !self.is_over() {
            let mut input = self.case.input.clone();
            input.remove(at);
            if !self.take(input) {
                at += 1;
            }
        }
    }
}

fn with_byte(frame: &[u8], at: usize, byte: u8) -> Vec<u8> {
    let mut frame = frame.to_vec();
    frame[at] = byte;
    frame
}

/// Where a frame's k stands.
fn count_place(kind: u8) -> Option<usize> {
    match kind {
        0x03 | 0x27 => Some(2),
        0x05 => Some(7),
        0x28 => Some(4),
        _ => None,
    }
}

/// A frame without one of its counted items.
fn without_item(frame: &[u8], at: usize) -> Option<Vec<u8>> {
    let count = count_place(frame[0])?;
    if at <= count || frame[count] == 0 {
        return None;
    }
    let mut frame = frame.to_vec();
    frame.remove(at);
    frame[count] -= 1;
    Some(frame)
}

/// The frames of an input all of whose lines keep the digit rule.
fn frames_of(input: &[u8]) -> Option<Vec<Vec<u8>>> {
    input.split_inclusive(|&byte| byte == b'\n').map(frame_of).collect()
}

/// The bytes of a line of digits.
pub fn frame_of(line: &[u8]) -> Option<Vec<u8>> {
    let digits = line.strip_suffix(b"\n")?;
    if digits.is_empty() || digits.len() % 2 != 0 {
        return None;
    }
    digits.chunks(2).map(|pair| u8::from_str_radix(std::str::from_utf8(pair).ok()?, 16).ok()).collect()
}

fn text_of(frames: &[Vec<u8>]) -> Vec<u8> {
    let mut text = Vec::new();
    frames.iter().for_each(|frame| write_line(frame, &mut text));
    text
}

#[derive(Clone, Copy, PartialEq, Eq)]
enum Thing {
    Domain,
    Class,
    Field,
    Method,
}

impl Thing {
    fn count(self, frames: &[Vec<u8>]) -> usize {
        let kind = match self {
            Thing::Domain => return frames.first().and_then(|header| header.get(2)).map_or(0, |&count| count as usize),
            Thing::Class => 0x03,
            Thing::Field => 0x04,
            Thing::Method => 0x05,
        };
        frames.iter().filter(|frame| frame[0] == kind).count()
    }

    /// The places of a frame that name things of this sort.
    fn places(self, frame: &[u8]) -> Vec<usize> {
        let behind = |first: usize| (first..frame.len()).collect::<Vec<usize>>();
        let op = frame.get(2).copied().unwrap_or(0);
        let places = match (self, frame[0]) {
            (Thing::Domain, 0x02) => vec![1, 2],
            (Thing::Domain, 0x03) => vec![1],
            (Thing::Domain, 0x05) => vec![2],
            (Thing::Class, 0x03) => behind(3),
            (Thing::Class, 0x04 | 0x12) => vec![1, 2],
            (Thing::Class, 0x05) => [vec![1, 6], behind(8)].concat(),
            (Thing::Class, 0x06) if op == NEW || op == CHECKCAST => vec![3],
            (Thing::Class, 0x11 | 0x14 | 0x20..=0x22) => vec![2],
            (Thing::Class, 0x13) => vec![2, 3],
            (Thing::Field, 0x06) if (2..=5).contains(&op) => vec![3],
            (Thing::Field, 0x23..=0x26) => vec![1],
            (Thing::Method, 0x06) if op == INVOKESTATIC || op == INVOKEMETHOD => vec![1, 3],
            (Thing::Method, 0x06 | 0x10 | 0x27) => vec![1],
            (Thing::Method, 0x28) => vec![1, 2],
            _ => vec![],
        };
        places.into_iter().filter(|&at| at < frame.len()).collect()
    }
}

/// The text without one thing: its own line goes, and effects that name it; other places that name it say 00.
fn text_without(frames: &[Vec<u8>], thing: Thing, number: u8) -> Vec<u8> {
    let mut kept = Vec::new();
    let mut seen = 0;
    for frame in frames {
        let own_kind = matches!((thing, frame[0]), (Thing::Class, 3) | (Thing::Field, 4) | (Thing::Method, 5));
        seen += own_kind as usize;
        let named = thing.places(frame).iter().any(|&at| frame[at] == number);
        let goes = own_kind && seen == number as usize + 1 || named && frame[0] == 0x06;
        if !goes {
            kept.push(renamed(frame, thing, number));
        }
    }
    if thing == Thing::Domain && kept[0].len() > 2 {
        kept[0][2] = kept[0][2].wrapping_sub(1);
    }
    text_of(&kept)
}

fn renamed(frame: &[u8], thing: Thing, number: u8) -> Vec<u8> {
    let mut frame = frame.to_vec();
    for at in thing.places(&frame) {
        if frame[at] == number {
            frame[at] = 0;
        } else if frame[at] > number && frame[at] != 0xFF {
            frame[at] -= 1;
        }
    }
    frame
}
