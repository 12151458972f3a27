// Texts damaged in the ways that the answers 1 to 9 and 51 to 60 name.
use super::frames::{text_of, Frames};
use super::random::Random;
use crate::package::*;
use crate::script::{MAX_LABELS, MAX_LINKS, MAX_STEPS};
use crate::text::LIMIT;
use crate::trust::Trust;

/// A text from frames that are damaged so that a number from 1 to 9 is likely.
pub fn damaged_package(random: &mut Random, package: &Package, mut frames: Frames, number: u8) -> Vec<u8> {
    match number {
        1 => return lengthen(random, text_of(&frames)),
        2 => return break_digits(random, text_of(&frames)),
        3 => break_header(random, &mut frames),
        4 => frames[0][1] = other_than(random, 2),
        5 => break_order(random, &mut frames, 0x01, 0x07),
        6 => break_length(random, &mut frames),
        7 => break_package_number(random, package, &mut frames),
        8 => overfill_package(random, &mut frames),
        _ => cut_short(random, &mut frames),
    }
    text_of(&frames)
}

/// The same for a run text and a number from 51 to 60.
pub fn damaged_script(random: &mut Random, package: &Package, trust: &Trust, mut frames: Frames, number: u8) -> Vec<u8> {
    match number {
        51 => return lengthen(random, text_of(&frames)),
        52 => return break_digits(random, text_of(&frames)),
        53 => break_entry(random, package, &mut frames),
        55 => break_order(random, &mut frames, 0x10, 0x2F),
        56 => break_length(random, &mut frames),
        57 => break_script_number(random, package, &mut frames),
        58 => overfill_script(random, &mut frames),
        60 => break_start_type(random, package, trust, &mut frames),
        _ => cut_short(random, &mut frames),
    }
    text_of(&frames)
}

fn other_than(random: &mut Random, value: u8) -> u8 {
    loop {
        let byte = *random.pick(&[0, 1, 3, 0x12, 0x20, 0xFF, value ^ 1, value.wrapping_add(1)]).expect("not empty");
        if byte != value {
            return byte;
        }
    }
}

/// Makes a text one byte too long, just as long as it may be, or much too long.
fn lengthen(random: &mut Random, mut text: Vec<u8>) -> Vec<u8> {
    let length = match random.below(10) {
        0..=3 => LIMIT + 1,
        4 | 5 => LIMIT,
        6 => LIMIT + 3,
        _ => LIMIT + random.between(1, 900),
    };
    match random.below(4) {
        // Short lines behind the end.
        0 => {
            while text.len() + 3 <= length {
                text.extend_from_slice(b"07\n");
            }
            text.resize(length, b'\n');
        }
        // One long line behind the end, with or without its LF.
        1 => {
            text.resize(length - 1, b'0');
            text.push(b'\n');
        }
        2 => text.resize(length, b'A'),
        // A long line before everything.
        _ => {
            let mut long = vec![b'0'; length.saturating_sub(text.len() + 1)];
            long.push(b'\n');
            long.append(&mut text);
            text = long;
        }
    }
    text
}

/// Breaks the digit rule in one line, or takes the last LF.
fn break_digits(random: &mut Random, mut text: Vec<u8>) -> Vec<u8> {
    let place = random.below(text.len());
    match random.below(12) {
        0 => text[place] = *random.pick(b"abcdef").expect("not empty"),
        1 => text[place] = *random.pick(b"G/:@`g \r\t\0-\x80\xFF").expect("not empty"),
        2 => {
            text.remove(place);
        }
        3 => text.insert(place, b'0'),
        4 => insert_line(random, &mut text, b"\n"),
        5 => insert_line(random, &mut text, b"\r\n"),
        6 => {
            let end = (place..text.len()).find(|&at| text[at] == b'\n').unwrap_or(text.len());
            text.insert(end, b'\r');
        }
        7 => {
            text.pop();
        }
        8 => {
            text.pop();
            text.extend_from_slice(*random.pick(&[&b"\r\n"[..], b" \n", b"0", b"\n07", b"\n0"]).expect("not empty"));
        }
        9 => text.extend_from_slice(*random.pick(&[&b"\n"[..], b"7\n", b"0x\n", b"07", b"0g\n"]).expect("not empty")),
        10 => lower_line(random, &mut text),
        _ => insert_line(random, &mut text, b"0\n"),
    }
    text
}

fn insert_line(random: &mut Random, text: &mut Vec<u8>, line: &[u8]) {
    let starts: Vec<usize> = std::iter::once(0).chain((0..text.len()).filter(|&at| text[at] == b'\n').map(|at| at + 1)).collect();
    let at = *random.pick(&starts).expect("not empty");
    text.splice(at..at, line.iter().copied());
}

fn lower_line(random: &mut Random, text: &mut [u8]) {
    let letters: Vec<usize> = (0..text.len()).filter(|&at| text[at].is_ascii_uppercase()).collect();
    if let Some(&at) = random.pick(&letters) {
        text[at] = text[at].to_ascii_lowercase();
    }
}

fn break_header(random: &mut Random, frames: &mut Frames) {
    match random.below(9) {
        0 => frames[0][2] = *random.pick(&[0, 33, 34, 0x80, 0xFF]).expect("not empty"),
        1 => frames[0] = vec![1, other_than(random, 2), *random.pick(&[0, 33, 0xFF]).expect("not empty")],
        2 => frames[0].push(random.byte()),
        3 => {
            frames[0].pop();
        }
        4 => frames[0].truncate(1),
        5 => frames[0][0] = other_than(random, 1),
        6 => {
            frames.remove(0);
        }
        7 => frames.insert(0, vec![7]),
        _ => frames[0] = vec![2, other_than(random, 2), 1, 0],
    }
}

/// Unknown kinds, falling kinds, a second first line, lines behind the end.
fn break_order(random: &mut Random, frames: &mut Frames, first: u8, last: u8) {
    let place = random.between(1, frames.len());
    let known = random.pick(frames).cloned().unwrap_or_default();
    match random.below(9) {
        0 => frames
            .insert(place, vec![*random.pick(&[0x00, 0x08, 0x15, 0x1F, 0x2A, 0x2E, 0x30, 0x7F, 0xFF, 0x0F]).expect("not empty")]),
        1 => frames.insert(place, vec![random.byte(), 0, 0]),
        2 => {
            let header = frames[0].clone();
            frames.insert(if random.chance(50) { 1 } else { place }, header);
        }
        3 => frames.push(known),
        4 => frames.push(vec![last]),
        5 => frames.push(vec![random.byte()]),
        6 => frames.insert(place, known),
        7 => {
            let (one, other) = (random.below(frames.len() - 1) + 1, random.below(frames.len() - 1) + 1);
            frames.swap(one, other);
        }
        _ => {
            let kind = if first == 0x01 { random.between(1, 6) } else { random.between(0x10, 0x14) };
            frames.insert(place, vec![kind as u8, 0, 0]);
        }
    }
}

/// A frame too long or too short, or with a k that its length does not fit.
fn break_length(random: &mut Random, frames: &mut Frames) {
    let place = random.below(frames.len() - 1) + 1;
    let frame = &mut frames[place];
    match random.below(6) {
        0 => frame.push(random.byte()),
        1 if frame.len() > 1 => {
            frame.pop();
        }
        1 => frame.push(0),
        2 => frame.extend_from_slice(&[0; 20]),
        3 => frame.truncate(1),
        _ => match count_place(frame) {
            Some(at) => frame[at] = *random.pick(&[0, 1, 3, 5, 7, 0xFF]).expect("not empty"),
            None => frame.push(1),
        },
    }
}

/// Where a frame's k stands.
fn count_place(frame: &[u8]) -> Option<usize> {
    let at = match frame[0] {
        0x03 | 0x27 => 2,
        0x05 => 7,
        0x28 => 4,
        _ => return None,
    };
    (at < frame.len()).then_some(at)
}

/// A number that nothing has: just behind the last, or far away.
fn undeclared(random: &mut Random, count: usize) -> u8 {
    let count = count.min(255) as u8;
    *random
        .pick(&[count, count, count.saturating_add(1), 0x7F.max(count), 0x80.max(count), 0xFE.max(count), 0xFF])
        .expect("not empty")
}

/// A line behind the first, each kind as likely as the others however many lines it has.
fn any_of_some_kind(random: &mut Random, frames: &Frames) -> Option<usize> {
    let mut kinds: Vec<u8> = frames.iter().skip(1).map(|frame| frame[0]).collect();
    kinds.dedup();
    let kind = *random.pick(&kinds)?;
    let places: Vec<usize> = (1..frames.len()).filter(|&place| frames[place][0] == kind).collect();
    random.pick(&places).copied()
}

fn break_package_number(random: &mut Random, package: &Package, frames: &mut Frames) {
    let first_class = 1 + package.pairs.len();
    let Some(place) = any_of_some_kind(random, frames) else { return };
    let frame = &mut frames[place];
    let (domains, classes, methods) = (package.domains, package.classes.len(), package.methods.len());
    match frame[0] {
        0x02 => frame[random.between(1, 2)] = undeclared(random, domains),
        0x03 => break_class(random, frame, domains, place - first_class),
        0x04 => match random.below(3) {
            0 => frame[3] = *random.pick(&[2, 3, 0xFF]).expect("not empty"),
            at => frame[at] = undeclared(random, classes),
        },
        0x05 => break_method(random, frame, domains, classes),
        0x06 => break_effect(random, frame, package, methods),
        _ => {}
    }
}

fn break_class(random: &mut Random, frame: &mut Vec<u8>, domains: usize, own: usize) {
    match random.below(4) {
        0 => frame[1] = undeclared(random, domains),
        1 => {
            let count = *random.pick(&[5, 5, 6, 0x40, 0xFF]).expect("not empty");
            frame.resize(3 + count as usize, 0);
            frame[2] = count;
        }
        _ => {
            let above = *random.pick(&[own as u8, own as u8, own as u8 + 1, 0xFF]).expect("not empty");
            if frame.len() == 3 || frame.len() < 7 && random.chance(50) {
                frame.push(above);
                frame[2] += 1;
            } else {
                let last = frame.len() - 1;
                frame[last] = above;
            }
        }
    }
}

fn break_method(random: &mut Random, frame: &mut Vec<u8>, domains: usize, classes: usize) {
    match random.below(9) {
        0 => frame[1] = undeclared(random, classes),
        1 => frame[2] = undeclared(random, domains),
        2 => frame[3] = *random.pick(&[2, 3, 0xFF]).expect("not empty"),
        3 => frame[3] ^= 1,
        4 => frame[random.between(4, 5)] ^= *random.pick(&[1, 0x80]).expect("not empty"),
        5 => frame[6] = undeclared(random, classes).min(0xFE),
        6 => {
            let count = *random.pick(&[7, 7, 8, 9, 0xFF]).expect("not empty");
            frame.resize(8 + count as usize, 0);
            frame[7] = count;
        }
        7 => frame[4..6].fill(0),
        _ if frame[7] > 0 => {
            let at = random.between(8, frame.len() - 1);
            frame[at] = undeclared(random, classes);
        }
        _ => {
            frame.push(undeclared(random, classes));
            frame[7] += 1;
        }
    }
}

fn break_effect(random: &mut Random, frame: &mut [u8], package: &Package, methods: usize) {
    match random.below(5) {
        0 => frame[1] = undeclared(random, methods),
        1 => frame[2] = *random.pick(&[8, 9, 0x0F, 0x10, 0xFF]).expect("not empty"),
        2 => frame[2] |= *random.pick(&[0x08, 0x80]).expect("not empty"),
        // The same number under an op of the other static kind, or of another table.
        3 => frame[2] = random.below(8) as u8,
        _ => {
            let count = match frame[2] {
                NEW | CHECKCAST => package.classes.len(),
                INVOKESTATIC | INVOKEMETHOD => methods,
                _ => package.fields.len(),
            };
            frame[3] = undeclared(random, count);
        }
    }
}

/// Copies of one kind's frame up to one more than its limit, the last one sometimes damaged, too.
fn overfill_package(random: &mut Random, frames: &mut Frames) {
    let (limit, filler) = match random.below(8) {
        0..=3 => (MAX_PAIRS, vec![0x02, 0, 0]),
        4 | 5 => (MAX_CLASSES, vec![0x03, 0, 0]),
        6 if random.chance(40) => (MAX_FIELDS, vec![0x04, 0, 0, 1]),
        6 if random.chance(50) => (MAX_METHODS, vec![0x05, 0, 0, 1, 0, 0, 0xFF, 0]),
        6 => (MAX_EFFECTS, vec![0x06, 0, 0, 0]),
        _ => (MAX_PAIRS, vec![0x02, 0, 0]),
    };
    overfill(random, frames, &[filler[0]], limit, filler.clone());
}

/// Fills the section of a kind; `kinds` are counted together.
fn overfill(random: &mut Random, frames: &mut Frames, kinds: &[u8], limit: usize, filler: Vec<u8>) {
    let own: Vec<Vec<u8>> = frames.iter().filter(|frame| kinds.contains(&frame[0])).cloned().collect();
    let place = frames.iter().skip(1).position(|frame| frame[0] > kinds[kinds.len() - 1]).map_or(frames.len(), |at| at + 1);
    // Copies of what is there keep the text readable up to the limit; one kind of copy in all, so that kinds do not fall.
    let copied = own.last().cloned().unwrap_or(filler);
    let surplus = random.between(1, 2);
    let missing = (limit + surplus).saturating_sub(own.len());
    let mut copies = vec![copied; missing];
    if let Some(last) = copies.last_mut() {
        match random.below(6) {
            0 => last.push(0),
            1 => {
                last.pop();
            }
            2 | 3 if last.len() > 1 => last[1] = 0xFF,
            _ => {}
        }
    }
    frames.splice(place..place, copies);
}

fn overfill_script(random: &mut Random, frames: &mut Frames) {
    match random.below(6) {
        0 | 1 => overfill(random, frames, &[0x14], MAX_LABELS, vec![0x14, 0, 0]),
        2 | 3 => overfill(random, frames, &[0x12, 0x13], MAX_LINKS, vec![0x13, 0, 0, 0, 0]),
        4 => overfill(random, frames, &[0x12], MAX_LINKS, vec![0x12, 0, 0, 0]),
        _ => overfill(random, frames, &[0x20, 0x21, 0x22, 0x23, 0x24, 0x25, 0x26, 0x27, 0x28, 0x29], MAX_STEPS, vec![0x29, 0xFF]),
    }
}

/// No last line: it is taken, or all from some line on, or everything.
fn cut_short(random: &mut Random, frames: &mut Frames) {
    match random.below(4) {
        0 | 1 => {
            frames.pop();
        }
        2 => frames.truncate(random.between(1, frames.len() - 1)),
        _ => frames.clear(),
    }
}

fn break_entry(random: &mut Random, package: &Package, frames: &mut Frames) {
    match random.below(7) {
        0 => frames[0][1] = undeclared(random, package.methods.len()),
        1 => frames[0].push(random.byte()),
        2 => frames[0].truncate(1),
        3 => frames[0][0] = other_than(random, 0x10),
        4 => {
            frames.remove(0);
        }
        5 => frames.insert(0, vec![0x2F]),
        _ => frames[0] = vec![random.byte(), random.byte()],
    }
}

fn break_script_number(random: &mut Random, package: &Package, frames: &mut Frames) {
    let Some(place) = any_of_some_kind(random, frames) else { return };
    if random.chance(12) {
        return turn_link(random, frames);
    }
    if frames[place][0] == 0x11 && random.chance(40) {
        let again = frames[place].clone();
        frames.insert(place, again);
        return;
    }
    let frame = &mut frames[place];
    match frame[0] {
        0x11 => frame[random.between(1, 2)] = 0xFF,
        0x12..=0x14 => break_start_number(random, frame),
        0x20..=0x29 => break_step_number(random, package, frame),
        _ => {}
    }
}

/// Makes the last static link one with an owner, or the first one with an owner static; kinds still rise.
fn turn_link(random: &mut Random, frames: &mut Frames) {
    let object = frames.iter().find(|frame| frame[0] == 0x11).map_or(0, |frame| frame[1]);
    if random.chance(50) {
        if let Some(link) = frames.iter_mut().rev().find(|frame| frame[0] == 0x12) {
            *link = vec![0x13, object, link[1], link[2], link[3]];
        }
    } else if let Some(link) = frames.iter_mut().find(|frame| frame[0] == 0x13) {
        *link = vec![0x12, link[2], link[3], link[4]];
    }
}

/// An undeclared class, a reference without its object, or classes that no field has.
fn break_start_number(random: &mut Random, frame: &mut [u8]) {
    let at = random.between(1, frame.len() - 1);
    frame[at] = match random.below(3) {
        0 => 0xFF,
        1 => random.byte(),
        _ => frame[at].wrapping_add(1),
    };
}

fn break_step_number(random: &mut Random, package: &Package, frame: &mut Vec<u8>) {
    let last = frame.len() - 1;
    match frame[0] {
        0x20..=0x22 => frame[random.between(1, 2)] = *random.pick(&[0xFF, package.classes.len() as u8]).expect("not empty"),
        0x23..=0x26 => match random.below(3) {
            0 => frame[1] = undeclared(random, package.fields.len()),
            1 => frame[0] = if frame[0] <= 0x24 { 0x23 + random.below(2) as u8 } else { frame[0] ^ 3 },
            _ => frame[random.between(2, last)] = 0xFF,
        },
        0x27 | 0x28 => match random.below(4) {
            0 => frame[1] = random.byte(),
            1 => frame[last] = 0xFF,
            2 => {
                let count = if frame[0] == 0x27 { 2 } else { 4 };
                frame[count] += 1;
                frame.push(0);
            }
            _ => frame[2] = random.byte(),
        },
        _ => {}
    }
}

/// A start label, a link's type or a link's declaring class that its object is not under.
fn break_start_type(random: &mut Random, package: &Package, trust: &Trust, frames: &mut Frames) {
    let mut pool = [None; 256];
    for frame in frames.iter().filter(|frame| frame[0] == 0x11 && frame.len() == 3) {
        pool[frame[1] as usize] = Some(frame[2]);
    }
    let known: Vec<u8> = (0..=254).filter(|&r| pool[r as usize].is_some()).collect();
    let starts: Vec<usize> = (0..frames.len()).filter(|&at| (0x12..=0x14).contains(&frames[at][0])).collect();
    let Some(&place) = random.pick(&starts) else { return };
    for _ in 0..30 {
        let mut frame = frames[place].clone();
        let Some(&other) = random.pick(&known) else { return };
        let class = random.below(package.classes.len()) as u8;
        match frame[0] {
            0x14 if random.chance(50) => frame[1] = other,
            0x14 => frame[2] = class,
            0x12 => frame[3] = other,
            _ => frame[*random.pick(&[1, 4]).expect("not empty")] = other,
        }
        if is_mistyped(trust, &pool, &frame) {
            frames[place] = frame;
            return;
        }
    }
}

fn is_mistyped(trust: &Trust, pool: &[Option<u8>; 256], frame: &[u8]) -> bool {
    let apart = |r: u8, class: u8| pool[r as usize].is_some_and(|own| !trust.is_under(own, class));
    match frame[0] {
        0x14 => apart(frame[1], frame[2]),
        0x12 => apart(frame[3], frame[2]),
        _ => apart(frame[4], frame[3]) || apart(frame[1], frame[2]),
    }
}

/// Damages a text anywhere, without an aim.
pub fn noise(random: &mut Random, mut text: Vec<u8>) -> Vec<u8> {
    for _ in 0..random.between(1, 3) {
        if text.is_empty() {
            text.push(random.byte());
        }
        let place = random.below(text.len());
        match random.below(5) {
            0 => text[place] = *random.pick(b"0123456789ABCDEF").expect("not empty"),
            1 => text[place] = random.byte(),
            2 => {
                text.remove(place);
            }
            3 => text.insert(place, *random.pick(b"0123456789ABCDEF\n").expect("not empty")),
            _ => text.truncate(place),
        }
    }
    text
}

/// Bytes of a frame replaced without an aim; the text stays one of lines and digits.
pub fn frame_noise(random: &mut Random, frames: &mut Frames) {
    for _ in 0..random.between(1, 3) {
        let place = random.below(frames.len());
        let frame = &mut frames[place];
        let at = random.below(frame.len());
        frame[at] = if random.chance(70) { random.below(16) as u8 } else { random.byte() };
    }
}
