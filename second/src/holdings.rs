// The holdings of a state: what each domain holds, as sorted lines without repetition.
use crate::machine::Machine;
use crate::package::Package;
use crate::readings::{Readings, Wrong};
use crate::script::NO_OWNER;
use crate::text::digits_of;
use crate::trust::Trust;

/// The bytes of one line: eight digits and the LF.
pub const LINE: usize = 9;

/// The room that every state's holdings fit into: 17 frames of 32 labels, and 256 links.
pub const ROOM: usize = 7200;

const MOST: usize = ROOM / LINE;

/// A holding in one word, so that words sort as the lines do: domain, reference, class.
#[inline]
fn holding(domain: u8, reference: u8, class: u8) -> u32 {
    (domain as u32) << 16 | (reference as u32) << 8 | class as u32
}

/// Writes the holdings at the buffer's start and gives their length.
pub fn write<R: Readings>(machine: &Machine<R>, package: &Package, trust: &Trust, readings: R, buffer: &mut [u8]) -> usize {
    let mut words = [0u32; MOST];
    let count = collect(machine, package, trust, readings, &mut words);
    let words = &mut words[..count];
    if !readings.wrong(Wrong::HoldingsUnsorted) {
        words.sort_unstable();
    }
    let mut length = 0;
    let mut last = u32::MAX;
    for &word in words.iter() {
        if word != last || readings.wrong(Wrong::HoldingsTwice) {
            write_line(word, &mut buffer[length..length + LINE]);
            length += LINE;
        }
        last = word;
    }
    length
}

fn collect<R: Readings>(machine: &Machine<R>, package: &Package, trust: &Trust, readings: R, words: &mut [u32; MOST]) -> usize {
    let mut count = 0;
    let frames =
        if readings.wrong(Wrong::HoldingsRunning) { &machine.frames[machine.frames.len() - 1..] } else { &machine.frames[..] };
    for frame in frames {
        let method = &package.methods[frame.method as usize];
        let domain = if readings.wrong(Wrong::HoldingsByLabel) { method.label } else { trust.home(method.class) };
        for label in frame.labels.iter() {
            words[count] = holding(domain, label.reference, label.class);
            count += 1;
        }
    }
    for link in machine.links.iter() {
        let class = match link.owner {
            _ if readings.wrong(Wrong::HoldingsByTarget) => link.of,
            owner if owner != NO_OWNER && readings.wrong(Wrong::HoldingsByOwner) => machine.pool[owner as usize],
            _ => link.class,
        };
        words[count] = holding(trust.home(class), link.target, link.of);
        count += 1;
    }
    count
}

#[inline]
fn write_line(word: u32, line: &mut [u8]) {
    let [_, domain, reference, class] = word.to_be_bytes();
    for (place, byte) in [0x30, domain, reference, class].into_iter().enumerate() {
        line[2 * place..2 * place + 2].copy_from_slice(&digits_of(byte));
    }
    line[LINE - 1] = b'\n';
}
