// Lines of hexadecimal: cuts a text into frames under the digit rule, and writes bytes as digits.
use crate::readings::{Readings, Wrong};

/// The most bytes a package text or a run text may have.
pub const LIMIT: usize = 32_768;

/// No frame that fits its kind has more bytes than this, so no more are kept of a line.
pub const KEPT: usize = 16;

/// A line's bytes: the first `KEPT` of them, and how many the line has in all.
pub struct Frame {
    pub bytes: [u8; KEPT],
    pub len: usize,
}

impl Frame {
    pub fn new() -> Frame {
        Frame { bytes: [0; KEPT], len: 0 }
    }

    #[inline]
    pub fn kind(&self) -> u8 {
        self.bytes[0]
    }

    /// Whether the length is `fixed` bytes plus the count that stands as the last of them.
    #[inline]
    pub fn fits_count(&self, fixed: usize) -> bool {
        self.len >= fixed && self.len == fixed + self.bytes[fixed - 1] as usize
    }
}

/// The value of each digit, and `NO_DIGIT` for every other byte.
const NO_DIGIT: u8 = 0x80;
static STRICT: [u8; 256] = digits(false);
static LOOSE: [u8; 256] = digits(true);

const fn digits(small_too: bool) -> [u8; 256] {
    let mut values = [NO_DIGIT; 256];
    let mut value = 0;
    while value < 16 {
        values[b"0123456789ABCDEF"[value] as usize] = value as u8;
        if small_too {
            values[b"0123456789abcdef"[value] as usize] = value as u8;
        }
        value += 1;
    }
    values
}

/// The lines of a text, read one after the other.
pub struct Lines<'a, R> {
    text: &'a [u8],
    at: usize,
    /// How many lines were begun: the number of the line last read.
    pub line: usize,
    readings: R,
}

impl<'a, R: Readings> Lines<'a, R> {
    pub fn new(text: &'a [u8], readings: R) -> Self {
        Lines { text, at: 0, line: 0, readings }
    }

    #[inline]
    pub fn at_end(&self) -> bool {
        self.at >= self.text.len()
    }

    /// Reads the next line into `frame`; false when it breaks the digit rule or lacks its LF. Not to be called at the end.
    #[inline]
    pub fn read(&mut self, frame: &mut Frame) -> bool {
        self.line += 1;
        let table = if self.readings.wrong(Wrong::SmallLetters) { &LOOSE } else { &STRICT };
        let rest = &self.text[self.at..];
        let mut len = 0;
        for (byte, pair) in frame.bytes.iter_mut().zip(rest.chunks_exact(2)) {
            let (high, low) = (table[pair[0] as usize], table[pair[1] as usize]);
            if (high | low) >= NO_DIGIT {
                break;
            }
            *byte = high << 4 | low;
            len += 1;
        }
        if len == KEPT {
            len += count_pairs(&rest[2 * KEPT..], table);
        }
        if self.readings.wrong(Wrong::EmptyLine) && len == 0 {
            frame.bytes[0] = 0;
        }
        frame.len = len;
        self.close(rest, len)
    }

    /// Behind the digits must stand the LF, and before it at least one byte.
    #[inline]
    fn close(&mut self, rest: &[u8], len: usize) -> bool {
        let mut end = 2 * len;
        if self.readings.wrong(Wrong::CarriageReturn) && rest.get(end) == Some(&b'\r') {
            end += 1;
        }
        self.at += end + 1;
        if len == 0 && !self.readings.wrong(Wrong::EmptyLine) {
            return false;
        }
        match rest.get(end) {
            Some(&byte) => byte == b'\n',
            None => self.readings.wrong(Wrong::LastLineFeed),
        }
    }
}

/// How many pairs of digits a text begins with.
fn count_pairs(text: &[u8], table: &[u8; 256]) -> usize {
    text.chunks_exact(2).take_while(|pair| (table[pair[0] as usize] | table[pair[1] as usize]) < NO_DIGIT).count()
}

/// The two digits of each byte.
static PAIRS: [[u8; 2]; 256] = digit_pairs();

const fn digit_pairs() -> [[u8; 2]; 256] {
    let digits = b"0123456789ABCDEF";
    let mut pairs = [[0; 2]; 256];
    let mut byte = 0;
    while byte < 256 {
        pairs[byte] = [digits[byte >> 4], digits[byte & 15]];
        byte += 1;
    }
    pairs
}

#[inline]
pub fn digits_of(byte: u8) -> [u8; 2] {
    PAIRS[byte as usize]
}

/// Appends a frame as a line.
pub fn write_line(frame: &[u8], text: &mut Vec<u8>) {
    for &byte in frame {
        text.extend_from_slice(&digits_of(byte));
    }
    text.push(b'\n');
}
