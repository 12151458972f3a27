// An answer: a number of the paper and its two places.

#[derive(Clone, Copy, PartialEq, Eq, Debug)]
pub struct Answer {
    pub number: u8,
    pub first: u16,
    pub second: u16,
}

pub const ACCEPTED: Answer = Answer { number: 0, first: 0, second: 0 };

impl Answer {
    /// Places are lines, steps or numbers of things: all fit two bytes, since a text has at most 32,768.
    pub fn new(number: u8, first: usize, second: usize) -> Answer {
        Answer { number, first: first as u16, second: second as u16 }
    }

    pub fn at_line(number: u8, line: usize) -> Answer {
        Answer::new(number, line, 0)
    }

    pub fn is_accepted(self) -> bool {
        self.number == 0
    }
}
