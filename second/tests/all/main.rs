// All tests of the second program, in one program so that they are compiled once.
mod comparing;
mod confinement;
mod examples;
mod generated;
mod paper;
mod plain;
mod readings;

/// Words as lines of a text.
pub fn text(words: &str) -> Vec<u8> {
    words.split_whitespace().flat_map(|line| [line.as_bytes(), b"\n"].concat()).collect()
}
