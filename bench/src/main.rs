// How fast the product is beside the second program, in one process and one run.
//   bench                            the tables
//   bench one NAME product|second ROUNDS   one case by one of them, for an instruction count by callgrind
//   bench names                      the cases' names
mod callers;
mod cases;
mod tables;
mod timing;

use callers::{Who, ROOM};
use cases::{names, Case};
use std::hint::black_box;
use std::process::ExitCode;

// Where the linker puts a loop moves its time: so many bytes in front of the code put it elsewhere.
std::arch::global_asm!(".pushsection .text.shift, \"axR\", @progbits", concat!(".skip ", env!("BENCH_SHIFT")), ".popsection");

fn one(words: &[String]) -> Option<()> {
    let [name, who, rounds] = words else { return None };
    let (case, who, rounds) = (Case::named(name)?, Who::named(who)?, rounds.parse::<usize>().ok()?);
    let mut buffer = [0; ROOM];
    for _ in 0..rounds {
        black_box(who.answer(black_box(&case), &mut buffer));
    }
    Some(())
}

fn main() -> ExitCode {
    let words: Vec<String> = std::env::args().skip(1).collect();
    let done = match words.first().map(String::as_str) {
        None => Some(tables::print()),
        Some("names") => Some(names().for_each(|name| println!("{name}"))),
        Some("one") => one(&words[1..]),
        Some(_) => None,
    };
    if done.is_none() {
        eprintln!("bench | bench one NAME product|second ROUNDS | bench names");
    }
    ExitCode::from(if done.is_some() { 0 } else { 2 })
}
