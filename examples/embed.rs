// The library from Rust: checks a package file, or runs a run file, and prints the answer and the holdings.
//   embed FILE.package       prints the package's answer
//   embed FILE.run           prints the run's answer and what each domain then holds
// examples/build builds it and runs it on examples/. Its exit status is 0 if what it prints is what FILE.expected says.
use std::path::Path;
use std::process::ExitCode;

/// The safe side of the library's two functions; their promises are in include/dcc.h.
mod dcc {
    /// The buffer that every state's holdings fit into.
    pub const BUFFER_BYTES: usize = 7_200;

    #[derive(Clone, Copy)]
    pub struct Answer {
        pub number: u16,
        pub first: u16,
        pub second: u16,
        pub length: usize,
    }

    extern "C" {
        fn dcc_check(text: *const u8, length: usize) -> u64;
        fn dcc_run(
            package: *const u8,
            package_len: usize,
            script: *const u8,
            script_len: usize,
            out: *mut u8,
            out_len: usize,
        ) -> u64;
    }

    fn unpack(word: u64) -> Answer {
        Answer { number: word as u16, first: (word >> 16) as u16, second: (word >> 32) as u16, length: (word >> 48) as usize }
    }

    pub fn check(text: &[u8]) -> Answer {
        // A slice is what the function asks of its pointer: readable bytes that nobody changes during the call.
        unpack(unsafe { dcc_check(text.as_ptr(), text.len()) })
    }

    pub fn run(package: &[u8], script: &[u8], out: &mut [u8]) -> Answer {
        // As above; and a `&mut` slice overlaps nothing else.
        unpack(unsafe { dcc_run(package.as_ptr(), package.len(), script.as_ptr(), script.len(), out.as_mut_ptr(), out.len()) })
    }
}

fn words(number: u16) -> &'static str {
    match number {
        0 => "accepted",
        1..=9 => "the package text is not read",
        10..=12 => "the package's tables contradict themselves",
        13..=30 => "the package breaks a rule",
        31..=60 => "the run text is not admitted",
        61..=64 => "a step is refused",
        _ => "the buffer is too short",
    }
}

/// A run file is a package and, behind the first line that is just 07, a run text.
fn cut(input: &[u8]) -> (&[u8], &[u8]) {
    let mut end = 0;
    for line in input.split_inclusive(|&byte| byte == b'\n') {
        end += line.len();
        if line == b"07\n" {
            break;
        }
    }
    input.split_at(end)
}

fn main() -> ExitCode {
    let file = std::env::args().nth(1).expect("embed FILE.package or embed FILE.run");
    let input = std::fs::read(&file).expect("the file can be read");
    let mut out = [0; dcc::BUFFER_BYTES];
    let answer = if file.ends_with(".run") {
        let (package, script) = cut(&input);
        dcc::run(package, script, &mut out)
    } else {
        dcc::check(&input)
    };

    println!("{file}: {} at {}, {}: {}", answer.number, answer.first, answer.second, words(answer.number));
    let holdings = &out[..answer.length];
    for line in std::str::from_utf8(holdings).expect("digits").lines() {
        println!("  domain {} holds object {} as class {}", &line[2..4], &line[4..6], &line[6..8]);
    }

    let mut printed = format!("2E{:02X}{:04X}{:04X}\n", answer.number, answer.first, answer.second).into_bytes();
    printed.extend_from_slice(holdings);
    let expected = std::fs::read(Path::new(&file).with_extension("expected")).expect("FILE.expected can be read");
    ExitCode::from((printed != expected) as u8)
}
