// The boundary to the product: its programs as processes, and its static library as linked C functions.
use crate::gen::cases::Program;
use std::io::Write;
use std::process::{Command, Stdio};

/// The product's programs, each as a command with its arguments.
pub struct Programs {
    pub check: Option<Vec<String>>,
    pub run: Option<Vec<String>>,
}

impl Programs {
    /// What a program prints for an input; None when there is no such program to drive.
    pub fn output(&self, program: Program, input: &[u8]) -> Option<Vec<u8>> {
        let command = match program {
            Program::Check => self.check.as_ref()?,
            Program::Run => self.run.as_ref()?,
        };
        Some(printed(command, input))
    }
}

fn printed(command: &[String], input: &[u8]) -> Vec<u8> {
    let mut child = Command::new(&command[0])
        .args(&command[1..])
        .stdin(Stdio::piped())
        .stdout(Stdio::piped())
        .spawn()
        .unwrap_or_else(|error| panic!("{} does not start: {error}", command[0]));
    // A program may stop reading behind its limit, so a broken pipe is no fault.
    let _ = child.stdin.take().expect("a pipe").write_all(input);
    let output = child.wait_with_output().expect("the program ends");
    let mut bytes = output.stdout;
    // Every answer has exit status 0: anything else is shown as a difference.
    if !output.status.success() {
        bytes.extend_from_slice(format!("({})\n", output.status).as_bytes());
    }
    bytes
}

/// The library's two functions, as words packed by it: `pack` and `unpack` say how.
#[derive(Clone, Copy)]
pub struct Library {
    pub check: fn(&[u8]) -> u64,
    /// None for a library that has `dcc_check` alone.
    pub run: Option<fn(&[u8], &[u8], &mut [u8]) -> u64>,
}

/// Number, two places, and the length written, 16 bits each from the lowest; the length of a check is 0.
pub type Unpacked = (u16, u16, u16, u16);

pub fn unpack(word: u64) -> Unpacked {
    (word as u16, (word >> 16) as u16, (word >> 32) as u16, (word >> 48) as u16)
}

pub fn pack(number: u8, first: u16, second: u16, length: usize) -> u64 {
    number as u64 | (first as u64) << 16 | (second as u64) << 32 | (length as u64) << 48
}

/// The library that this program is linked with, if it is.
#[cfg(feature = "library-check")]
pub fn linked() -> Option<Library> {
    extern "C" {
        fn dcc_check(text: *const u8, len: usize) -> u64;
    }
    // The function reads the text's bytes and keeps nothing.
    Some(Library { check: |text| unsafe { dcc_check(text.as_ptr(), text.len()) }, run: linked_run() })
}

#[cfg(not(feature = "library-check"))]
pub fn linked() -> Option<Library> {
    None
}

#[cfg(feature = "library")]
fn linked_run() -> Option<fn(&[u8], &[u8], &mut [u8]) -> u64> {
    extern "C" {
        fn dcc_run(
            package: *const u8,
            package_len: usize,
            script: *const u8,
            script_len: usize,
            out: *mut u8,
            out_len: usize,
        ) -> u64;
    }
    // The function reads the two texts, writes into the buffer only, and keeps nothing.
    Some(|package, script, out| unsafe {
        dcc_run(package.as_ptr(), package.len(), script.as_ptr(), script.len(), out.as_mut_ptr(), out.len())
    })
}

#[cfg(all(feature = "library-check", not(feature = "library")))]
fn linked_run() -> Option<fn(&[u8], &[u8], &mut [u8]) -> u64> {
    None
}
