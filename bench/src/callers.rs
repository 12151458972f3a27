// The two that are measured: the product through its library, and the second program. Both give the answer packed as the library packs it.
use crate::cases::Case;

/// The room for every state's holdings.
pub const ROOM: usize = second::holdings::ROOM;

#[derive(Clone, Copy)]
pub enum Who {
    Product,
    Second,
}

impl Who {
    pub fn named(name: &str) -> Option<Who> {
        match name {
            "product" => Some(Who::Product),
            "second" => Some(Who::Second),
            _ => None,
        }
    }

    /// The answer to a case; a run writes its holdings into the buffer.
    #[inline]
    pub fn answer(self, case: &Case, buffer: &mut [u8; ROOM]) -> u64 {
        match (self, &case.script) {
            (Who::Product, None) => product_check(&case.package),
            (Who::Product, Some(script)) => product_run(&case.package, script, buffer),
            (Who::Second, None) => {
                let (number, first, other) = second::check(&case.package);
                packed(number, first, other, 0)
            }
            (Who::Second, Some(script)) => {
                let (number, first, other, length) = second::run(&case.package, script, buffer);
                packed(number, first, other, length)
            }
        }
    }
}

fn packed(number: u8, first: u16, other: u16, length: usize) -> u64 {
    number as u64 | (first as u64) << 16 | (other as u64) << 32 | (length as u64) << 48
}

fn product_check(text: &[u8]) -> u64 {
    extern "C" {
        fn dcc_check(text: *const u8, len: usize) -> u64;
    }
    // The function reads the text's bytes and keeps nothing.
    unsafe { dcc_check(text.as_ptr(), text.len()) }
}

#[cfg(feature = "runs")]
fn product_run(package: &[u8], script: &[u8], out: &mut [u8]) -> u64 {
    extern "C" {
        fn dcc_run(
            package: *const u8,
            package_len: usize,
            script: *const u8,
            script_len: usize,
            out: *mut u8,
            out_len: usize,
        ) -> u64;
    }
    // The function reads the two texts, writes into the buffer only, and keeps nothing.
    unsafe { dcc_run(package.as_ptr(), package.len(), script.as_ptr(), script.len(), out.as_mut_ptr(), out.len()) }
}

#[cfg(not(feature = "runs"))]
fn product_run(_: &[u8], _: &[u8], _: &mut [u8]) -> u64 {
    panic!("built without the feature runs")
}
