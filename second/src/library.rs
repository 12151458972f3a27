// One case through the library: packages alone, pairs of texts with lent buffers of many lengths, and every byte of the buffers afterwards.
use crate::compare::Difference;
use crate::gen::cases::{Case, Program};
use crate::holdings::ROOM;
use crate::product::{pack, unpack, Library};
use crate::program::cut;
use crate::readings::Settled;
use crate::text::LIMIT;

/// The lent buffers that every run is tried with: too short, just long enough, and longer.
const BUFFERS: [usize; 4] = [0, ROOM - 1, ROOM, 10_000];

/// Other lengths, one of them for each run; some that are long enough only if all their bits are looked at, and some only if not.
const OTHER_BUFFERS: [usize; 10] = [1, 9, 4_096, 7_201, 8_191, 65_535, 65_536, 65_537, 65_536 + ROOM - 1, 65_536 + ROOM];

/// Bytes before and behind a lent buffer, which no call may touch.
const MARGIN: usize = 64;

/// Both outcomes if they differ; None if they agree or the library has no such function.
pub fn difference(library: &Library, case: &Case) -> Option<Difference> {
    if case.program == Program::Check {
        return check_difference(library, case);
    }
    let run = library.run?;
    let (package, script) = case.input.split_at(cut(&case.input, Settled));
    let other = [OTHER_BUFFERS[case.input.len() % OTHER_BUFFERS.len()]];
    let lengths = BUFFERS.iter().chain(&other);
    lengths.into_iter().find_map(|&length| run_difference(run, case, "as the program cuts", package, script, length)).or_else(
        || {
            let (name, package, script) = odd_pair(&case.input, package, script);
            run_difference(run, case, name, &package, &script, ROOM)
        },
    )
}

fn check_difference(library: &Library, case: &Case) -> Option<Difference> {
    let (number, first, second) = crate::check(&case.input);
    let (settled, product) = (pack(number, first, second, 0), (library.check)(&case.input));
    let described = |word: u64| format!("{:?}\n", unpack(word)).into_bytes();
    (settled != product).then(|| Difference { case: case.clone(), settled: described(settled), product: described(product) })
}

/// A pair of texts that no input of the program is cut into, or that hides one refusal behind another.
fn odd_pair(input: &[u8], package: &[u8], script: &[u8]) -> (&'static str, Vec<u8>, Vec<u8>) {
    let long = || [script, &vec![b'0'; LIMIT + 1][..]].concat();
    let (name, package, script) = match input.len() % 6 {
        0 => ("package and run text exchanged", script.to_vec(), package.to_vec()),
        1 => ("lines behind the package's end", input.to_vec(), script.to_vec()),
        2 => ("a package without its end", package[..package.len().saturating_sub(3)].to_vec(), script.to_vec()),
        3 => ("a run text that is too long", package.to_vec(), long()),
        4 => ("two texts that are too long", [package, &long()[..]].concat(), long()),
        _ => ("the run text twice", package.to_vec(), [script, script].concat()),
    };
    (name, package, script)
}

/// Calls both with a buffer that is filled beforehand: every byte must be the same afterwards, and those beside it untouched.
fn run_difference(
    run: fn(&[u8], &[u8], &mut [u8]) -> u64,
    case: &Case,
    pair: &str,
    package: &[u8],
    script: &[u8],
    length: usize,
) -> Option<Difference> {
    let filled: Vec<u8> = (0..length + 2 * MARGIN).map(|place| (place * 7 + case.input.len()) as u8).collect();
    let (mut own, mut lent) = (filled.clone(), filled);
    let (number, first, second, written) = crate::run(package, script, &mut own[MARGIN..MARGIN + length]);
    let settled = pack(number, first, second, written);
    let product = run(package, script, &mut lent[MARGIN..MARGIN + length]);
    if settled == product && own == lent {
        return None;
    }
    let texts = format!("{pair}: {} bytes and {} bytes, buffer of {length} bytes\n", package.len(), script.len());
    let described = |word, all: &[u8]| (texts.clone() + &outcome(word, &all[MARGIN..MARGIN + length], all)).into_bytes();
    Some(Difference { case: case.clone(), settled: described(settled, &own), product: described(product, &lent) })
}

/// The answer, the holdings, and a sum over all bytes of the buffer and beside it, so that one changed byte shows.
fn outcome(word: u64, buffer: &[u8], all: &[u8]) -> String {
    let (number, first, second, length) = unpack(word);
    let written = String::from_utf8_lossy(&buffer[..(length as usize).min(buffer.len())]).into_owned();
    let sum = all.iter().fold(0u64, |sum, &byte| sum.wrapping_mul(31).wrapping_add(byte as u64 + 1));
    format!("answer {number}, places {first} {second}, length {length}, sum {sum:016X}\n{written}")
}
