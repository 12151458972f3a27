// A libFuzzer harness: the product's library and the second program on the same bytes. A difference aborts, and so does a crash of either;
// libFuzzer then keeps the input. Coverage is that of the second program, since the library has no counters.
#![no_main]
use second::fuzzed::decoded;
use second::gen::cases::Program;
use second::library::difference;
use second::product::linked;

#[no_mangle]
pub extern "C" fn LLVMFuzzerTestOneInput(data: *const u8, size: usize) -> i32 {
    // libFuzzer lends `size` readable bytes; for none of them the pointer may be null.
    let bytes = if size == 0 { &[] } else { unsafe { std::slice::from_raw_parts(data, size) } };
    let library = linked().expect("built with the library");
    let mut case = decoded(bytes);
    if library.run.is_none() {
        case.program = Program::Check;
    }
    if let Some(found) = difference(&library, &case) {
        let shown = |bytes: &[u8]| bytes.escape_ascii().to_string().replace("\\n", "\n");
        eprintln!("--- input of {:?}\n{}", case.program, shown(&case.input));
        eprintln!("--- second program\n{}--- product\n{}", shown(&found.settled), shown(&found.product));
        std::process::abort();
    }
    0
}
