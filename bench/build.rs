// Links the product's static library: libdcc.a of the folder DCC_LIB_DIR, or target/staticlib, where `bin/build dcc_c` writes it.
fn main() {
    println!("cargo:rerun-if-env-changed=DCC_LIB_DIR");
    let folder = std::env::var("DCC_LIB_DIR").unwrap_or("../target/staticlib".to_string());
    println!("cargo:rustc-link-search=native={folder}");
    println!("cargo:rustc-link-lib=static=dcc");
    println!("cargo:rerun-if-changed={folder}/libdcc.a");
    println!("cargo:rerun-if-env-changed=BENCH_SHIFT");
    println!("cargo:rustc-env=BENCH_SHIFT={}", std::env::var("BENCH_SHIFT").unwrap_or("0".to_string()));
}
