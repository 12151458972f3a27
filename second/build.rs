// Links the product's static library, and only when the feature `library` or `library-check` asks for it.
fn main() {
    println!("cargo:rerun-if-env-changed=DCC_LIB_DIR");
    println!("cargo:rerun-if-changed=build.rs");
    if std::env::var_os("CARGO_FEATURE_LIBRARY_CHECK").is_none() {
        return;
    }
    let folder = std::env::var("DCC_LIB_DIR").expect("linking the library needs DCC_LIB_DIR, the folder of libdcc.a");
    println!("cargo:rerun-if-changed={folder}/libdcc.a");
    println!("cargo:rustc-link-search=native={folder}");
    println!("cargo:rustc-link-lib=static=dcc");
}
