// The proved library is linked as bench/build left it.
fn main() {
    let top = std::env::var("CARGO_MANIFEST_DIR").unwrap();
    println!("cargo:rustc-link-search={top}/../target/bench");
    println!("cargo:rustc-link-lib=static=export");
    println!("cargo:rerun-if-changed={top}/../target/bench/libexport.a");
}
