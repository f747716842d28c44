//! Where host/library.sh writes the library that is compared.

fn main() {
    println!("cargo:rustc-link-search=native={}/../target/staticlib", env!("CARGO_MANIFEST_DIR"));
    println!("cargo:rerun-if-changed=../target/staticlib/libhost.a");
}
