//! Tells the linker where the static library lies. Only the programs link it (src/linked.rs), so
//! `cargo build --lib` and `cargo test` need no library.

use std::env;

fn main() {
    println!("cargo:rerun-if-changed=build.rs");
    println!("cargo:rerun-if-env-changed=REFLECTORS_LIB");
    if let Ok(folder) = env::var("REFLECTORS_LIB") {
        println!("cargo:rustc-link-search=native={folder}");
        println!("cargo:rerun-if-changed={folder}/libreflectors_c.a");
    }
}
