//! Links the driver with the port's static library, found through `BUCHAWZER_LIB_DIR`.

use std::env;

fn main() {
    println!("cargo:rerun-if-env-changed=BUCHAWZER_LIB_DIR");
    let dir = env::var("BUCHAWZER_LIB_DIR").expect("BUCHAWZER_LIB_DIR: the folder of libbuchawzer.a");
    // Cargo does not look at a linked archive by itself, and an old one must never be compared.
    println!("cargo:rerun-if-changed={dir}/libbuchawzer.a");
    println!("cargo:rustc-link-search=native={dir}");
    println!("cargo:rustc-link-lib=static=buchawzer");
}
