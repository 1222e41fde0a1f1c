//! Has clang link its fuzzer, which has the `main`, where the fuzzer itself is built.

use std::env;

fn main() {
    println!("cargo:rerun-if-changed=build.rs");
    if env::var_os("CARGO_FEATURE_LIBFUZZER").is_some() {
        println!("cargo:rustc-link-arg-bin=fuzz=-fsanitize=fuzzer");
    }
}
