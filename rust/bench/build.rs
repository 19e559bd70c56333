//! Tells the program which compiler builds it.

use std::env;
use std::process::Command;

fn main() {
    println!("cargo::rerun-if-changed=build.rs");
    let compiler = env::var_os("RUSTC").expect("cargo sets RUSTC");
    let output = Command::new(compiler).arg("--version").output();
    let output = output.expect("the compiler runs").stdout;
    let version = String::from_utf8(output).expect("a version is text");
    println!("cargo::rustc-env=BENCH_RUSTC={}", version.trim());
}
