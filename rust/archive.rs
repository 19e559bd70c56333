//! What the build scripts share: linking an archive that `rt lib` makes.

use std::env;
use std::path::{Path, PathBuf};

/// The environment variable that names the folder of the archives, by its absolute path: a script
/// does not know from which folder the caller would count a relative one.
const VARIABLE: &str = "HOZGRIM_STATICLIB";

/// Links the archive of the crate `name`.
pub fn link(name: &str) {
    println!("cargo::rerun-if-env-changed={VARIABLE}");
    let named = env::var_os(VARIABLE).map(PathBuf::from);
    for instruction in instructions(name, &named.unwrap_or_else(|| default_folder(name))) {
        println!("cargo::{instruction}");
    }
}

/// What cargo is told, if the archive is looked for in this folder.
///
/// Without the archive there is a warning only, since `cargo check`, `clippy` and `doc` do not need
/// it. A build then fails by rustc's own words, that there is no such static library.
pub fn instructions(name: &str, folder: &Path) -> Vec<String> {
    let archive = folder.join(format!("lib{name}.a"));
    let mut instructions = vec![
        format!("rerun-if-changed={}", archive.display()),
        format!("rustc-link-lib=static={name}"),
    ];
    if folder.is_absolute() && archive.exists() {
        instructions.push(format!("rustc-link-search=native={}", folder.display()));
    } else {
        instructions.extend([
            format!("warning=There is no archive {}.", archive.display()),
            format!("warning=Make it with `rt lib` in the folder crates/{name},"),
            format!("warning=or set {VARIABLE} to the absolute path of the folder that holds it."),
        ]);
    }
    instructions
}

/// Where `rt lib` puts the archive, if the variable is not set. The root of the repository is two
/// folders above a package.
fn default_folder(name: &str) -> PathBuf {
    let package = env::var_os("CARGO_MANIFEST_DIR").expect("cargo sets CARGO_MANIFEST_DIR");
    let root = Path::new(&package).ancestors().nth(2);
    let root = root.expect("a package is in rust/");
    root.join("crates").join(name).join("out")
}
