//! Finds the Rust files, checks that they are the listed ones, and writes the declarations that
//! compile them where they are: for each folder a file with its modules.

mod sha256;

use std::collections::BTreeMap;
use std::error::Error;
use std::path::{self, Path, PathBuf};
use std::{env, fs};

/// The environment variable that names the folder of the files, the one that holds `src/types.rs`,
/// by its absolute path.
const VARIABLE: &str = "LIBRTMP2_SRC";

/// Where that folder is, seen from this package, if the variable is not set or empty.
const DEFAULT_FOLDER: &str = "../../../shared/docs/src";

/// The list of the files: what `sha256sum` prints in that folder.
const LIST: &str = "sources.sha256";

fn main() {
    println!("cargo::rerun-if-changed=build");
    println!("cargo::rerun-if-changed={LIST}");
    println!("cargo::rerun-if-env-changed={VARIABLE}");
    let folder = folder();
    if let Err(error) = declare_modules(&folder) {
        println!("cargo::error=The Rust files that the port is compared with were looked for in");
        println!("cargo::error=    {}", folder.display());
        println!("cargo::error=and cannot be compiled: {error}.");
        println!("cargo::error=Set {VARIABLE} to the absolute path of the folder that holds them,");
        println!("cargo::error=src/types.rs and the others of rust/oracle/{LIST}.");
    }
}

fn folder() -> PathBuf {
    match env::var_os(VARIABLE) {
        Some(folder) if !folder.is_empty() => folder.into(),
        _ => path::absolute(DEFAULT_FOLDER).expect("the folder has a name"),
    }
}

fn declare_modules(folder: &Path) -> Result<(), Box<dyn Error>> {
    if !folder.is_absolute() {
        return Err("the path is not absolute".into());
    }
    let mut declarations = BTreeMap::<&str, String>::new();
    let list = fs::read_to_string(LIST)?;
    for line in list.lines() {
        let (sum, name) = line
            .split_once("  ")
            .ok_or("a line of the list has no name")?;
        let file = folder.join(name);
        println!("cargo::rerun-if-changed={}", file.display());
        let content = fs::read(&file).map_err(|error| format!("{name}: {error}"))?;
        if sha256::hex(&content) != sum {
            return Err(format!("{name} is not the listed file: its SHA-256 differs").into());
        }
        let (parent, module) = parent_and_module(name).ok_or("a listed name is no module")?;
        let declared = declarations.entry(parent).or_default();
        *declared += &format!("#[path = {file:?}]\npub mod {module};\n");
    }
    let target = PathBuf::from(env::var_os("OUT_DIR").expect("cargo sets OUT_DIR"));
    for (parent, declared) in declarations {
        fs::write(target.join(parent).with_extension("rs"), declared)?;
    }
    Ok(())
}

/// `src/ertmp/modex.rs` is the module `modex` of the folder `ertmp`.
fn parent_and_module(name: &str) -> Option<(&str, &str)> {
    let (folders, file) = name.rsplit_once('/')?;
    let parent = folders.rsplit('/').next()?;
    Some((parent, file.strip_suffix(".rs")?))
}
