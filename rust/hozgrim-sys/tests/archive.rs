//! What the build scripts tell cargo about the archive.

#[expect(dead_code, reason = "the scripts call `link`")]
#[path = "../../archive.rs"]
mod archive;

use std::path::{Path, PathBuf};
use std::{env, fs};

/// An absolute path of a folder that holds `libsome.a`.
fn folder() -> PathBuf {
    let folder = Path::new(env!("CARGO_TARGET_TMPDIR")).join("staticlib");
    fs::create_dir_all(&folder).expect("the folder can be made");
    fs::write(folder.join("libsome.a"), "").expect("the file can be written");
    folder
}

/// The same folder, seen from the one in which tests run.
fn relative(folder: &Path) -> PathBuf {
    let here = env::current_dir().expect("there is a folder");
    let up: PathBuf = here.components().skip(1).map(|_| "..").collect();
    up.join(folder.strip_prefix("/").expect("the path is absolute"))
}

#[test]
fn an_archive_is_linked_from_its_folder() {
    let folder = folder();
    let told = archive::instructions("some", &folder);
    let expected = [
        format!("rerun-if-changed={}", folder.join("libsome.a").display()),
        "rustc-link-lib=static=some".into(),
        format!("rustc-link-search=native={}", folder.display()),
    ];
    assert_eq!(told, expected);
}

#[test]
fn a_folder_without_the_archive_is_a_warning() {
    let folder = folder();
    let relative = relative(&folder);
    assert!(relative.join("libsome.a").exists());
    for wrong in [Path::new(""), &relative, &folder.join("none")] {
        let told = archive::instructions("some", wrong);
        let archive = wrong.join("libsome.a");
        let expected = [
            format!("rerun-if-changed={}", archive.display()),
            "rustc-link-lib=static=some".into(),
            format!("warning=There is no archive {}.", archive.display()),
            "warning=Make it with `rt lib` in the folder crates/some,".into(),
            "warning=or set HOZGRIM_STATICLIB to the absolute path of the folder that holds it."
                .into(),
        ];
        assert_eq!(told, expected);
    }
}
