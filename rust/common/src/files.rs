//! Files, with errors that name them.

use std::fs::{self, File};
use std::io;
use std::path::Path;

pub fn open(path: &Path) -> io::Result<File> {
    File::open(path).map_err(named(path))
}

pub fn create(path: &Path) -> io::Result<File> {
    File::create(path).map_err(named(path))
}

pub fn read(path: &Path) -> io::Result<Vec<u8>> {
    fs::read(path).map_err(named(path))
}

pub fn write(path: &Path, content: impl AsRef<[u8]>) -> io::Result<()> {
    fs::write(path, content).map_err(named(path))
}

/// Puts the name of the file into an error.
pub fn named(path: &Path) -> impl FnOnce(io::Error) -> io::Error {
    let name = path.display().to_string();
    move |error| io::Error::new(error.kind(), format!("{name}: {error}"))
}

#[cfg(test)]
mod tests {
    use super::*;

    #[test]
    fn every_error_names_its_file() {
        let missing = Path::new("no folder/no file");
        let errors = [
            open(missing).err(),
            create(missing).err(),
            read(missing).err(),
            write(missing, b"").err(),
        ];
        for error in errors {
            let error = error.expect("the folder is missing");
            assert_eq!(error.kind(), io::ErrorKind::NotFound);
            assert!(
                error.to_string().starts_with("no folder/no file: "),
                "{error}"
            );
        }
    }
}
