//! Links the archive of the port's proved test entries.

#[path = "../archive.rs"]
mod archive;

fn main() {
    archive::link("leaf_exports");
}
