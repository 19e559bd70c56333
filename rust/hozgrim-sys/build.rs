//! Links the archive of the port's proved entries.

#[path = "../archive.rs"]
mod archive;

fn main() {
    archive::link("hozgrim");
}
