//! Links the proved library.
include!("../archive.rs");

fn main() {
    link_archive("monitor");
}
