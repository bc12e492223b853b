//! Links the proved hash.
include!("../archive.rs");

fn main() {
    link_archive("sha256_host");
}
