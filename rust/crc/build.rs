//! Links the proved CRC.
include!("../archive.rs");

fn main() {
    link_archive("crc32_host");
}
