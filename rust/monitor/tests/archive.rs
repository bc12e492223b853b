//! What the build scripts tell cargo of an archive: what is missing is no error, since
//! a check and the documentation can do without.

include!("../../archive.rs");

const LINK: &str = "rustc-link-lib=static=monitor";

/// The warnings among the lines.
fn warnings(folder: &Path, processor: &str) -> Vec<String> {
    let lines = archive_lines("monitor", folder, processor);
    assert!(lines.iter().any(|line| line == LINK), "{lines:?}");
    assert!(lines.iter().all(|line| !line.starts_with("error")), "{lines:?}");
    lines.iter().filter_map(|line| line.strip_prefix("warning=").map(str::to_string)).collect()
}

#[test]
fn a_missing_archive_is_a_warning() {
    let (missing, other) = (
        "target/staticlib/libmonitor.a is missing: run .ci/library monitor",
        "libmonitor.a holds x86-64 code: build by .ci/host cargo ..",
    );
    let nowhere = Path::new("no/such/folder");
    assert_eq!(warnings(nowhere, "x86_64"), [missing]);
    assert_eq!(warnings(nowhere, "aarch64"), [missing, other]);
    let here = Path::new(env!("CARGO_MANIFEST_DIR")).join("../../target/staticlib");
    assert_eq!(warnings(&here, "x86_64"), [""; 0]);
    assert_eq!(warnings(&here, "aarch64"), [other]);
}

/// The rest of the build script: it prints those lines.
#[test]
fn all_lines_are_for_cargo() {
    assert!(variable("CARGO_MANIFEST_DIR").ends_with("monitor"));
    link_archive("monitor");
}
