// Part of the build scripts: links the archive that `.ci/library NAME` wrote. What is missing is a warning: a check and the documentation
// can do without, and the linker refuses the rest.

use std::{env, path::Path};

fn link_archive(name: &str) {
    let folder = Path::new(&variable("CARGO_MANIFEST_DIR")).join("../../target/staticlib");
    archive_lines(name, &folder, &variable("CARGO_CFG_TARGET_ARCH"))
        .iter()
        .for_each(|line| println!("cargo::{line}"));
}

fn variable(name: &str) -> String {
    env::var(name).unwrap_or_default()
}

/// What cargo is told of the archive in this folder, for a program of this processor.
fn archive_lines(name: &str, folder: &Path, processor: &str) -> Vec<String> {
    let archive = folder.join(format!("lib{name}.a"));
    let mut lines = vec![
        format!("rerun-if-changed={}", archive.display()),
        format!("rustc-link-search=native={}", folder.display()),
        format!("rustc-link-lib=static={name}"),
    ];
    if !archive.exists() {
        lines.push(format!(
            "warning=target/staticlib/lib{name}.a is missing: run .ci/library {name}"
        ));
    }
    if processor != "x86_64" {
        lines.push(format!("warning=lib{name}.a holds x86-64 code: build by .ci/host cargo .."));
    }
    lines
}
