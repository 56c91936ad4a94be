//! For build scripts: makes upstream files modules of the crate that is being built, without a change to their text.
//!
//! A crate root cannot name a folder that is known only when it is built, so each file gets a line of its own in
//! `OUT_DIR`, and the root includes that line where the module belongs:
//! `include!(concat!(env!("OUT_DIR"), "/matcher.rs"));`

use std::path::{Path, PathBuf};
use std::{env, fs};

const VARIABLE: &str = "CALIB_TARGETS_SRC";
const DEFAULT: &str = "../../shared/docs/src";

/// Features that the upstream text tests. All stay off, unless a crate here turns one on.
const UPSTREAM_FEATURES: &str = r#""diagnostics", "schemars", "tracing""#;

/// Declares each file of a folder below the upstream one as the module that has its name.
pub fn declare(folder: &str, files: &[&str]) {
    begin();
    for file in files {
        if let Some(file) = found(&upstream_folder().join(folder).join(file)) {
            declare_one(&file, &file);
        }
    }
}

/// Declares the `mod.rs` of an upstream folder as the module that has its name. A file of the oracle is among its children,
/// which come from the same folder as `mod.rs`; so the files, and the oracle's under their name, are copied into one.
pub fn declare_folder(folder: &str, files: &[&str], ours: &str) {
    begin();
    let upstream = upstream_folder().join(folder);
    let copies = folder_from_cargo("OUT_DIR").join(upstream.file_name().expect(NAMED));
    fs::create_dir_all(&copies).expect(WRITABLE);
    let theirs = files.iter().map(|file| upstream.join(file));
    for file in theirs.chain([folder_from_cargo("CARGO_MANIFEST_DIR").join(ours)]) {
        let Some(file) = found(&file) else { return };
        // Not `fs::copy`, by which a copy that may only be read could not be written again.
        let text = fs::read(&file).expect("the file can be read");
        fs::write(copies.join(file.file_name().expect(NAMED)), text).expect(WRITABLE);
    }
    declare_one(&copies, &copies.join("mod.rs"));
}

fn begin() {
    println!("cargo::rerun-if-env-changed={VARIABLE}");
    println!("cargo::rustc-check-cfg=cfg(feature, values({UPSTREAM_FEATURES}))");
}

/// A relative path counts from the folder of the workspace, two above that of the crate being built.
fn upstream_folder() -> PathBuf {
    let named = env::var_os(VARIABLE).unwrap_or_else(|| DEFAULT.into());
    folder_from_cargo("CARGO_MANIFEST_DIR")
        .join("../..")
        .join(named)
}

fn folder_from_cargo(variable: &str) -> PathBuf {
    PathBuf::from(env::var_os(variable).expect("cargo runs the build script"))
}

const WRITABLE: &str = "cargo's folder can be written";
const NAMED: &str = "a file or a folder has a name";

/// The whole path of a file that the crate is built from.
fn found(file: &Path) -> Option<PathBuf> {
    let Ok(file) = file.canonicalize() else {
        println!(
            "cargo::error={} is missing: set {VARIABLE} to the folder that holds upstream's crates/",
            file.display()
        );
        return None;
    };
    println!("cargo::rerun-if-changed={}", file.display());
    Some(file)
}

/// The text may have more than is used here.
fn declare_one(named: &Path, file: &Path) {
    let module = named.file_stem().expect(NAMED).display();
    let line =
        format!("#[allow(dead_code, unused_imports)]\n#[path = {file:?}]\npub mod {module};\n");
    let declaration = folder_from_cargo("OUT_DIR").join(format!("{module}.rs"));
    fs::write(declaration, line).expect(WRITABLE);
}
