// For build scripts: links a static library that `bin/build` builds, from the folder that a variable names.

use std::env;
use std::path::Path;

const VARIABLE: &str = "CHARUCO_STATICLIB_DIR";
const DEFAULT: &str = "target/staticlib";

fn link(library: &str) {
    println!("cargo::rerun-if-env-changed={VARIABLE}");
    let named = env::var_os(VARIABLE).unwrap_or_else(|| DEFAULT.into());
    let package = env::var_os("CARGO_MANIFEST_DIR").expect("cargo runs the build script");
    // A relative path counts from the root of the repository, two folders above the package.
    let folder = Path::new(&package).join("../..").join(named);
    let archive = folder.join(format!("lib{library}.a"));
    println!("cargo::rerun-if-changed={}", archive.display());
    if archive.is_file() {
        println!("cargo::rustc-link-search=native={}", folder.display());
        println!("cargo::rustc-link-lib=static={library}");
    } else {
        println!(
            "cargo::error={} is missing: run `bin/build {library}` in the root of the repository, \
             or set {VARIABLE} to the folder that holds it",
            archive.display()
        );
    }
}
