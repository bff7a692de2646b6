// Included by the build scripts of programs that link a library made by `tools/staticlib`.

use std::path::Path;

/// Links `target/staticlib/lib{name}.a` of the repository. Builds anew whenever the library
/// changes.
fn link(name: &str) {
    let folder = Path::new(env!("CARGO_MANIFEST_DIR")).join("../../target/staticlib");
    let archive = folder.join(format!("lib{name}.a"));
    println!("cargo::rerun-if-changed=build.rs");
    println!("cargo::rerun-if-changed=../../tests/link.rs");
    println!("cargo::rerun-if-changed={}", archive.display());
    if !archive.is_file() {
        println!("cargo::error=there is no target/staticlib/lib{name}.a: run `tools/staticlib {name}` in the repository first");
        return;
    }
    println!("cargo::rustc-link-search=native={}", folder.display());
    println!("cargo::rustc-link-lib=static={name}");
}
