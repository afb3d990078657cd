//! Links `libauthorization_server.a` and the digest by itself, `libdigest_probe.a`, by default from the project's
//! `target/staticlib`. With the feature `former` it also links the decoding probe of this tree, from the same folder, and
//! that of a former commit, by default from `target/former`.

use std::env;
use std::path::{Path, PathBuf};

const ARCHIVES: &str = "POPLARCHIME_ARCHIVE_DIR";
const FORMER: &str = "POPLARCHIME_FORMER_DIR";

fn main() {
    let present = folder(ARCHIVES, "../target/staticlib");
    link(&present, "authorization_server", ARCHIVES, "tools/archive authorization_server");
    link(&present, "digest_probe", ARCHIVES, "tools/archive digest_probe");
    if env::var_os("CARGO_FEATURE_FORMER").is_some() {
        link(&present, "decoding_probe", ARCHIVES, "tools/archive decoding_probe");
        link(&folder(FORMER, "../target/former"), "former_decoding_probe", FORMER, "host/former COMMIT");
    }
}

/// The folder that the variable names, or the usual one. Both may be relative to this package.
fn folder(variable: &str, usual: &str) -> PathBuf {
    println!("cargo:rerun-if-env-changed={variable}");
    let package = PathBuf::from(env::var_os("CARGO_MANIFEST_DIR").expect("set by cargo"));
    package.join(env::var_os(variable).unwrap_or(usual.into()))
}

/// Links an archive, which the command, run in the project's root, makes.
fn link(folder: &Path, name: &str, variable: &str, command: &str) {
    let archive = folder.join(format!("lib{name}.a"));
    println!("cargo:rerun-if-changed={}", archive.display());
    assert!(
        archive.is_file(),
        "{} is missing: run `{command}` in the project's root, or name its folder in {variable}",
        archive.display()
    );
    println!("cargo:rustc-link-search=native={}", folder.display());
    println!("cargo:rustc-link-lib=static={name}");
}
