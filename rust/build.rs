//! Finds libelderflute.a: in the folder that ELDERFLUTE_LIB_DIR names, in the prefix that this package was installed to (PREFIX/share/elderflute/rust),
//! in the checkout that this package stands in (target/staticlib), or by pkg-config.

use std::path::{Path, PathBuf};
use std::process::Command;

fn main() {
    println!("cargo:rerun-if-env-changed=ELDERFLUTE_LIB_DIR");
    println!("cargo:rerun-if-env-changed=PKG_CONFIG_PATH");
    let Some(folder) = folder() else {
        eprintln!("libelderflute.a was not found: set ELDERFLUTE_LIB_DIR to its folder, or PKG_CONFIG_PATH so that pkg-config finds elderflute.pc");
        std::process::exit(1);
    };
    println!("cargo:rerun-if-changed={}", folder.join("libelderflute.a").display());
    println!("cargo:rustc-link-search=native={}", folder.display());
    println!("cargo:rustc-link-lib=static=elderflute");
}

fn folder() -> Option<PathBuf> {
    if let Some(named) = std::env::var_os("ELDERFLUTE_LIB_DIR") {
        return Some(PathBuf::from(named));
    }
    let package = PathBuf::from(std::env::var_os("CARGO_MANIFEST_DIR")?);
    let near = ["../../../lib", "../target/staticlib"].map(|folder| package.join(folder));
    near.into_iter().find(|folder| has_library(folder)).or_else(by_pkg_config)
}

fn by_pkg_config() -> Option<PathBuf> {
    let output = Command::new("pkg-config").args(["--variable=libdir", "elderflute"]).output().ok()?;
    let folder = PathBuf::from(String::from_utf8(output.stdout).ok()?.trim_end());
    has_library(&folder).then_some(folder)
}

fn has_library(folder: &Path) -> bool {
    folder.join("libelderflute.a").is_file()
}
