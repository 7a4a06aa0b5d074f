//! Finds `libucstore.a`: in the folder that `UCSTORE_LIB_DIR` names, or else by pkg-config.
//!
//! With the feature `no-link`, and where docs.rs builds, it looks for nothing.

use std::env;
use std::process::Command;

fn main() {
    for name in [
        "DOCS_RS",
        "UCSTORE_LIB_DIR",
        "PKG_CONFIG",
        "PKG_CONFIG_PATH",
    ] {
        println!("cargo:rerun-if-env-changed={name}");
    }
    let is_set = |name| env::var_os(name).is_some();
    if is_set("CARGO_FEATURE_NO_LINK") || is_set("DOCS_RS") {
        return;
    }
    let folder = env::var("UCSTORE_LIB_DIR").unwrap_or_else(|_| installed_folder());
    println!("cargo:rerun-if-changed={folder}/libucstore.a");
    println!("cargo:rustc-link-search=native={folder}");
    println!("cargo:rustc-link-lib=static=ucstore");
}

/// The folder of the installed library.
fn installed_folder() -> String {
    let program = env::var("PKG_CONFIG").unwrap_or_else(|_| "pkg-config".into());
    let said = Command::new(&program)
        .args(["--variable=libdir", "ucstore"])
        .output();
    match said {
        Ok(said) if said.status.success() => String::from_utf8_lossy(&said.stdout).trim().into(),
        _ => panic!("{program} doesn't find ucstore: set PKG_CONFIG_PATH, or UCSTORE_LIB_DIR to the folder of libucstore.a"),
    }
}
