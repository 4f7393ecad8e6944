//! Finds libkalyubos.a: in the folder that KALYUBOS_LIB_DIR names, or else where pkg-config says. Where DOCS_RS is set, as
//! docs.rs does, none is wanted.

use std::process::{exit, Command};

const NOT_FOUND: &str =
    "libkalyubos.a wasn't found. Install it by `make install`, with PKG_CONFIG_PATH set where \
the prefix isn't a usual one, or let KALYUBOS_LIB_DIR name the folder that it lies in. `cargo doc` wants none where DOCS_RS is set.";

fn main() {
    for name in [
        "DOCS_RS",
        "KALYUBOS_LIB_DIR",
        "PKG_CONFIG",
        "PKG_CONFIG_PATH",
        "PKG_CONFIG_SYSROOT_DIR",
    ] {
        println!("cargo:rerun-if-env-changed={name}");
    }
    if std::env::var_os("DOCS_RS").is_some() {
        return;
    }
    let Some(folder) = std::env::var("KALYUBOS_LIB_DIR")
        .ok()
        .or_else(by_pkg_config)
    else {
        eprintln!("{NOT_FOUND}");
        exit(1);
    };
    println!("cargo:rerun-if-changed={folder}/libkalyubos.a");
    println!("cargo:rustc-link-search=native={folder}");
    println!("cargo:rustc-link-lib=static=kalyubos");
}

/// The folder of the installed library.
fn by_pkg_config() -> Option<String> {
    let tool = std::env::var("PKG_CONFIG").unwrap_or_else(|_| "pkg-config".into());
    let told = Command::new(tool)
        .args(["--variable=libdir", "kalyubos"])
        .output()
        .ok()?;
    let folder = String::from_utf8(told.stdout).ok()?.trim().to_owned();
    (told.status.success() && !folder.is_empty()).then_some(folder)
}
