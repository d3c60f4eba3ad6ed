//! Finds the library, and tells the linker where it is. The first of these that is there is taken:
//!
//! 1. `TROWELHEATH_PREFIX`: the prefix that `bindings/install.sh` installed to.
//! 2. `TROWELHEATH_LIB` and `TROWELHEATH_HEAP`: the folders of `libgrb_c.a` and `liblibc_c.a`, as they were built.
//! 3. The prefix that this crate was installed to along with the library.
//! 4. What pkg-config knows as `trowelheath`.

use std::env;
use std::fs;
use std::path::{Path, PathBuf};
use std::process::{exit, Command};

/// The library as it is installed, with the heap in it.
const INSTALLED: &str = "libtrowelheath.a";

/// The library and its heap as they are built.
const PARTS: [(&str, &str); 2] = [
    ("TROWELHEATH_LIB", "libgrb_c.a"),
    ("TROWELHEATH_HEAP", "liblibc_c.a"),
];

/// The value of an environment variable. Where it changes, this program runs again.
fn variable(name: &str) -> Option<PathBuf> {
    println!("cargo:rerun-if-env-changed={name}");
    env::var_os(name).map(PathBuf::from)
}

/// The whole path of a folder that has the file. `from` says where the folder is named.
fn folder_of(folder: &Path, file: &str, from: &str) -> Result<PathBuf, String> {
    if !folder.join(file).is_file() {
        return Err(format!(
            "{from} leads to {}, and no {file} is there",
            folder.display()
        ));
    }
    folder
        .canonicalize()
        .map_err(|error| format!("{from} leads to {}: {error}", folder.display()))
}

/// That the installed library has the first number of this crate's version.
fn is_of_this_version(folder: &Path) -> Result<(), String> {
    let path = folder.join("pkgconfig/trowelheath.pc");
    let text = fs::read_to_string(&path).map_err(|error| format!("{}: {error}", path.display()))?;
    let theirs = text
        .lines()
        .find_map(|line| line.strip_prefix("Version:"))
        .map_or("none", str::trim);
    let ours = env!("CARGO_PKG_VERSION");
    if theirs.split('.').next() == ours.split('.').next() {
        return Ok(());
    }
    Err(format!(
        "the crate has the version {ours}, and the library in {} {theirs}",
        folder.display()
    ))
}

/// Links the installed library of this folder.
fn link_installed(folder: &Path, from: &str) -> Result<(), String> {
    let folder = folder_of(folder, INSTALLED, from)?;
    is_of_this_version(&folder)?;
    println!("cargo:rustc-link-search=native={}", folder.display());
    println!(
        "cargo:rerun-if-changed={}",
        folder.join(INSTALLED).display()
    );
    println!("cargo:rustc-cfg=trowelheath_installed");
    Ok(())
}

/// Links the library and its heap as they are built.
fn link_parts() -> Result<(), String> {
    for (name, file) in PARTS {
        let Some(folder) = variable(name) else {
            return Err(format!("{name} is not set; give it the folder of {file}"));
        };
        let folder = folder_of(&folder, file, name)?;
        println!("cargo:rustc-link-search=native={}", folder.display());
        println!("cargo:rerun-if-changed={}", folder.join(file).display());
    }
    Ok(())
}

/// The folder of the library that pkg-config knows.
fn folder_of_pkg_config() -> Option<PathBuf> {
    variable("PKG_CONFIG_PATH");
    let asked = Command::new("pkg-config")
        .args(["--variable=libdir", "trowelheath"])
        .output()
        .ok()?;
    let folder = String::from_utf8(asked.stdout).ok()?;
    (asked.status.success() && !folder.trim().is_empty()).then(|| PathBuf::from(folder.trim()))
}

fn link() -> Result<(), String> {
    if let Some(prefix) = variable("TROWELHEATH_PREFIX") {
        return link_installed(&prefix.join("lib"), "TROWELHEATH_PREFIX");
    }
    if PARTS.iter().any(|(name, _)| variable(name).is_some()) {
        return link_parts();
    }
    let along = Path::new(env!("CARGO_MANIFEST_DIR")).join("../../../lib");
    if along.join(INSTALLED).is_file() {
        return link_installed(&along, "the folder of this crate");
    }
    match folder_of_pkg_config() {
        Some(folder) => link_installed(&folder, "pkg-config"),
        None => Err(
            "the library was not found. Install it by bindings/install.sh, and give TROWELHEATH_PREFIX its prefix".to_string(),
        ),
    }
}

fn main() {
    println!("cargo:rustc-check-cfg=cfg(trowelheath_installed)");
    println!("cargo:rerun-if-changed=build.rs");
    if let Err(fault) = link() {
        eprintln!("trowelheath: {fault}");
        exit(1);
    }
}
