// SPDX-License-Identifier: MIT OR Apache-2.0
//! Chooses the C library: that of the folder `TKCORE_DIR`; or, if `TKCORE_PKG_CONFIG` is set, the
//! one that pkg-config finds; or else the assembler text that the package contains. Of the first
//! two it links the archive if there is one, and otherwise the shared object.

use std::env;
use std::error::Error;
use std::fs;
use std::path::{Path, PathBuf};
use std::process::Command;

/// The versions of the library that have this crate's values and calls.
const WANTED: &str = "0.3.";

fn main() -> Result<(), Box<dyn Error>> {
    println!("cargo:rustc-check-cfg=cfg(tkcore_text)");
    for name in ["TKCORE_DIR", "TKCORE_PKG_CONFIG", "PKG_CONFIG_PATH", "PKG_CONFIG_LIBDIR"] {
        println!("cargo:rerun-if-env-changed={name}");
    }
    let (include, lib) = if let Some(folder) = env::var_os("TKCORE_DIR") {
        let folder = fs::canonicalize(&folder)
            .map_err(|error| format!("TKCORE_DIR, {}: {error}", Path::new(&folder).display()))?;
        (folder.join("include"), folder.join("lib"))
    } else if env::var_os("TKCORE_PKG_CONFIG").is_some() {
        (by_pkg_config("includedir")?, by_pkg_config("libdir")?)
    } else {
        return use_text();
    };
    require_version(&include)?;
    let kind = if lib.join("libtkcore.a").exists() { "static" } else { "dylib" };
    println!("cargo:rerun-if-changed={}", lib.display());
    println!("cargo:rustc-link-search=native={}", lib.display());
    println!("cargo:rustc-link-lib={kind}=tkcore");
    println!("cargo:include={}", include.display());
    Ok(())
}

/// Lets `sys` include the text for the target: the package's, or that of the clone's release/.
fn use_text() -> Result<(), Box<dyn Error>> {
    let machine = env::var("CARGO_CFG_TARGET_ARCH")?;
    let own = PathBuf::from(env::var("CARGO_MANIFEST_DIR")?);
    let texts = [own.join("text").join(&machine), own.join("../../release").join(&machine)]
        .map(|it| it.join("tkcore.s"));
    let text = texts
        .iter()
        .find(|it| it.exists())
        .ok_or_else(|| format!("TKCORE_DIR isn't set, and there is no text for {machine}"))?;
    println!("cargo:rerun-if-changed={}", text.display());
    println!("cargo:rustc-env=TKCORE_TEXT={}", text.display());
    println!("cargo:rustc-cfg=tkcore_text");
    Ok(())
}

/// Returns a variable of tkcore.pc.
fn by_pkg_config(variable: &str) -> Result<PathBuf, Box<dyn Error>> {
    let query = format!("--variable={variable}");
    let found = Command::new("pkg-config").args([&query, "tkcore"]).output();
    match found {
        Ok(output) if output.status.success() => {
            Ok(PathBuf::from(String::from_utf8(output.stdout)?.trim()))
        }
        _ => Err("pkg-config finds no tkcore".into()),
    }
}

/// Fails unless the headers are of a version that this crate declares.
fn require_version(include: &Path) -> Result<(), Box<dyn Error>> {
    let header = include.join("tkcore.h");
    println!("cargo:rerun-if-changed={}", header.display());
    let text =
        fs::read_to_string(&header).map_err(|error| format!("{}: {error}", header.display()))?;
    let version: Vec<&str> = ["MAJOR", "MINOR", "PATCH"]
        .iter()
        .filter_map(|part| {
            let define = format!("#define TKC_VERSION_{part} ");
            text.lines().find_map(|line| line.strip_prefix(&define))
        })
        .collect();
    let found = version.join(".");
    if found.starts_with(WANTED) {
        return Ok(());
    }
    Err(format!("{} is of version {found} instead of {WANTED}x", header.display()).into())
}
