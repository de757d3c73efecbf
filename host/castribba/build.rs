//! Tells the linker where libcastribba.a is, with the feature `loader` libloader.a too, and with `salvage`
//! libsalvage.a: in the folder that CASTRIBBA_LIB_DIR names. CASTRIBBA_LOADER_DIR and CASTRIBBA_SALVAGE_DIR
//! may name others for these.

use std::env;
use std::path::Path;

const LIB: &str = "CASTRIBBA_LIB_DIR";

/// The folder that a variable names, where it has the archive; else one line that says what to do.
fn folder(variable: &str, archive: &str) -> Result<String, String> {
    let named = env::var(variable).map_err(|_| {
        format!("{variable} is not set: name the folder of {archive}, which host/archive prints")
    })?;
    let path = Path::new(&named);
    if path.is_relative() {
        return Err(format!("{variable} must be an absolute path, and is '{named}'"));
    }
    if !path.join(archive).is_file() {
        return Err(format!("{variable} names '{named}', which has no {archive}"));
    }
    Ok(named)
}

/// Has the archive linked, or says why it cannot be.
fn link(variable: &str, name: &str) -> Result<(), String> {
    let archive = format!("lib{name}.a");
    let folder = folder(variable, &archive)?;
    println!("cargo::rustc-link-search=native={folder}");
    println!("cargo::rustc-link-lib=static={name}");
    println!("cargo::rerun-if-changed={folder}/{archive}");
    Ok(())
}

/// Has a feature's archive linked, from a folder of its own or from the first one's.
fn link_where_asked(feature: &str, own: &str, name: &str) -> Result<(), String> {
    println!("cargo::rerun-if-env-changed={own}");
    if env::var_os(feature).is_none() {
        return Ok(());
    }
    link(if env::var_os(own).is_some() { own } else { LIB }, name)
}

fn link_all() -> Result<(), String> {
    println!("cargo::rerun-if-env-changed={LIB}");
    link(LIB, "castribba")?;
    link_where_asked("CARGO_FEATURE_LOADER", "CASTRIBBA_LOADER_DIR", "loader")?;
    link_where_asked("CARGO_FEATURE_SALVAGE", "CASTRIBBA_SALVAGE_DIR", "salvage")
}

fn main() {
    if let Err(line) = link_all() {
        println!("cargo::error={line}");
    }
}
