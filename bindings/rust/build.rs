// Where libscullpouch.a is: the folder SCULLPOUCH_LIB, or this crate's own, lib, or the one that pkg-config says.
use std::path::Path;
use std::process::Command;

fn own() -> Option<String> {
    let folder = format!("{}/lib", std::env::var("CARGO_MANIFEST_DIR").ok()?);
    Path::new(&folder).join("libscullpouch.a").exists().then_some(folder)
}

fn said_by_pkg_config() -> Option<String> {
    let said = Command::new("pkg-config").args(["--variable=libdir", "scullpouch"]).output().ok()?;
    let folder = String::from_utf8(said.stdout).ok()?.trim().to_string();
    Some(folder).filter(|folder| said.status.success() && !folder.is_empty())
}

fn main() {
    println!("cargo:rerun-if-env-changed=SCULLPOUCH_LIB");
    println!("cargo:rerun-if-env-changed=PKG_CONFIG_PATH");
    let Some(folder) = std::env::var("SCULLPOUCH_LIB").ok().or_else(own).or_else(said_by_pkg_config) else {
        panic!("libscullpouch.a is not found: run bindings/install PREFIX and set PKG_CONFIG_PATH or SCULLPOUCH_LIB");
    };
    println!("cargo:rerun-if-changed={folder}/libscullpouch.a");
    println!("cargo:rustc-link-search=native={folder}");
    println!("cargo:rustc-link-lib=static=scullpouch");
}
