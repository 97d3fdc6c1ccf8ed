//! Links libciderglen.a, which is in the folder that CIDERGLEN_LIB_DIR names, or else in the one that pkg-config does, or else in
//! /usr/local/lib.
use std::env;
use std::process::Command;

fn of_pkg_config() -> Option<String> {
    let found = Command::new("pkg-config")
        .args(["--variable=libdir", "ciderglen"])
        .output()
        .ok()?;
    let folder = String::from_utf8(found.stdout).ok()?.trim().to_string();
    (!folder.is_empty()).then_some(folder)
}

fn main() {
    let folder = env::var("CIDERGLEN_LIB_DIR")
        .ok()
        .or_else(of_pkg_config)
        .unwrap_or_else(|| "/usr/local/lib".to_string());
    println!("cargo:rerun-if-env-changed=CIDERGLEN_LIB_DIR");
    println!("cargo:rerun-if-changed=build.rs");
    println!("cargo:rerun-if-changed={folder}/libciderglen.a");
    println!("cargo:rustc-link-search=native={folder}");
    println!("cargo:rustc-link-lib=static=ciderglen");
}
