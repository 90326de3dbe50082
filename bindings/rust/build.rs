//! Finds the library, or with the feature `kernel` that for kernels: in the folder that EEVDF_LIB_DIR names, or else by pkg-config.

use std::env;
use std::path::Path;
use std::process::Command;

fn main() {
    println!("cargo:rerun-if-env-changed=EEVDF_LIB_DIR");
    println!("cargo:rerun-if-env-changed=PKG_CONFIG_PATH");
    tell_of_error();
    let name = if has_feature("KERNEL") { "eevdf_kernel" } else { "eevdf" };
    let folder = env::var("EEVDF_LIB_DIR").unwrap_or_else(|_| asked_of_pkg_config(name));
    if Path::new(&folder).join(format!("lib{name}.a")).exists() {
        println!("cargo:rustc-link-search=native={folder}");
    } else {
        tell_of_missing(name);
    }
    link(&folder, name);
    // the names that the library asks memory by; the crate makes no call that does
    let memory = match (has_feature("KERNEL"), has_feature("MALLOC")) {
        (true, _) => "eevdf_kernel_no_memory",
        (false, true) => "eevdf_malloc",
        (false, false) => "eevdf_no_memory",
    };
    link(&folder, memory);
}

fn has_feature(name: &str) -> bool {
    env::var_os(format!("CARGO_FEATURE_{name}")).is_some()
}

/// Links an archive, and builds the crate anew where it has changed.
fn link(folder: &str, name: &str) {
    println!("cargo:rustc-link-lib=static={name}");
    println!("cargo:rerun-if-changed={folder}/lib{name}.a");
}

/// `core::error::Error` is there from Rust 1.81 on.
fn tell_of_error() {
    let compiler = env::var("RUSTC").unwrap_or_else(|_| "rustc".to_string());
    let said = Command::new(compiler).arg("--version").output().map(|said| said.stdout).unwrap_or_default();
    let minor = String::from_utf8_lossy(&said).split('.').nth(1).and_then(|minor| minor.parse::<u32>().ok());
    if minor.map_or(false, |minor| minor >= 81) {
        println!("cargo:rustc-check-cfg=cfg(has_core_error)");
        println!("cargo:rustc-cfg=has_core_error");
    }
}

/// Where pkg-config knows the library, or nothing.
fn asked_of_pkg_config(name: &str) -> String {
    let asked = Command::new("pkg-config").args(["--variable=libdir", name]).output();
    let said = asked.ok().filter(|said| said.status.success()).map(|said| said.stdout).unwrap_or_default();
    String::from_utf8_lossy(&said).trim().to_string()
}

/// No error, since `cargo doc` and `cargo check` need no library. Where one is needed cargo shows this beside the error of rustc.
fn tell_of_missing(name: &str) {
    let option = if name == "eevdf_kernel" { "--kernel " } else { "" };
    println!(
        "cargo:warning=there is no lib{name}.a. In eevdf's repository './build eevdf_c' makes it and './install {option}PREFIX' puts it into \
         PREFIX/lib: set EEVDF_LIB_DIR to that folder, by an absolute path, or let pkg-config find {name}.pc"
    );
}
