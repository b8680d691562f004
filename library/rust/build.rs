//! Says where libscf is: in the folder that the environment's SCF_LIB_DIR names, or else pkg-config.

use std::{env, process};

fn main() {
    for name in ["SCF_LIB_DIR", "PKG_CONFIG", "PKG_CONFIG_PATH"] {
        println!("cargo:rerun-if-env-changed={name}");
    }
    let folder = env::var("SCF_LIB_DIR").ok().or_else(folder_of_pkg_config).unwrap_or_else(|| {
        eprintln!("scf: pkg-config doesn't find libscf: install it, or set SCF_LIB_DIR to the folder of libscf.a");
        process::exit(1)
    });
    println!("cargo:rustc-link-search=native={folder}");
    let kind = if env::var_os("CARGO_FEATURE_DYNAMIC").is_some() { "dylib" } else { "static" };
    println!("cargo:rustc-link-lib={kind}=scf");
}

fn folder_of_pkg_config() -> Option<String> {
    let program = env::var_os("PKG_CONFIG").unwrap_or_else(|| "pkg-config".into());
    let output = process::Command::new(program).args(["--variable=libdir", "scf"]).output().ok()?;
    let folder = String::from_utf8(output.stdout).ok()?.trim().to_string();
    (output.status.success() && !folder.is_empty()).then_some(folder)
}
