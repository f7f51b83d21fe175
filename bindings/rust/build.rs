//! Finds the installed library: by AFDX_LIBDIR, the folder of libafdx.a, else by pkg-config.
use std::env;
use std::process::Command;

fn main() {
    println!("cargo:rerun-if-env-changed=AFDX_LIBDIR");
    println!("cargo:rerun-if-env-changed=PKG_CONFIG_PATH");
    let folder = env::var("AFDX_LIBDIR").unwrap_or_else(|_| {
        let mut asked = Command::new("pkg-config");
        let told = asked.args(["--variable=libdir", "afdx >= 2"]).output();
        let told = told.expect("pkg-config can't be run: set AFDX_LIBDIR to the folder of libafdx.a");
        assert!(told.status.success(), "pkg-config finds no afdx: set AFDX_LIBDIR or PKG_CONFIG_PATH");
        String::from_utf8_lossy(&told.stdout).trim().to_owned()
    });
    println!("cargo:rustc-link-search=native={folder}");
    println!("cargo:rustc-link-lib=static=afdx");
}
