//! Finds the archive `libvbtf.a`: in the folder `VBTF_LIB_DIR`, or by `pkg-config`.

use std::env;
use std::path::Path;
use std::process::Command;

const MISSING: &str = "
`libvbtf.a` is in neither the folder VBTF_LIB_DIR nor the one that `pkg-config` names. At the top of the repository, run

    bindings/install ~/.local
    export PKG_CONFIG_PATH=~/.local/lib/pkgconfig

or, to use the archive from a folder,

    bindings/archive FOLDER
    export VBTF_LIB_DIR=FOLDER
";

/// The folder of the archive by `pkg-config`.
fn installed() -> Option<String> {
    let found = Command::new("pkg-config").args(["--variable=libdir", "vbtf"]).output().ok()?;
    let dir = String::from_utf8(found.stdout).ok()?.trim().to_string();
    (found.status.success() && !dir.is_empty()).then_some(dir)
}

fn main() {
    println!("cargo:rerun-if-env-changed=VBTF_LIB_DIR");
    println!("cargo:rerun-if-env-changed=PKG_CONFIG_PATH");
    let dir = env::var("VBTF_LIB_DIR").ok().or_else(installed);
    match dir.filter(|dir| Path::new(dir).join("libvbtf.a").exists()) {
        Some(dir) => {
            println!("cargo:rerun-if-changed={dir}/libvbtf.a");
            println!("cargo:rustc-link-search=native={dir}");
            println!("cargo:rustc-link-lib=static=vbtf");
        }
        None => {
            eprintln!("{MISSING}");
            std::process::exit(1);
        }
    }
}
