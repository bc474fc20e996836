//! Links `libswitchbr.a`: that of $SWITCHBR_LIB_DIR, of the repository (c/out), or an installed one that pkg-config knows.
use std::env::var;
use std::path::Path;
use std::process::Command;

fn main() {
    let near = format!("{}/../c/out", var("CARGO_MANIFEST_DIR").unwrap());
    println!("cargo:rerun-if-env-changed=SWITCHBR_LIB_DIR");
    println!("cargo:rerun-if-changed={near}/libswitchbr.a");
    let has_near = Path::new(&near).join("libswitchbr.a").exists();
    let folder = var("SWITCHBR_LIB_DIR").ok().or_else(|| if has_near { None } else { installed() }).unwrap_or(near);
    println!("cargo:rerun-if-changed={folder}/libswitchbr.a");
    println!("cargo:rustc-link-search=native={folder}");
    println!("cargo:rustc-link-lib=static=switchbr");
}

/// The folder of the library that `make -C c install` put in.
fn installed() -> Option<String> {
    println!("cargo:rerun-if-env-changed=PKG_CONFIG_PATH");
    let told = Command::new("pkg-config").args(["--variable=libdir", "switchbr"]).output().ok()?;
    let folder = String::from_utf8(told.stdout).ok()?.trim().to_owned();
    (told.status.success() && !folder.is_empty()).then_some(folder)
}
