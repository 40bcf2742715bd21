//! Finds the archive of the proved evaluator, `liblemboraw.a`: in the folder that LEMBORAW_LIB
//! names, by default where `tools/build archive` writes it.

use std::env;
use std::path::PathBuf;
use std::process::exit;

fn main() {
    let target = |name: &str| env::var(format!("CARGO_CFG_TARGET_{name}")).unwrap_or_default();
    let (machine, system, width) = (target("ARCH"), target("OS"), target("POINTER_WIDTH"));
    if (&*machine, &*system, &*width) != ("x86_64", "linux", "64") {
        eprintln!("lemboraw's archive is for x86-64 Linux, and this build is for {machine} {system}, {width} bits");
        exit(1);
    }
    println!("cargo:rerun-if-env-changed=LEMBORAW_LIB");
    let folder = match env::var_os("LEMBORAW_LIB") {
        Some(folder) => PathBuf::from(folder),
        None => PathBuf::from(env::var_os("CARGO_MANIFEST_DIR").unwrap_or_default()).join("../../target/staticlib"),
    };
    let archive = folder.join("liblemboraw.a");
    if !archive.is_file() {
        eprintln!(
            "{} is not there: run `tools/build archive` at the repository's root, or set LEMBORAW_LIB",
            archive.display()
        );
        exit(1);
    }
    println!("cargo:rerun-if-changed={}", archive.display());
    println!("cargo:rustc-link-search=native={}", folder.display());
    println!("cargo:rustc-link-lib=static=lemboraw");
}
