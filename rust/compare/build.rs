//! Places bonsai's sources, unchanged, into the build folder, and writes the list of its modules.
//!
//! They are looked for in the folder that BONSAI_SRC names, by default ../shared/docs beside the
//! repository, under the names src--bonsai--src--NAME.rs.txt.

use std::path::PathBuf;
use std::process::exit;
use std::{env, fs};

const MODULES: [&str; 8] = ["behavior", "bt", "event", "sequence", "state", "status", "tracer", "when_all"];

fn main() {
    println!("cargo:rerun-if-env-changed=BONSAI_SRC");
    let folder = match env::var_os("BONSAI_SRC") {
        Some(folder) => PathBuf::from(folder),
        None => PathBuf::from(env::var_os("CARGO_MANIFEST_DIR").unwrap_or_default()).join("../../../shared/docs"),
    };
    let out = PathBuf::from(env::var_os("OUT_DIR").unwrap_or_default());
    let mut list = String::new();
    for module in MODULES {
        let from = folder.join(format!("src--bonsai--src--{module}.rs.txt"));
        let to = out.join(format!("{module}.rs"));
        println!("cargo:rerun-if-changed={}", from.display());
        if let Err(error) = fs::copy(&from, &to) {
            eprintln!("bonsai's source {} can't be had ({error}); set BONSAI_SRC to its folder", from.display());
            exit(1);
        }
        // `allow`: without its own features and its own lib.rs not all of it is used.
        list += &format!("#[allow(dead_code, unused_imports)]\n#[path = {to:?}]\nmod {module};\n");
    }
    if let Err(error) = fs::write(out.join("bonsai.rs"), list) {
        eprintln!("{error}");
        exit(1);
    }
}
