//! Links libgorvyts.a from the folder that the environment variable GORVYTS_LIB names.

use std::env;
use std::path::PathBuf;
use std::process::exit;

const ARCHIVE: &str = "libgorvyts.a";

fn main() {
    println!("cargo:rerun-if-env-changed=GORVYTS_LIB");
    let Some(folder) = env::var_os("GORVYTS_LIB").map(PathBuf::from) else {
        refuse("GORVYTS_LIB is not set");
    };
    let archive = folder.join(ARCHIVE);
    if !archive.is_file() {
        refuse(&format!("GORVYTS_LIB is `{}`, where there is no {ARCHIVE}", folder.display()));
    }
    let Ok(folder) = folder.canonicalize() else {
        refuse(&format!("GORVYTS_LIB is `{}`, which cannot be entered", folder.display()));
    };
    println!("cargo:rerun-if-changed={}", folder.join(ARCHIVE).display());
    println!("cargo:rustc-link-search=native={}", folder.display());
    println!("cargo:rustc-link-lib=static=gorvyts");
}

fn refuse(what: &str) -> ! {
    eprintln!("{what}. Set it to the whole path of the folder that holds {ARCHIVE};");
    eprintln!("`rt lib` in crates/gorvyts writes it to crates/gorvyts/out.");
    exit(1);
}
