//! Links both archives from the folder in THAWTRUNDLE_LIB, or each from where `rt lib` puts it.
use std::{env, path::PathBuf};

fn main() {
    let own = PathBuf::from(env::var_os("CARGO_MANIFEST_DIR").expect("cargo says where the crate is"));
    println!("cargo:rerun-if-env-changed=THAWTRUNDLE_LIB");
    for name in ["thawtrundle_codes", "thawtrundle"] {
        let folder = match env::var_os("THAWTRUNDLE_LIB") {
            Some(folder) => PathBuf::from(folder),
            None => own.join(format!("../../crates/{name}/out")),
        };
        let archive = folder.join(format!("lib{name}.a"));
        // `cargo check` needs no archive, so that one is missing is only said
        if !archive.is_file() {
            println!("cargo:warning=there is no {}: run `rt lib` in crates/{name} first", archive.display());
        }
        println!("cargo:rerun-if-changed={}", archive.display());
        println!("cargo:rustc-link-search=native={}", folder.display());
        println!("cargo:rustc-link-lib=static={name}");
    }
}
