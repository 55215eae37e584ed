//! Tells cargo where libm17modem.a is: in the folder M17_LIBRARY, beside this crate where tools/library put both, or in target/library of the repository.
use std::{env, path::PathBuf};

fn main() {
    println!("cargo:rerun-if-env-changed=M17_LIBRARY");
    let here = PathBuf::from(env::var_os("CARGO_MANIFEST_DIR").unwrap());
    let folders = match env::var_os("M17_LIBRARY") {
        Some(folder) => vec![PathBuf::from(folder)],
        None => vec![here.join(".."), here.join("../../target/library")],
    };
    let Some(folder) = folders.iter().find(|folder| folder.join("libm17modem.a").is_file()) else {
        panic!("there is no libm17modem.a in {folders:?}: run tools/library first");
    };
    println!("cargo:rerun-if-changed={}", folder.join("libm17modem.a").display());
    println!("cargo:rustc-link-search=native={}", folder.display());
    println!("cargo:rustc-link-lib=static=m17modem");
}
