//! Links the proved library. `rt lib` in crates/desklink writes it; the variable `GUARDDESK_LIBRARY` names
//! another folder that has it.
use std::{env, path::PathBuf};

fn main() {
    println!("cargo:rerun-if-env-changed=GUARDDESK_LIBRARY");
    let folder = match env::var_os("GUARDDESK_LIBRARY") {
        Some(folder) => PathBuf::from(folder),
        None => {
            PathBuf::from(env::var_os("CARGO_MANIFEST_DIR").unwrap()).join("../../crates/desklink/out")
        }
    };
    let library = folder.join("libdesklink.a");
    println!("cargo:rerun-if-changed={}", library.display());
    if !library.is_file() {
        panic!(
            "{} is not there: run `rt lib` in crates/desklink, or set GUARDDESK_LIBRARY to its folder",
            library.display()
        );
    }
    println!("cargo:rustc-link-search=native={}", folder.display());
    println!("cargo:rustc-link-lib=static=desklink");
}
