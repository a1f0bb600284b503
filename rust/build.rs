//! Links the static library that `rt lib` makes in the folder crates/weld_dct, or the one in the folder that WELD_DCT_LIB_DIR names.
use std::{env, path::PathBuf, process};

fn main() {
    println!("cargo:rerun-if-env-changed=WELD_DCT_LIB_DIR");
    let manifest = PathBuf::from(env::var_os("CARGO_MANIFEST_DIR").unwrap_or_default());
    let folder =
        manifest.join(env::var_os("WELD_DCT_LIB_DIR").unwrap_or("../crates/weld_dct/out".into()));
    let library = folder.join("libweld_dct.a");
    println!("cargo:rerun-if-changed={}", library.display());
    if !library.is_file() {
        eprintln!("There is no {}.", library.display());
        eprintln!(
            "Make it by `rt lib` in crates/weld_dct, or name its folder in WELD_DCT_LIB_DIR."
        );
        process::exit(1);
    }
    println!("cargo:rustc-link-search=native={}", folder.display());
    println!("cargo:rustc-link-lib=static=weld_dct");
}
