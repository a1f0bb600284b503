//! Links libjpeg-turbo's static archive, where it is installed and has what is timed, and then sets the cfg `libjpeg`.
use std::fs;

const FOLDER: &str = "/usr/lib/x86_64-linux-gnu";
const FUNCTIONS: [&str; 3] = [
    "jpeg_fdct_islow",
    "jsimd_fdct_islow_sse2",
    "jsimd_fdct_islow_avx2",
];

fn main() {
    let archive = format!("{FOLDER}/libjpeg.a");
    println!("cargo:rerun-if-changed={archive}");
    println!("cargo:rustc-check-cfg=cfg(libjpeg)");
    let bytes = fs::read(&archive).unwrap_or_default();
    let has = |name: &str| {
        bytes
            .windows(name.len())
            .any(|part| part == name.as_bytes())
    };
    if FUNCTIONS.into_iter().all(has) {
        println!("cargo:rustc-cfg=libjpeg");
        println!("cargo:rustc-link-arg-bins={archive}");
    }
}
