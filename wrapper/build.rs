// Says where libgelruptai.a is: in target/staticlib of this repository, where wrapper/test puts it, or in the folder that
// GELRUPTAI_LIB names.
use std::env;
use std::path::PathBuf;

fn main() {
    println!("cargo:rerun-if-env-changed=GELRUPTAI_LIB");
    let arch = env::var("CARGO_CFG_TARGET_ARCH").unwrap_or_default();
    let os = env::var("CARGO_CFG_TARGET_OS").unwrap_or_default();
    if arch != "x86_64" || os != "linux" {
        panic!("libgelruptai.a links into programs for Linux on x86-64 alone, and this one is for {os} on {arch}");
    }
    let here = PathBuf::from(env::var("CARGO_MANIFEST_DIR").expect("cargo sets it"));
    let folder = env::var_os("GELRUPTAI_LIB").map_or(here.join("../target/staticlib"), PathBuf::from);
    let library = folder.join("libgelruptai.a");
    if !library.is_file() {
        panic!("there is no {}: run wrapper/test first", library.display());
    }
    println!("cargo:rerun-if-changed={}", library.display());
    println!("cargo:rustc-link-search=native={}", folder.display());
    println!("cargo:rustc-link-lib=static=gelruptai");
}
