//! Links the static library that PLCN_LIB names.

use std::path::Path;

fn main() {
    println!("cargo:rerun-if-env-changed=PLCN_LIB");
    let archive = std::env::var("PLCN_LIB").expect("PLCN_LIB names the archive (bench/build.sh)");
    println!("cargo:rerun-if-changed={archive}");
    let folder = Path::new(&archive)
        .parent()
        .expect("the archive stands in a folder");
    println!("cargo:rustc-link-search=native={}", folder.display());
    println!("cargo:rustc-link-lib=static=powerlink_cn");
    println!("cargo:rustc-env=PLCN_ARCHIVE={archive}");
}
