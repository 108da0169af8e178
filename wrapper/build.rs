//! Finds the archive of the library and links it.
//!
//! The archive is libpowerlink_cn.a in the folder that POWERLINK_CN_LIB names; without that
//! variable in build/ (`make lib` puts it there), or where the crate of exports is built, in
//! crates/powerlink_cn/out/.

use std::env;
use std::path::{Path, PathBuf};
use std::process::ExitCode;

const ARCHIVE: &str = "libpowerlink_cn.a";
const VARIABLE: &str = "POWERLINK_CN_LIB";

fn main() -> ExitCode {
    println!("cargo::rerun-if-env-changed={VARIABLE}");
    let folders = folders();
    for folder in &folders {
        println!("cargo::rerun-if-changed={}", folder.join(ARCHIVE).display());
    }
    let Some(folder) = folders.iter().find(|folder| folder.join(ARCHIVE).is_file()) else {
        println!("cargo::error={}", missing(&folders));
        return ExitCode::FAILURE;
    };
    println!("cargo::rustc-link-search=native={}", folder.display());
    println!("cargo::rustc-link-lib=static=powerlink_cn");
    ExitCode::SUCCESS
}

/// Where the archive is looked for, in this order.
fn folders() -> Vec<PathBuf> {
    if let Some(folder) = env::var_os(VARIABLE) {
        return vec![PathBuf::from(folder)];
    }
    let here = env::var_os("CARGO_MANIFEST_DIR")
        .map(PathBuf::from)
        .unwrap_or_default();
    let top = here.parent().unwrap_or(Path::new(".."));
    vec![top.join("build"), top.join("crates/powerlink_cn/out")]
}

fn missing(folders: &[PathBuf]) -> String {
    let looked: Vec<String> = folders
        .iter()
        .map(|folder| folder.display().to_string())
        .collect();
    format!(
        "{ARCHIVE} is not in {}. Make it by `make lib` in the repository, \
         or let {VARIABLE} name the folder that has it.",
        looked.join(" or "),
    )
}
