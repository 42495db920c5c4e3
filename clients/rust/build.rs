//! Finds libbt_c.a: in the folder that BETABLE_LIBRARY names, or else in out/ of the repository or in the folder that pkg-config reports.

use std::env::{var, var_os};
use std::path::{Path, PathBuf};
use std::process::Command;

const LIBRARY: &str = "libbt_c.a";

fn folder_of_pkg_config() -> Option<PathBuf> {
    let told = Command::new("pkg-config").args(["--variable=libdir", "betable"]).output().ok()?;
    Some(PathBuf::from(String::from_utf8(told.stdout).ok()?.trim()))
}

fn main() {
    println!("cargo:rerun-if-env-changed=BETABLE_LIBRARY");
    println!("cargo:rerun-if-env-changed=PKG_CONFIG_PATH");
    let repository = Path::new(&var("CARGO_MANIFEST_DIR").unwrap()).join("../../out");
    let folders = match var_os("BETABLE_LIBRARY") {
        Some(folder) => vec![PathBuf::from(folder)],
        None => [Some(repository), folder_of_pkg_config()].into_iter().flatten().collect(),
    };
    match folders.iter().find(|folder| folder.join(LIBRARY).is_file()) {
        Some(folder) => println!("cargo:rustc-link-search=native={}", folder.display()),
        None => panic!("{LIBRARY} is not in {folders:?}: BETABLE_LIBRARY names the folder that has it"),
    }
}
