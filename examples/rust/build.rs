//! Links libbaliseplan.a from the first of these places that has it: the folder that BALISEPLAN_LIB names, out/ of the
//! repository or lib/ of the archive that this crate stands in, and where `pkg-config` finds it installed.
//!
//! A crate that depends on this one gets the folder as DEP_BALISEPLAN_LIB.

use std::env;
use std::path::PathBuf;
use std::process::Command;

const ARCHIVE: &str = "libbaliseplan.a";

fn installed() -> Option<PathBuf> {
    let asked = Command::new(env::var_os("PKG_CONFIG").unwrap_or_else(|| "pkg-config".into()))
        .args(["--variable=libdir", "baliseplan"])
        .output()
        .ok()?;
    let folder = String::from_utf8(asked.stdout).ok()?;
    Some(PathBuf::from(folder.trim())).filter(|_| asked.status.success())
}

fn main() {
    for name in ["BALISEPLAN_LIB", "PKG_CONFIG", "PKG_CONFIG_PATH"] {
        println!("cargo:rerun-if-env-changed={name}");
    }
    let here = PathBuf::from(env::var_os("CARGO_MANIFEST_DIR").expect("cargo sets it"));
    let mut built = ["../../out", "../../lib"]
        .map(|folder| here.join(folder))
        .into_iter();
    let folder = match env::var_os("BALISEPLAN_LIB").map(PathBuf::from) {
        Some(named) => Some(named),
        None => built
            .find(|folder| folder.join(ARCHIVE).exists())
            .or_else(installed),
    };
    let folder = folder.filter(|folder| folder.join(ARCHIVE).exists()).unwrap_or_else(|| {
        panic!("there is no {ARCHIVE}: set BALISEPLAN_LIB to its folder, or install it with baliseplan.pc")
    });
    println!("cargo:rerun-if-changed={}", folder.join(ARCHIVE).display());
    println!("cargo:rustc-link-search=native={}", folder.display());
    println!("cargo:rustc-link-lib=static=baliseplan");
    println!("cargo:lib={}", folder.display());
}
