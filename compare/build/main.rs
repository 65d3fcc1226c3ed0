//! Links the proved library and transforms the original source.
//! Without either the build succeeds, and the commands that need it say so.

mod original;

use std::{env, path::PathBuf};

/// The published files, unless `JORD_SRC` names another folder.
const PUBLISHED: &str = "../../shared/docs/src";

fn main() {
    let here = PathBuf::from(variable("CARGO_MANIFEST_DIR"));
    link(here.join("../crates/exports/out"));
    let source = env::var_os("JORD_SRC").map_or_else(|| here.join(PUBLISHED), PathBuf::from);
    println!("cargo::rerun-if-env-changed=JORD_SRC");
    println!("cargo::rerun-if-changed={}", source.display());
    println!("cargo::rustc-check-cfg=cfg(original)");
    println!("cargo::rustc-check-cfg=cfg(feature, values({}))", original::FEATURES);
    if source.is_dir() {
        original::transform(&source, &PathBuf::from(variable("OUT_DIR")).join("jord"));
        println!("cargo::rustc-cfg=original");
    }
}

fn link(folder: PathBuf) {
    let archive = folder.join("libexports.a");
    println!("cargo::rerun-if-changed={}", archive.display());
    println!("cargo::rustc-check-cfg=cfg(linked)");
    if archive.exists() {
        println!("cargo::rustc-cfg=linked");
        println!("cargo::rustc-link-search=native={}", folder.display());
        println!("cargo::rustc-link-lib=static=exports");
    }
}

fn variable(name: &str) -> String {
    env::var(name).unwrap_or_else(|_| panic!("cargo sets {name}"))
}
