//! On x86-64, links the codec's static library. Elsewhere the crate `far`
//! stands in for it, and there is nothing to link. The tests are told for which
//! target they are built.

use std::env;
use std::path::PathBuf;
use std::process::exit;

fn main() {
    println!("cargo::rerun-if-changed=build.rs");
    let target = env::var("TARGET").unwrap_or_default();
    println!("cargo::rustc-env=CODEC_TARGET={target}");
    if env::var("CARGO_CFG_TARGET_ARCH").as_deref() != Ok("x86_64") {
        return;
    }
    let here = PathBuf::from(env::var_os("CARGO_MANIFEST_DIR").unwrap_or_default());
    let folder = here.join("../../crates/boundary/out");
    let archive = folder.join("libboundary.a");
    println!("cargo::rerun-if-changed={}", archive.display());
    if !archive.exists() {
        eprintln!("no crates/boundary/out/libboundary.a: run `rt lib` in crates/boundary");
        exit(1);
    }
    println!("cargo::rustc-link-search=native={}", folder.display());
    println!("cargo::rustc-link-lib=static=boundary");
}
