//! Where the target is not x86-64, builds the program `serve` from `serve.c`
//! and the codec's static library, with the clang that the Rattle toolchain
//! brings.

use std::env;
use std::path::{Path, PathBuf};
use std::process::{exit, Command};

fn main() {
    println!("cargo::rerun-if-changed=build.rs");
    if variable("CARGO_CFG_TARGET_ARCH") == "x86_64" {
        return;
    }
    if let Err(message) = build() {
        eprintln!("{message}");
        exit(1);
    }
}

/// Builds `serve` and tells the crate where it is, and the emulator.
fn build() -> Result<(), String> {
    let here = PathBuf::from(variable("CARGO_MANIFEST_DIR"));
    let out = PathBuf::from(variable("OUT_DIR"));
    let include = here.join("../../include");
    let archive = here.join("../../crates/boundary/out/libboundary.a");
    let source = here.join("serve.c");
    for read in [&source, &here.join("freestanding"), &include, &archive] {
        println!("cargo::rerun-if-changed={}", read.display());
    }
    if !archive.exists() {
        let message = "no crates/boundary/out/libboundary.a: run `rt lib` in crates/boundary";
        return Err(message.into());
    }
    let tools = tools()?;
    let (object, serve) = (out.join("serve.o"), out.join("serve"));
    run(Command::new(tools.join("clang"))
        .args(["--target=x86_64-linux-gnu", "-std=c11", "-O2"])
        .args(["-Wall", "-Wextra", "-Werror"])
        .args(["-ffreestanding", "-fno-stack-protector", "-c", "-I"])
        .args([&here.join("freestanding"), Path::new("-I"), &include])
        .args([&source, Path::new("-o"), &object]))?;
    run(Command::new(tools.join("ld.lld"))
        .args(["-static", "-o"])
        .args([&serve, &object, &archive]))?;
    println!("cargo::rustc-env=FAR_SERVE={}", serve.display());
    println!("cargo::rustc-env=FAR_EMULATOR=qemu-x86_64");
    Ok(())
}

/// Where the toolchain keeps its programs; `rt doc` tells a path inside it.
fn tools() -> Result<PathBuf, String> {
    let told = Command::new("rt")
        .arg("doc")
        .output()
        .map_err(|error| format!("rt doc: {error}"))?;
    let guide = String::from_utf8_lossy(&told.stdout);
    let kit = Path::new(guide.trim()).parent();
    kit.map(|kit| kit.join("toolchain/bin"))
        .ok_or(format!("rt doc: no path of a guide in `{guide}`"))
}

fn run(command: &mut Command) -> Result<(), String> {
    match command.status() {
        Ok(status) if status.success() => Ok(()),
        Ok(status) => Err(format!("{command:?}: {status}")),
        Err(error) => Err(format!("{command:?}: {error}")),
    }
}

fn variable(name: &str) -> String {
    env::var(name).unwrap_or_default()
}
