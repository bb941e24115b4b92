//! Each example prints what stands beside it.

use std::env;
use std::path::{Path, PathBuf};
use std::process::Command;

/// An example that cargo has built beside this test: a full `cargo test` builds
/// the examples first, `cargo test --test examples` does not.
fn example(name: &str) -> PathBuf {
    let test = env::current_exe().expect("this test's own path");
    let folder = test.ancestors().nth(2).expect("the folder of the build");
    folder.join("examples").join(name)
}

/// Runs a program as cargo runs this test: where its environment names a runner
/// for the target, by that one.
fn command(program: &Path) -> Command {
    let target = env!("CODEC_TARGET").replace('-', "_").to_uppercase();
    let runner = env::var(format!("CARGO_TARGET_{target}_RUNNER")).unwrap_or_default();
    let mut words = runner.split_whitespace();
    let Some(first) = words.next() else {
        return Command::new(program);
    };
    let mut command = Command::new(first);
    command.args(words).arg(program);
    command
}

/// Runs the example `name`, which must print `expected`.
fn prints(name: &str, expected: &str) {
    let path = example(name);
    let ran = command(&path)
        .output()
        .unwrap_or_else(|error| panic!("{}: {error}", path.display()));
    assert!(ran.status.success(), "{ran:?}");
    assert_eq!(String::from_utf8_lossy(&ran.stdout), expected);
}

#[test]
fn area() {
    prints("area", include_str!("../examples/area.stdout"));
}

#[test]
fn carriers() {
    prints("carriers", include_str!("../examples/carriers.stdout"));
}

#[test]
fn charging() {
    prints("charging", include_str!("../examples/charging.stdout"));
}

#[test]
fn order() {
    prints("order", include_str!("../examples/order.stdout"));
}

#[test]
fn profile() {
    prints("profile", include_str!("../examples/profile.stdout"));
}
