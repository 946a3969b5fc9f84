//! The wrapper works where there is neither std nor libc: `rust/bare` is built, and run.

use std::path::Path;
use std::process::Command;

#[test]
fn a_program_without_std_decodes() {
    let manifest = concat!(env!("CARGO_MANIFEST_DIR"), "/../bare/Cargo.toml");
    let target = env!("CARGO_TARGET_TMPDIR");
    let build = [
        "build",
        "--release",
        "--offline",
        "--quiet",
        "--manifest-path",
        manifest,
    ];
    let built = Command::new(env!("CARGO"))
        .args(build)
        .args(["--target-dir", target])
        .status();
    assert!(built.expect("cargo runs").success(), "bare is not built");
    // Where another target is asked for, cargo puts a folder of its name between.
    let asked = std::env::var("CARGO_BUILD_TARGET").unwrap_or_default();
    let program = Path::new(target).join(asked).join("release/bare");
    let ended = Command::new(program).status().expect("bare runs");
    assert_eq!(ended.code(), Some(0), "the number of the first wrong answer");
}
