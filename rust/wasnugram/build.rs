//! Links the proved archive, and names it where it is missing. A target that passes numbers in another way than the
//! archive does is refused, since its calls would be answered wrongly.

use std::env;
use std::path::{Path, PathBuf};

fn main() {
    println!("cargo::rerun-if-env-changed=WASNUGRAM_STATICLIB");
    let folder = folder();
    let archive = folder.join("libwasnugram.a");
    println!("cargo::rerun-if-changed={}", archive.display());
    if !passes_numbers_alike() {
        let target = variable("TARGET");
        println!("cargo::error=the archive is for x86-64 with SSE2 and System V's calls, and {target} is not");
    } else if archive.is_file() {
        println!("cargo::rustc-link-search=native={}", folder.display());
        println!("cargo::rustc-link-lib=static=wasnugram");
    } else {
        println!("cargo::error=the proved archive is missing: {}", archive.display());
        println!("cargo::error=`c/archive` in the repository makes it; WASNUGRAM_STATICLIB names another folder");
    }
}

/// The repository's target/staticlib, unless `WASNUGRAM_STATICLIB` names another folder.
fn folder() -> PathBuf {
    match env::var_os("WASNUGRAM_STATICLIB") {
        Some(folder) => PathBuf::from(folder),
        None => Path::new(env!("CARGO_MANIFEST_DIR")).join("../../target/staticlib"),
    }
}

/// Whether a call of this target puts lengths and numbers where the archive looks for them.
fn passes_numbers_alike() -> bool {
    let features = variable("CARGO_CFG_TARGET_FEATURE");
    let has_sse2 = features.split(',').any(|feature| feature == "sse2");
    let has_own_calls = ["windows", "uefi"].contains(&variable("CARGO_CFG_TARGET_OS").as_str());
    let is_64_bit = variable("CARGO_CFG_TARGET_POINTER_WIDTH") == "64";
    variable("CARGO_CFG_TARGET_ARCH") == "x86_64" && is_64_bit && has_sse2 && !has_own_calls
}

fn variable(name: &str) -> String {
    env::var(name).unwrap_or_default()
}
