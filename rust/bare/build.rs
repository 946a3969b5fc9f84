//! Links neither the start of a C program nor its library. Rust's core was compiled to unwind, and nothing here does.

fn main() {
    for word in [
        "-nostartfiles",
        "-nostdlib",
        "-static",
        "-no-pie",
        "-Wl,--defsym=rust_eh_personality=0",
    ] {
        println!("cargo::rustc-link-arg-bins={word}");
    }
}
