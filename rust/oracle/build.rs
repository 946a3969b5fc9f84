//! Takes bio's text from its published sources, makes the edits below, and writes one module for each mode. Nothing of
//! bio's text is kept in the repository.
//!
//! The sources are those of an ordinary crate folder (`src/stats/hmm/mod.rs`), or the same files in one flat folder
//! (`src--src--stats--hmm--mod.rs.txt`).

use std::path::{Path, PathBuf};
use std::{env, fs};

/// An edit of one place: the old text stands in the file exactly once.
struct Edit {
    file: &'static str,
    old: &'static str,
    new: &'static str,
}

const VERSION: &str = "4.2.2";

const HMM: &str = "stats/hmm/mod.rs";
const PROBS: &str = "stats/probs/mod.rs";

/// What every mode needs to compile as a module of this crate, and to show both tables of Viterbi.
const EDITS: &[Edit] = &[
    // Integration and distribution functions are outside the port.
    Edit {
        file: PROBS,
        old: "pub mod adaptive_integration;\npub mod cdf;\n",
        new: "",
    },
    // Each mode has an exponential of its own.
    Edit {
        file: PROBS,
        old: "use crate::utils::FastExp;",
        new: "use super::exponential::*;",
    },
    Edit {
        file: HMM,
        old: "\nfn viterbi_matrices<",
        new: "\npub fn viterbi_matrices<",
    },
];

/// What puts our ln and ln(1 - exp p) in the place of the library's; our exp comes in as the mode's exponential.
const KERNEL_EDITS: &[Edit] = &[
    Edit {
        file: PROBS,
        old: "(-p.fastexp()).ln_1p()",
        new: "(-p.fastexp()).kernel_ln_1p()",
    },
    Edit {
        file: PROBS,
        old: "(-p.exp_m1()).ln()",
        new: "(-p.kernel_exp_m1()).kernel_ln()",
    },
    Edit {
        file: PROBS,
        old: "                    .ln_1p(),",
        new: "                    .kernel_ln_1p(),",
    },
    Edit {
        file: PROBS,
        old: "(p1 - p0).fastexp().ln_1p()",
        new: "(p1 - p0).fastexp().kernel_ln_1p()",
    },
    Edit {
        file: PROBS,
        old: "LogProb(p.ln())",
        new: "LogProb(p.kernel_ln())",
    },
];

/// The published files that are taken, and their places under a mode's folder.
const FILES: &[(&str, &str)] = &[
    (HMM, "hmm/mod.rs"),
    ("stats/hmm/errors.rs", "hmm/errors.rs"),
    (PROBS, "probs/mod.rs"),
    ("stats/probs/errors.rs", "probs/errors.rs"),
    ("utils/fastexp.rs", "fastexp.rs"),
];

fn main() {
    println!("cargo::rustc-check-cfg=cfg(bio)");
    println!("cargo::rerun-if-env-changed=BIO_SOURCE");
    println!("cargo::rerun-if-changed=build.rs");
    let Some(source) = source() else { return };
    println!("cargo::rustc-cfg=bio");
    write_mode(&source, "published", "", &[]);
    write_mode(
        &source,
        "library",
        "pub use crate::put_in::library as exponential;",
        &[],
    );
    write_mode(
        &source,
        "kernels",
        "pub use crate::put_in::kernels as exponential;",
        KERNEL_EDITS,
    );
}

/// The folder that `BIO_SOURCE` names, which must have the files; else the first of cargo's own that has them.
fn source() -> Option<Source> {
    if let Some(folder) = env::var_os("BIO_SOURCE").map(PathBuf::from) {
        let source = Source::of(&folder);
        if source.is_none() {
            let folder = folder.display();
            println!("cargo::error=BIO_SOURCE: {folder} has no sources of bio {VERSION}");
        }
        return source;
    }
    registry().iter().find_map(|folder| Source::of(folder))
}

/// Where cargo unpacks a crate that was once built on this machine.
fn registry() -> Vec<PathBuf> {
    let own = env::var_os("CARGO_HOME").map(PathBuf::from);
    let usual = env::var_os("HOME").map(|home| Path::new(&home).join(".cargo"));
    let Some(Ok(registries)) = own.or(usual).map(|home| fs::read_dir(home.join("registry/src"))) else {
        return Vec::new();
    };
    let folder = format!("bio-{VERSION}");
    registries
        .flatten()
        .map(|registry| registry.path().join(&folder))
        .collect()
}

/// A folder that has all the files, in one of the two layouts.
struct Source {
    folder: PathBuf,
    flat: bool,
}

impl Source {
    fn of(folder: &Path) -> Option<Source> {
        let layouts = [true, false].map(|flat| Source {
            folder: folder.to_path_buf(),
            flat,
        });
        layouts.into_iter().find(Source::is_whole)
    }

    fn is_whole(&self) -> bool {
        self.is_right_version() && FILES.iter().all(|(name, _)| self.path(name).is_file())
    }

    /// A crate folder says its version; a flat one has nothing to say it with.
    fn is_right_version(&self) -> bool {
        let manifest = fs::read_to_string(self.folder.join("Cargo.toml")).unwrap_or_default();
        self.flat || manifest.contains(&format!("\nversion = \"{VERSION}\"\n"))
    }

    fn path(&self, name: &str) -> PathBuf {
        if self.flat {
            self.folder.join(format!("src--src--{}.txt", name.replace('/', "--")))
        } else {
            self.folder.join("src").join(name)
        }
    }

    fn text(&self, name: &str) -> String {
        let path = self.path(name);
        println!("cargo::rerun-if-changed={}", path.display());
        fs::read_to_string(path).unwrap()
    }
}

/// Writes the files of one mode, and the file of modules that the crate includes. The exponential is bio's own where
/// no other is given.
fn write_mode(source: &Source, mode: &str, exponential: &str, edits: &[Edit]) {
    let out = PathBuf::from(env::var_os("OUT_DIR").unwrap());
    let folder = out.join(mode);
    for (name, place) in FILES {
        let mut text = source.text(name);
        for edit in EDITS.iter().chain(edits).filter(|edit| edit.file == *name) {
            text = edited(&text, edit);
        }
        let path = folder.join(place);
        fs::create_dir_all(path.parent().unwrap()).unwrap();
        fs::write(path, text).unwrap();
    }
    let exponential = if exponential.is_empty() {
        module(&folder, "fastexp.rs", "exponential")
    } else {
        exponential.to_string()
    };
    let modules = [
        exponential,
        module(&folder, "probs/mod.rs", "probs"),
        module(&folder, "hmm/mod.rs", "hmm"),
        "pub use self::probs::{LogProb, PHREDProb, Prob};".to_string(),
    ];
    fs::write(out.join(format!("{mode}.rs")), modules.join("\n")).unwrap();
}

fn edited(text: &str, edit: &Edit) -> String {
    let places = text.matches(edit.old).count();
    assert_eq!(places, 1, "{:?} stands {places} times in {}", edit.old, edit.file);
    text.replacen(edit.old, edit.new, 1)
}

fn module(folder: &Path, place: &str, name: &str) -> String {
    format!("#[path = {:?}]\npub mod {name};", folder.join(place))
}
