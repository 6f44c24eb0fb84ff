//! Brings the text in, unchanged, from where GREEDYTILE_TEXT says it lies, and links the port if asked.
//!
//! Each file of the text is written to OUT_DIR (the `.txt` goes) with all its lines as they are. Where private functions
//! or fields of it are wanted, ONE line is added at the end: an `include!` of src/oracle/reach/NAME.rs, which thereby
//! stands in the same module as the text and sees its private items. OUT_DIR/text.rs has the `mod` lines.
//!
//! The package `uncached` is built by this file too: the same, but for the text's cache. A setting that is not a whole
//! path counts from this file's folder.

use std::path::{Path, PathBuf};
use std::{env, fs};

/// The text's modules, in the text's tree. The last is the name of a file in src/oracle/reach/, if the module has one.
const FILES: [(&str, &str, Option<&str>); 10] = [
    ("math", "convert", None),
    ("spatial", "extension", None),
    ("spatial", "grid", Some("grid")),
    ("spatial", "tiles", Some("tiles")),
    ("algorithm", "bitset", None),
    ("algorithm", "cache", None),
    ("algorithm", "feasibility", Some("feasibility")),
    ("algorithm", "selection", Some("selection")),
    ("algorithm", "propagation", None),
    ("algorithm", "deadlock", Some("deadlock")),
];

/// The crates of the port that export calls: the desk's functions, and the others for tests.
const PORT: [&str; 5] = ["desk", "harness", "harness_floats", "harness_forced", "harness_tiles"];

fn main() {
    println!("cargo::rerun-if-env-changed=GREEDYTILE_TEXT");
    let out = PathBuf::from(env::var_os("OUT_DIR").unwrap());
    let uncached = env::var_os("CARGO_FEATURE_UNCACHED").is_some();
    let mut here = PathBuf::from(env::var_os("CARGO_MANIFEST_DIR").unwrap());
    if uncached {
        here.pop();
    }
    // a whole path: from the folder of `uncached` it would not be found, and that package built anew each time
    println!("cargo::rerun-if-changed={}", here.join("build.rs").display());
    let Some(text) = env::var_os("GREEDYTILE_TEXT").map(|text| here.join(text)) else {
        stop("GREEDYTILE_TEXT is not set: it names the folder below which src/algorithm/bitset.rs.txt etc. lie");
    };

    let mut sum = Sum::new();
    let mut tree = String::new();
    for group in ["math", "spatial", "algorithm", "io"] {
        // the text is not ours to tidy
        tree += &format!("#[allow(dead_code, missing_docs, clippy::all)]\npub mod {group} {{\n");
        for (_, name, reach) in FILES.iter().filter(|file| file.0 == group) {
            if uncached && *name == "cache" {
                tree += &module(name, &here.join("src/oracle/missing/cache.rs"));
                continue;
            }
            let reach = reach.map(|reach| here.join(format!("src/oracle/reach/{reach}.rs")));
            tree += &module(name, &bring(&text, &out, group, name, reach.as_deref(), &mut sum));
        }
        match group {
            "math" => tree += &module("probability", &here.join("src/oracle/missing/probability.rs")),
            "spatial" => tree += "pub use grid::GridState;\n",
            "io" => {
                tree += &module("configuration", &bring(&text, &out, "io", "configuration", None, &mut sum));
                tree += &module("visualization", &here.join("src/oracle/missing/visualization.rs"));
            }
            _ => {}
        }
        tree += "}\n";
    }
    fs::write(out.join("text.rs"), tree).unwrap();
    println!("cargo::rustc-env=TEXT_SUM={:016x}", sum.0);

    if env::var_os("CARGO_FEATURE_PORT").is_some() {
        link_port(&here);
    }
}

fn module(name: &str, file: &Path) -> String {
    format!("#[path = {:?}]\npub mod {name};\n", file)
}

/// Writes one file of the text to OUT_DIR and says where.
fn bring(text: &Path, out: &Path, group: &str, name: &str, reach: Option<&Path>, sum: &mut Sum) -> PathBuf {
    let source = text.join(format!("src/{group}/{name}.rs.txt"));
    println!("cargo::rerun-if-changed={}", source.display());
    let mut lines = fs::read_to_string(&source)
        .unwrap_or_else(|error| stop(&format!("GREEDYTILE_TEXT: {}: {error}", source.display())));
    sum.add(lines.as_bytes());
    if let Some(reach) = reach {
        lines += &format!("\ninclude!({:?});\n", reach);
    }
    let target = out.join(format!("{group}_{name}.rs"));
    fs::write(&target, lines).unwrap();
    target
}

/// GREEDYTILE_PORT names the folder that has the port's static libraries, libdesk.a and libharness*.a.
fn link_port(here: &Path) {
    println!("cargo::rerun-if-env-changed=GREEDYTILE_PORT");
    let Some(folder) = env::var_os("GREEDYTILE_PORT").map(|folder| here.join(folder)) else {
        stop("GREEDYTILE_PORT is not set: it names the folder of the port's static libraries");
    };
    println!("cargo::rustc-link-search=native={}", folder.display());
    for name in PORT {
        let library = folder.join(format!("lib{name}.a"));
        if !library.is_file() {
            stop(&format!("GREEDYTILE_PORT: {} is not there; `tests/archives {name}` makes it", library.display()));
        }
        println!("cargo::rerun-if-changed={}", library.display());
        println!("cargo::rustc-link-lib=static={name}");
    }
}

fn stop(why: &str) -> ! {
    println!("cargo::error={why}");
    std::process::exit(1)
}

/// FNV-1a over the text's bytes: it names the text that a run was made with.
struct Sum(u64);

impl Sum {
    fn new() -> Self {
        Self(0xcbf2_9ce4_8422_2325)
    }

    fn add(&mut self, bytes: &[u8]) {
        for &byte in bytes {
            self.0 = (self.0 ^ u64::from(byte)).wrapping_mul(0x100_0000_01b3);
        }
    }
}
