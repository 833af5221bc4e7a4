//! Links the archives that `bench/run` makes.

use std::env;
use std::path::Path;

fn main() {
    let archives = Path::new(env!("CARGO_MANIFEST_DIR")).join("../target/bench");
    println!("cargo::rustc-link-search=native={}", archives.display());
    let mut names = vec!["desk", "counted"];
    if env::var_os("CARGO_FEATURE_BEFORE").is_some() {
        names.extend(["before", "before_counted"]);
    }
    for name in names {
        let archive = archives.join(format!("lib{name}.a"));
        if !archive.exists() {
            println!(
                "cargo::error={} is missing: bench/run makes it",
                archive.display()
            );
        }
        println!("cargo::rerun-if-changed={}", archive.display());
        println!("cargo::rustc-link-lib=static={name}");
    }
}
