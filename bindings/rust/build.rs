//! Links the two static libraries, from the folder that CJAPTHUMI_LIBS names or else from the repository's target/staticlib.
use std::env;
use std::path::{Path, PathBuf};

fn main() {
    println!("cargo::rerun-if-env-changed=CJAPTHUMI_LIBS");
    let own = Path::new(env!("CARGO_MANIFEST_DIR")).join("../../target/staticlib");
    let folder = env::var_os("CJAPTHUMI_LIBS").map_or(own, PathBuf::from);
    for name in ["exports", "exports_built"] {
        let archive = folder.join(format!("lib{name}.a"));
        println!("cargo::rerun-if-changed={}", archive.display());
        if !archive.exists() {
            println!(
                "cargo::error={} is missing: run bindings/build, or name its folder in CJAPTHUMI_LIBS",
                archive.display()
            );
        }
        println!("cargo::rustc-link-lib=static={name}");
    }
    println!("cargo::rustc-link-search=native={}", folder.display());
}
