//! Tells rustc where libpft.a is: in the folder that PFT_LIB_DIR names, or else
//! where `tools/library` writes it, in target/staticlib of the repository.

use std::path::{Path, PathBuf};

/// What earlier archives lack, in the order in which it came.
const ADDED: [&str; 6] = [
    "pft_version",
    "pft_count",
    "pft_frame",
    "pft_type",
    "pft_question",
    "pft_load",
];

fn folder() -> PathBuf {
    match std::env::var_os("PFT_LIB_DIR") {
        Some(folder) => PathBuf::from(folder),
        None => Path::new(env!("CARGO_MANIFEST_DIR")).join("../../target/staticlib"),
    }
}

fn names(archive: &[u8], symbol: &str) -> bool {
    let mut parts = archive.windows(symbol.len());
    parts.any(|part| part == symbol.as_bytes())
}

/// What is wrong with an archive, if anything.
fn fault(archive: &Path) -> Option<String> {
    let Ok(bytes) = std::fs::read(archive) else {
        return Some(
            "cannot be read: make it by `tools/library`, or set PFT_LIB_DIR to its folder"
                .to_string(),
        );
    };
    let lacking = ADDED.into_iter().find(|symbol| !names(&bytes, symbol))?;
    Some(format!(
        "is too old: it has no {lacking}. Make it anew by `tools/library`"
    ))
}

fn main() {
    println!("cargo:rerun-if-env-changed=PFT_LIB_DIR");
    let folder = folder();
    let archive = folder.join("libpft.a");
    println!("cargo:rerun-if-changed={}", archive.display());
    if let Some(fault) = fault(&archive) {
        eprintln!("{} {fault}", archive.display());
        std::process::exit(1);
    }
    println!("cargo:rustc-link-search=native={}", folder.display());
}
