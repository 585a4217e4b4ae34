//! Links the proved archive, and takes the library's version from the header, which alone has it.
use std::fs;

include!("../archive.rs");

const VERSION: &str = "#define JOURNAL_LIBRARY_VERSION ";

fn version(root: &Path) -> String {
    let header = root.join("c/journal.h");
    println!("cargo::rerun-if-changed={}", header.display());
    let text =
        fs::read_to_string(&header).unwrap_or_else(|why| stop(&format!("c/journal.h: {why}")));
    match text.lines().find_map(|line| line.strip_prefix(VERSION)) {
        Some(version) => version.trim().trim_matches('"').into(),
        None => stop("c/journal.h has no JOURNAL_LIBRARY_VERSION"),
    }
}

fn main() {
    let root = root();
    link(&root, "journal_c", "NUNGAKES_ARCHIVE");
    println!("cargo::rustc-env=NUNGAKES_VERSION={}", version(&root));
}
