// Of the build scripts, which include it: finds a proved archive of the repository, and has it linked.
use std::path::{Path, PathBuf};
use std::{env, process};

/// Ends the build with a message: cargo takes a script that said an error for a failed one.
fn stop(message: &str) -> ! {
    println!("cargo::error={message}");
    process::exit(0)
}

/// The repository's root. A build script's package lies two folders below.
fn root() -> PathBuf {
    env::var_os("CARGO_MANIFEST_DIR").map(PathBuf::from).unwrap_or_default().join("../..")
}

/// The archive that `tools/archive` writes for `name`, or that at the path in `variable`.
fn archive(root: &Path, name: &str, variable: &str) -> PathBuf {
    println!("cargo::rerun-if-env-changed={variable}");
    let file = format!("lib{name}.a");
    let set = env::var_os(variable).map(PathBuf::from);
    let path = set.clone().unwrap_or_else(|| root.join("target/staticlib").join(&file));
    println!("cargo::rerun-if-changed={}", path.display());
    if path.is_file() && path.file_name().is_some_and(|name| name == &*file) {
        return path;
    }
    if set.is_some() {
        stop(&format!(
            "{variable} is {}, which is not a file {file}: `tools/archive {name}` writes it to \
             target/staticlib in the repository",
            path.display()
        ));
    }
    stop(&format!(
        "there is no archive yet: run `tools/archive {name}` in the repository, or set \
         {variable} to the path of a {file}"
    ))
}

fn link(root: &Path, name: &str, variable: &str) {
    let archive = archive(root, name, variable);
    let folder = archive.parent().unwrap_or(root);
    println!("cargo::rustc-link-search=native={}", folder.display());
    println!("cargo::rustc-link-lib=static={name}");
    println!("cargo::rerun-if-changed=build.rs");
    println!("cargo::rerun-if-changed=../archive.rs");
}
