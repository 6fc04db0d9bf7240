//! Finds the static library that this crate links.
//!
//! It is `libguttertide.a`, in the folder that `GUTTERTIDE_LIB_DIR` names or in the crate's own `lib/TARGET`; or the two that
//! it is made of, in a clone of the repository or in the folder of the variable: `libks_c.a`, the dictionary, and
//! `liblibc_c.a`, the part of the toolchain by which it takes memory.

use std::env;
use std::path::{Path, PathBuf};
use std::process::Command;

/// Names a folder that has `libguttertide.a`, or `libks_c.a` and perhaps `liblibc_c.a`.
const VARIABLE: &str = "GUTTERTIDE_LIB_DIR";

fn main() {
    println!("cargo::rerun-if-env-changed={VARIABLE}");
    println!("cargo::rerun-if-changed=build.rs");
    // Built over the model, or for documentation alone, the crate links nothing.
    if env::var_os("CARGO_CFG_GUTTERTIDE_MODEL").is_some() || env::var_os("DOCS_RS").is_some() {
        return;
    }
    match folders().iter().find_map(|folder| libraries(folder)) {
        Some(found) => found.iter().for_each(|(folder, name)| link(folder, name)),
        None => println!("cargo::error={}", missing()),
    }
}

/// Where the library may be. If the variable is set, only there.
fn folders() -> Vec<PathBuf> {
    match given() {
        Some(folder) => vec![folder],
        None => {
            let target = env::var("TARGET").unwrap_or_default();
            vec![Path::new("lib").join(target), PathBuf::from("../../crates/ks_c/out")]
        }
    }
}

/// The libraries of a folder, each with its folder, if they are there.
fn libraries(folder: &Path) -> Option<Vec<(PathBuf, &'static str)>> {
    if let Some(whole) = holding(folder, "guttertide") {
        return Some(vec![whole]);
    }
    let dictionary = holding(folder, "ks_c")?;
    let memory = holding(folder, "libc_c").or_else(|| holding(&toolchain()?.join("c"), "libc_c"))?;
    Some(vec![dictionary, memory])
}

fn missing() -> String {
    let folders: Vec<String> = folders().iter().map(|folder| folder.display().to_string()).collect();
    format!(
        "there is no libguttertide.a, nor libks_c.a and liblibc_c.a, in {}. In a clone of the repository outside/build \
         proves and builds the library, with the toolchain's `rt` on the path; where it is elsewhere, set {VARIABLE} to its \
         folder",
        folders.join(" or ")
    )
}

/// The folder that the variable names, if it is set.
fn given() -> Option<PathBuf> {
    env::var_os(VARIABLE).filter(|folder| !folder.is_empty()).map(PathBuf::from)
}

/// The folder of the toolchain: `rt doc` prints the path of a page in it.
fn toolchain() -> Option<PathBuf> {
    let said = Command::new("rt").arg("doc").output().ok()?;
    let page = String::from_utf8(said.stdout).ok()?;
    Path::new(page.trim_end()).parent().map(Path::to_path_buf)
}

/// The whole path of the folder and the name of the library, if the folder has it.
fn holding(folder: &Path, name: &'static str) -> Option<(PathBuf, &'static str)> {
    let folder = folder.canonicalize().ok()?;
    folder.join(format!("lib{name}.a")).is_file().then_some((folder, name))
}

fn link(folder: &Path, name: &str) {
    println!("cargo::rerun-if-changed={}", folder.join(format!("lib{name}.a")).display());
    println!("cargo::rustc-link-search=native={}", folder.display());
    println!("cargo::rustc-link-lib=static={name}");
}
