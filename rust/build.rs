//! Links libsartrogheo.a: that of the folder SARTROGHEO_LIB_DIR, else the one that was built or installed with this crate.
use std::path::{Path, PathBuf};
use std::{env, process};

const ARCHIVE: &str = "libsartrogheo.a";

fn refuse(said: &str) -> ! {
    eprintln!("sartrogheo: {said}");
    process::exit(1)
}

/// The folder for the archive beside this crate, which must stand where it is installed, in share/sartrogheo/rust, or in the repository: nobody else's archive is taken.
fn beside() -> Option<PathBuf> {
    let own = env::var_os("CARGO_MANIFEST_DIR").map(PathBuf::from)?;
    if own.ends_with("share/sartrogheo/rust") {
        return own.ancestors().nth(3).map(|at| at.join("lib"));
    }
    let repository = |at: &&Path| ["crates.txt", "include/sartrogheo.h"].iter().all(|name| at.join(name).is_file());
    own.parent().filter(repository).map(|at| at.join("target/staticlib"))
}

/// The folder with the archive. The one beside the crate is looked at for x86-64 Linux with pointers of 64 bits alone: the archive is compiled for nothing else.
fn found() -> PathBuf {
    if let Some(told) = env::var_os("SARTROGHEO_LIB_DIR").filter(|told| !told.is_empty()) {
        // cargo runs this in the crate's folder, so that a relative path is not taken from where cargo was called
        let folder = env::current_dir().unwrap_or_default().join(told);
        if !folder.join(ARCHIVE).is_file() {
            refuse(&format!("no {ARCHIVE} in SARTROGHEO_LIB_DIR, {}", folder.display()));
        }
        return folder;
    }
    let target = ["ARCH", "OS", "POINTER_WIDTH"].map(|part| env::var(format!("CARGO_CFG_TARGET_{part}")).unwrap_or_default());
    if target != ["x86_64", "linux", "64"] {
        refuse(&format!(
            "{ARCHIVE} is for x86-64 Linux with pointers of 64 bits, and this is {}: set SARTROGHEO_LIB_DIR to a folder with one for it (docs/MOVING.md)",
            target.join(" ")
        ));
    }
    let to_do = "install it by scripts/install, or set SARTROGHEO_LIB_DIR";
    match beside() {
        Some(folder) if folder.join(ARCHIVE).is_file() => folder,
        Some(folder) => refuse(&format!("no {ARCHIVE} in {}: build it by scripts/native, {to_do}", folder.display())),
        None => refuse(&format!("no {ARCHIVE} belongs to a crate at this place: {to_do}")),
    }
}

fn main() {
    println!("cargo:rerun-if-env-changed=SARTROGHEO_LIB_DIR");
    let folder = found();
    println!("cargo:rerun-if-changed={}", folder.join(ARCHIVE).display());
    println!("cargo:rustc-link-search=native={}", folder.display());
    println!("cargo:rustc-link-lib=static=sartrogheo");
}
