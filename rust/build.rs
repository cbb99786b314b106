//! Links the proved static library.
//!
//! `ONDRISTELA_LIB_DIR` names the folder of a library that was built elsewhere; a path that does not start at the
//! root starts in this package's folder. Without it the library is the repository's, which `tools/build.sh` proves
//! and builds where it is missing or was not built from the sources as they are now.

use std::env;
use std::path::{Path, PathBuf};
use std::process::{exit, Command};

const LIBRARY: &str = "libondristela.a";

fn main() {
    println!("cargo:rerun-if-env-changed=ONDRISTELA_LIB_DIR");
    let package = PathBuf::from(env::var_os("CARGO_MANIFEST_DIR").expect("cargo sets CARGO_MANIFEST_DIR"));
    let elsewhere = env::var_os("ONDRISTELA_LIB_DIR").filter(|folder| !folder.is_empty());
    let folder = match elsewhere {
        Some(folder) => built_elsewhere(&package.join(folder)),
        None => built_in_repository(package.parent().expect("rust/ stands in the repository")),
    };
    println!("cargo:rerun-if-changed={}", folder.join(LIBRARY).display());
    println!("cargo:rustc-link-search=native={}", folder.display());
    println!("cargo:rustc-link-lib=static=ondristela");
}

fn built_elsewhere(folder: &Path) -> PathBuf {
    if !folder.join(LIBRARY).is_file() {
        stop(&format!("ONDRISTELA_LIB_DIR names {}, but no {LIBRARY} is there", folder.display()));
    }
    folder.to_owned()
}

fn built_in_repository(repository: &Path) -> PathBuf {
    for source in ["crates", "crates.txt", "tools/build.sh"] {
        println!("cargo:rerun-if-changed={}", repository.join(source).display());
    }
    match Command::new("bash").arg(repository.join("tools/build.sh")).arg("library").status() {
        Ok(status) if status.success() => {}
        Ok(_) => stop(
            "the library was not built; ONDRISTELA_LIB_DIR may name the folder of a libondristela.a that was \
             built elsewhere",
        ),
        Err(error) => stop(&format!("tools/build.sh, which builds the library, needs bash ({error})")),
    }
    repository.join("target/staticlib")
}

/// Ends with a sentence and no more, which cargo shows.
fn stop(sentence: &str) -> ! {
    eprintln!("{sentence}");
    exit(1)
}
