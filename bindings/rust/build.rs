//! Links liblafzimdo.a: from the folder in LAFZIMDO_LIB, or the repository's target/staticlib, or where `make install` put it, as pkg-config says.
use std::env;
use std::path::{Path, PathBuf};
use std::process::{exit, Command};

fn main() {
    repository();
    println!("cargo:rerun-if-env-changed=LAFZIMDO_LIB");
    println!("cargo:rerun-if-env-changed=PKG_CONFIG_PATH");
    let own = Path::new(&env::var_os("CARGO_MANIFEST_DIR").expect("cargo sets it")).join("../../target/staticlib");
    let folder = match env::var_os("LAFZIMDO_LIB") {
        Some(folder) => PathBuf::from(folder),
        None => Some(own.clone()).filter(|own| has_library(own)).or_else(installed).unwrap_or(own),
    };
    let library = folder.join("liblafzimdo.a");
    println!("cargo:rerun-if-changed={}", library.display());
    if !library.is_file() {
        eprintln!("There is no {}.", library.display());
        eprintln!("Run `make target/staticlib/liblafzimdo.a` at the top of the repository, or install the library (`make install`; pkg-config must find lafzimdo {}),", env!("CARGO_PKG_VERSION"));
        eprintln!("or name the folder that holds liblafzimdo.a in LAFZIMDO_LIB.");
        exit(1);
    }
    let folder = folder.canonicalize().expect("the folder holds the library");
    println!("cargo:rustc-link-search=native={}", folder.display());
    println!("cargo:rustc-link-lib=static=lafzimdo");
}

fn has_library(folder: &Path) -> bool {
    folder.join("liblafzimdo.a").is_file()
}

/// Where the library is installed, of this crate's version: arrays grow from version to version.
fn installed() -> Option<PathBuf> {
    let version = concat!("lafzimdo = ", env!("CARGO_PKG_VERSION"));
    let told = Command::new("pkg-config").args(["--variable=libdir", version]).output().ok()?;
    let folder = PathBuf::from(String::from_utf8(told.stdout).ok()?.trim());
    (told.status.success() && has_library(&folder)).then_some(folder)
}

/// Tells the tests whether the repository is around the crate: some hold it against the repository's own files.
fn repository() {
    println!("cargo:rustc-check-cfg=cfg(repository)");
    let kept = "../../crates/vectors/stdin";
    println!("cargo:rerun-if-changed={kept}");
    if Path::new(kept).is_file() {
        println!("cargo:rustc-cfg=repository");
    }
}
