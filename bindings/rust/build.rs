//! Links the archive of the proved library: the one in PAS_LIB_DIR, else the repository's own. Whether that one is stale is for
//! `build-library` to say: it runs each time that a source has changed, and proves and builds the archive where that is needed.

use std::env;
use std::fs::OpenOptions;
use std::os::unix::process::parent_id;
use std::path::{Path, PathBuf};
use std::process::{exit, Command, Stdio};

fn main() {
    println!("cargo:rerun-if-env-changed=PAS_LIB_DIR");
    let folder = match env::var_os("PAS_LIB_DIR").filter(|named| !named.is_empty()) {
        Some(named) => PathBuf::from(named),
        None => built(),
    };
    let archive = folder.join("libpas.a");
    if !archive.is_file() {
        fail(&format!("There is no {}.", archive.display()));
    }
    println!("cargo:rerun-if-changed={}", archive.display());
    println!("cargo:rustc-link-search=native={}", folder.display());
    println!("cargo:rustc-link-lib=static=pas");
}

/// The repository's folder of archives, with the archive in it up to date.
fn built() -> PathBuf {
    let package = env::var_os("CARGO_MANIFEST_DIR").expect("cargo names the package's folder");
    let repository = Path::new(&package).join("../..");
    println!("cargo:rerun-if-changed={}", repository.join("crates.txt").display());
    println!("cargo:rerun-if-changed={}", repository.join("crates").display());
    let ended = Command::new(repository.join("build-library")).stdout(Stdio::null()).stderr(progress()).status();
    match ended {
        Ok(status) if status.success() => repository.join("target/staticlib"),
        Ok(status) => fail(&format!("The library is not built: build-library ended with {status}.")),
        Err(error) => fail(&format!("The library is not built: build-library does not run: {error}.")),
    }
}

/// Where the prover's progress is seen while it works. Cargo shows a build script's standard error only if the script fails, so it is cargo's
/// own standard error, else the terminal, and ours where neither can be opened. (In a plain file cargo's next lines go over it.)
fn progress() -> Stdio {
    let cargo = format!("/proc/{}/fd/2", parent_id());
    let opened = [cargo.as_str(), "/dev/tty"].into_iter().find_map(|name| OpenOptions::new().append(true).open(name).ok());
    opened.map_or(Stdio::inherit(), Stdio::from)
}

fn fail(what: &str) -> ! {
    eprintln!("{what} Run ./build-library in the repository and see what it says, or name the folder of a libpas.a in PAS_LIB_DIR.");
    exit(1)
}
