//! Links the static library `libkernel.a`: the one that `RAVELSICKLE_LIB` names (the archive, or the folder it is in), or
//! the one that `rt lib` writes in this repository's crates/kernel.

use std::env;
use std::path::{Path, PathBuf};

const ARCHIVE: &str = "libkernel.a";

/// The archive to link, whether or not it is there.
fn archive() -> PathBuf {
    let Some(named) = env::var_os("RAVELSICKLE_LIB") else {
        return Path::new(env!("CARGO_MANIFEST_DIR"))
            .join("../../crates/kernel/out")
            .join(ARCHIVE);
    };
    let named = PathBuf::from(named);
    if named.is_dir() {
        named.join(ARCHIVE)
    } else {
        named
    }
}

/// Stops the build with words that say what to do.
fn stop(why: &str) -> ! {
    println!("cargo:warning={why}");
    std::process::exit(1);
}

fn main() {
    println!("cargo:rerun-if-env-changed=RAVELSICKLE_LIB");
    let processor = env::var("CARGO_CFG_TARGET_ARCH").unwrap_or_default();
    if processor != "x86_64" && env::var_os("RAVELSICKLE_LIB").is_none() {
        stop(&format!(
            "Ravelsickle's library is for x86-64 and this build is for {processor}: build for x86-64, or run the tests with bindings/run, which has a stand-in"
        ));
    }
    let archive = archive();
    if archive.file_name().is_none_or(|name| name != ARCHIVE) || !archive.is_file() {
        stop(&format!(
            "there is no Ravelsickle library at {}: write it with `rt lib` in crates/kernel, or set RAVELSICKLE_LIB to {ARCHIVE} or the folder it is in",
            archive.display()
        ));
    }
    let folder = archive.parent().expect("a file is in a folder");
    println!("cargo:rerun-if-changed={}", archive.display());
    println!("cargo:rustc-link-search=native={}", folder.display());
    println!("cargo:rustc-link-lib=static=kernel");
}
