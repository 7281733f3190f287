//! Finds libtotdb.a: in the folder that TOTDB_LIB_DIR names, else in the repository's target/staticlib, which `rt staticlib
//! totdb` makes where it is not there yet.
use std::env;
use std::path::{Path, PathBuf};
use std::process::Command;

fn main() {
    println!("cargo:rerun-if-env-changed=TOTDB_LIB_DIR");
    let dir = match env::var_os("TOTDB_LIB_DIR") {
        Some(dir) => PathBuf::from(dir),
        None => in_repository(),
    };
    let archive = dir.join("libtotdb.a");
    assert!(archive.is_file(), "{} is not there: run `tools/staticlib.sh` in the repository's folder, or set TOTDB_LIB_DIR", archive.display());
    println!("cargo:rerun-if-changed={}", archive.display());
    println!("cargo:rustc-link-search=native={}", dir.display());
    println!("cargo:rustc-link-lib=static=totdb");
}

fn in_repository() -> PathBuf {
    let here =
        PathBuf::from(env::var_os("CARGO_MANIFEST_DIR").expect("cargo sets CARGO_MANIFEST_DIR"));
    let root = here.join("../..");
    let dir = root.join("target/staticlib");
    if !dir.join("libtotdb.a").is_file() {
        prove_and_build(&root);
    }
    dir
}

/// Only a proved library is written, so this takes as long as its proof.
fn prove_and_build(root: &Path) {
    println!(
        "cargo:warning=target/staticlib/libtotdb.a is not there yet: running `tools/staticlib.sh`"
    );
    match Command::new(root.join("tools/staticlib.sh"))
        .current_dir(root)
        .status()
    {
        Ok(status) if status.success() => {}
        Ok(status) => panic!("`tools/staticlib.sh` ended with {status}"),
        Err(why) => panic!(
            "`tools/staticlib.sh` did not start ({why}): put rt on the PATH, or set TOTDB_LIB_DIR"
        ),
    }
}
