//! Links the proved store's archive when the feature `linked` is on, and sets `lmdb` where that
//! library is installed, for the benchmark.

use std::env;
use std::path::{Path, PathBuf};
use std::process::Command;

fn main() {
    println!("cargo:rerun-if-changed=build.rs");
    look_for_lmdb();
    if env::var_os("CARGO_FEATURE_LINKED").is_none() {
        return;
    }
    let host = env::var_os("CARGO_MANIFEST_DIR").expect("cargo names the manifest's directory");
    let archives = PathBuf::from(host).join("../target/staticlib");
    let archive = archives.join("librowstore.a");
    println!("cargo:rustc-link-search=native={}", archives.display());
    println!("cargo:rustc-link-lib=static=rowstore");
    println!("cargo:rerun-if-changed={}", archive.display());
}

/// Asks pkg-config, and again when a package comes or goes where it looks.
fn look_for_lmdb() {
    println!("cargo:rustc-check-cfg=cfg(lmdb)");
    println!("cargo:rerun-if-env-changed=PKG_CONFIG_PATH");
    println!("cargo:rerun-if-env-changed=PKG_CONFIG_LIBDIR");
    let looked_in = pkg_config(&["--variable=pc_path", "pkg-config"]).unwrap_or_default();
    for directory in env::split_paths(looked_in.trim()).filter(|path| path.is_dir()) {
        println!("cargo:rerun-if-changed={}", directory.display());
    }
    let Some(directories) = pkg_config(&["--libs-only-L", "lmdb"]) else {
        return;
    };
    println!("cargo:rustc-cfg=lmdb");
    for directory in directories.split_whitespace() {
        let path = Path::new(directory.trim_start_matches("-L"));
        println!("cargo:rustc-link-search=native={}", path.display());
    }
}

/// What pkg-config prints, if it is there and finds what it is asked for.
fn pkg_config(asked: &[&str]) -> Option<String> {
    let output = Command::new("pkg-config").args(asked).output().ok()?;
    let found = output.status.success();
    found.then(|| String::from_utf8_lossy(&output.stdout).into_owned())
}
