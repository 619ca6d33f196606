//! Finds libphase.a: in PHASE_LIB_DIR, where that is set; else where pkg-config says that one of
//! this version is; else in the folder lib of this crate, where a release has it, or where
//! scripts/bind makes it.
use std::{env, path::PathBuf, process::Command};

/// Where pkg-config says that a libphase of this version is.
fn told_by_pkg_config() -> Option<PathBuf> {
    let wanted = concat!("phase = ", env!("CARGO_PKG_VERSION"));
    let told = Command::new("pkg-config").args(["--variable=libdir", wanted]).output().ok()?;
    let folder = String::from_utf8(told.stdout).ok()?;
    told.status.success().then(|| PathBuf::from(folder.trim_end()))
}

/// The folders in which it is looked for, in their order.
fn folders() -> Vec<PathBuf> {
    if let Some(named) = env::var_os("PHASE_LIB_DIR") {
        return vec![PathBuf::from(named)];
    }
    let here = PathBuf::from(env::var_os("CARGO_MANIFEST_DIR").unwrap());
    let own = [here.join("lib"), here.join("../../lib")];
    told_by_pkg_config().into_iter().chain(own).collect()
}

fn main() {
    println!("cargo::rerun-if-env-changed=PHASE_LIB_DIR");
    println!("cargo::rerun-if-env-changed=PKG_CONFIG_PATH");
    let folders = folders();
    let Some(folder) = folders.iter().find(|it| it.join("libphase.a").is_file()) else {
        panic!(
            "there is no libphase.a in {folders:?}: make it by scripts/bind, or name its folder \
             in PHASE_LIB_DIR"
        );
    };
    println!("cargo::rerun-if-changed={}", folder.join("libphase.a").display());
    println!("cargo::rustc-link-search=native={}", folder.display());
    println!("cargo::rustc-link-lib=static=phase");
}
