//! Links the static library. If SLOTROUTE_PREFIX is set, it is that of SLOTROUTE_PREFIX/lib.
//! Otherwise it is the first of these that is there: that of pkg-config, that inside this crate,
//! and that of `prebuilt` in the tree. A relative SLOTROUTE_PREFIX counts from the folder where
//! cargo was called, as PWD has it, or else from the folder of this crate.

use std::env;
use std::path::{Path, PathBuf};
use std::process::{exit, Command};

const ARCHIVE: &str = "libslotroute.a";
const PREBUILT: &str = "../prebuilt/x86_64-linux/lib";

fn main() {
    println!("cargo:rerun-if-env-changed=SLOTROUTE_PREFIX");
    println!("cargo:rerun-if-env-changed=PKG_CONFIG_PATH");
    let lib = library().unwrap_or_else(|wrong| {
        eprintln!("{}", wrong);
        exit(1);
    });
    println!("cargo:rerun-if-changed={}", lib.join(ARCHIVE).display());
    println!("cargo:rustc-link-search=native={}", lib.display());
    println!("cargo:rustc-link-lib=static=slotroute");
}

/// The folder of the library, or what is wrong.
fn library() -> Result<PathBuf, String> {
    if let Some(prefix) = env::var_os("SLOTROUTE_PREFIX").map(PathBuf::from) {
        return in_prefix(&prefix)
            .ok_or_else(|| format!("no lib/{} in SLOTROUTE_PREFIX={}", ARCHIVE, prefix.display()));
    }
    let own = PathBuf::from(env::var_os("CARGO_MANIFEST_DIR").unwrap_or_default());
    by_pkg_config()
        .into_iter()
        .chain([own.join("lib"), own.join(PREBUILT)])
        .find(|lib| lib.join(ARCHIVE).is_file())
        .ok_or_else(|| {
            format!("no {} is here: name its folder's parent by SLOTROUTE_PREFIX", ARCHIVE)
        })
}

/// The folder of the library as an absolute path: rustc runs in another folder than this script.
fn in_prefix(prefix: &Path) -> Option<PathBuf> {
    if prefix.is_relative() {
        println!("cargo:rerun-if-env-changed=PWD");
    }
    ["PWD", "CARGO_MANIFEST_DIR"]
        .iter()
        .filter_map(env::var_os)
        .map(|folder| Path::new(&folder).join(prefix).join("lib"))
        .find(|lib| lib.join(ARCHIVE).is_file())
}

/// The folder that pkg-config has for a library of version 0.2.
fn by_pkg_config() -> Option<PathBuf> {
    let is_fit = ["--exists", "slotroute >= 0.2", "slotroute < 0.3"];
    if !Command::new("pkg-config").args(is_fit).status().ok()?.success() {
        return None;
    }
    let found =
        Command::new("pkg-config").args(["--variable=libdir", "slotroute"]).output().ok()?;
    Some(PathBuf::from(String::from_utf8(found.stdout).ok()?.trim_end()))
}
