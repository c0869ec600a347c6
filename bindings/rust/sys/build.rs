//! Links the static library from the folder that SYNICBOARD_LIB_DIR names, absolute or relative to the folder of
//! the safe crate; or from `build` at the root of the repository, if it is there; or from where `./install` put it,
//! as pkg-config says.

use std::env;
use std::path::{Path, PathBuf};
use std::process::Command;

/// The folder of an installed library, if pkg-config knows one.
fn installed() -> Option<PathBuf> {
    let asked = Command::new("pkg-config").args(["--variable=libdir", "synicboard"]).output().ok()?;
    let folder = String::from_utf8(asked.stdout).ok()?;
    (asked.status.success() && !folder.trim().is_empty()).then(|| PathBuf::from(folder.trim()))
}

/// The folder to link from, for the safe crate in `root`.
fn folder(root: &Path) -> PathBuf {
    if let Some(folder) = env::var_os("SYNICBOARD_LIB_DIR") {
        return root.join(folder);
    }
    let built = root.join("../../build");
    if built.join("libsynicboard.a").exists() {
        return built;
    }
    installed().unwrap_or(built)
}

fn main() {
    println!("cargo:rerun-if-env-changed=SYNICBOARD_LIB_DIR");
    println!("cargo:rerun-if-env-changed=PKG_CONFIG_PATH");
    let own = env::var_os("CARGO_MANIFEST_DIR").expect("cargo names the folder of the crate");
    let root = Path::new(&own).parent().expect("the folder of the safe crate");
    let folder = folder(root);
    let library = folder.join("libsynicboard.a");
    println!("cargo:rerun-if-changed={}", library.display());
    if !library.exists() {
        // Only a warning: `cargo check` and `cargo doc` need no library, and for all else rustc
        // fails.
        println!("cargo:warning={} is not there: set SYNICBOARD_LIB_DIR", library.display());
    }
    println!("cargo:rustc-link-search=native={}", folder.display());
    println!("cargo:rustc-link-lib=static=synicboard");
    // For the tests, which read a header next to the library if there is one.
    println!("cargo:rustc-env=SYNICBOARD_LIB_DIR={}", folder.display());
}
