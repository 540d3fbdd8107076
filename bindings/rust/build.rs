//! Links the archive of the proved library: libgudrenoss.a as `tools/install` puts it, or libcapi.a as `tools/build capi` leaves it.
//! It is looked for in the folder that GUDRENOSS_LIB_DIR names, which may be relative to where cargo was started, otherwise in
//! target/staticlib of the repository.

use std::env;
use std::path::{Path, PathBuf};

fn main() {
    println!("cargo:rerun-if-env-changed=GUDRENOSS_LIB_DIR");
    println!("cargo:rerun-if-env-changed=PWD");
    let folder = match env::var_os("GUDRENOSS_LIB_DIR") {
        // this program is run in the folder of the crate; PWD is where cargo was started
        Some(named) => PathBuf::from(env::var_os("PWD").unwrap_or_default()).join(named),
        None => Path::new(env!("CARGO_MANIFEST_DIR")).join("../../target/staticlib"),
    };
    for name in ["gudrenoss", "capi"] {
        let archive = folder.join(format!("lib{name}.a"));
        if archive.exists() {
            println!("cargo:rerun-if-changed={}", archive.display());
            println!("cargo:rustc-link-search=native={}", folder.display());
            println!("cargo:rustc-link-lib=static={name}");
            return;
        }
    }
    panic!(
        "neither libgudrenoss.a nor libcapi.a is in {}: run tools/install and set GUDRENOSS_LIB_DIR to its lib folder, or run tools/build capi",
        folder.display()
    );
}
