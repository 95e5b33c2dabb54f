//! Links the proved archive: `rt lib` in crates/abi of the repository writes it to out/ there.
//! DESFANUK_ARCHIVE_DIR names another folder.

use std::env;
use std::path::{Path, PathBuf};
use std::process;

/// What keeps this crate from being built, and what to do.
fn stop(words: String) -> ! {
    eprintln!("{words}");
    process::exit(1);
}

fn main() {
    println!("cargo:rerun-if-env-changed=DESFANUK_ARCHIVE_DIR");
    let own = env::var_os("DESFANUK_ARCHIVE_DIR").map(PathBuf::from);
    let processor = env::var("CARGO_CFG_TARGET_ARCH").expect("cargo sets it");
    if own.is_none() && processor != "x86_64" {
        stop(format!(
            "The proved archive is for x86-64, and this builds for {processor}. Build for x86-64:\n    \
             cargo build --target x86_64-unknown-linux-gnu\n\
             (.ci/x86-64 of the repository sets up the compiler, the linker and an emulator for it.)"
        ));
    }
    let folder = own.unwrap_or_else(|| {
        Path::new(&env::var_os("CARGO_MANIFEST_DIR").expect("cargo sets it"))
            .join("../../crates/abi/out")
    });
    let archive = folder.join("libabi.a");
    if !archive.exists() {
        stop(format!(
            "{} is missing: run `cd crates/abi && rt lib` in the repository first",
            archive.display()
        ));
    }
    println!("cargo:rerun-if-changed={}", archive.display());
    println!("cargo:rustc-link-search=native={}", folder.display());
    println!("cargo:rustc-link-lib=static=abi");
    println!("cargo:rustc-env=DESFANUK_ARCHIVE={}", archive.display());
}
