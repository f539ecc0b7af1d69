//! Links libdesk.a: from the folder `DESK_LIB_DIR`, else from target/staticlib at the top of the repository.

use std::path::PathBuf;
use std::{env, process};

fn main() {
    println!("cargo:rerun-if-env-changed=DESK_LIB_DIR");
    let variable = |name: &str| env::var(name).unwrap_or_default();
    let (arch, os) = (variable("CARGO_CFG_TARGET_ARCH"), variable("CARGO_CFG_TARGET_OS"));
    if (arch.as_str(), os.as_str()) != ("x86_64", "linux") {
        stop(&format!(
            "libdesk.a is for x86-64 Linux, and this build is for {} {}.\n\
             Build with --target x86_64-unknown-linux-gnu; rust/run does so, and runs the result under an emulator.",
            arch, os
        ));
    }
    let folder = match env::var_os("DESK_LIB_DIR") {
        Some(folder) => PathBuf::from(folder),
        None => PathBuf::from(variable("CARGO_MANIFEST_DIR")).join("../../target/staticlib"),
    };
    let archive = folder.join("libdesk.a");
    println!("cargo:rerun-if-changed={}", archive.display());
    if !archive.is_file() {
        stop(&format!(
            "There is no {}.\n\
             Make it by `tests/archive` at the top of the repository, or name its folder in DESK_LIB_DIR.",
            archive.display()
        ));
    }
    println!("cargo:rustc-link-search=native={}", folder.display());
    println!("cargo:rustc-link-lib=static=desk");
}

/// Ends the build with a message.
fn stop(message: &str) -> ! {
    eprintln!("{}", message);
    process::exit(1)
}
