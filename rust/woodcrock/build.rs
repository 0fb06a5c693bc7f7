//! Links the static library, crates/woodcrock_c/out/libwoodcrock_c.a below the top folder. The environment
//! variable `WOODCROCK_LIBRARY` names another folder. A library that is missing fails the build.

use std::{env, path::PathBuf, process::exit};

/// The one kind of machine that the archive is for.
const ARCHITECTURE: &str = "x86_64";

fn main() {
    println!("cargo::rerun-if-env-changed=WOODCROCK_LIBRARY");
    if env::var("CARGO_CFG_TARGET_ARCH").as_deref() != Ok(ARCHITECTURE) {
        fail(&format!("the static library is for {ARCHITECTURE} only"));
    }
    let folder = match env::var_os("WOODCROCK_LIBRARY") {
        Some(folder) => PathBuf::from(folder),
        None => top_folder().join("crates/woodcrock_c/out"),
    };
    let archive = folder.join("libwoodcrock_c.a");
    println!("cargo::rerun-if-changed={}", archive.display());
    if !archive.is_file() {
        fail(&format!(
            "the static library {} is missing: build it with `rt lib` in \
             crates/woodcrock_c, or let WOODCROCK_LIBRARY name its folder",
            archive.display()
        ));
    }
    println!("cargo::rustc-link-search=native={}", folder.display());
    println!("cargo::rustc-link-lib=static=woodcrock_c");
    // For the tests that link C programs.
    println!("cargo::rustc-env=WOODCROCK_ARCHIVE={}", archive.display());
}

/// The folder two above that of the crate.
fn top_folder() -> PathBuf {
    let here = PathBuf::from(env::var_os("CARGO_MANIFEST_DIR").expect("cargo names the folder"));
    here.ancestors().nth(2).expect("the crate stands two folders down").to_path_buf()
}

fn fail(message: &str) -> ! {
    println!("cargo::error={message}");
    exit(1);
}
