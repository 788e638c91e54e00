//! Says where libiova is: in the folder of IOVA_LIB_DIR, where pkg-config finds it, or in the clone that this crate stands in, whose
//! `bin/dev library` has the one of the release.

use std::path::Path;
use std::process::{exit, Command};

/// What a command prints, where it ends well.
fn said(command: &mut Command) -> Option<String> {
    let output = command.output().ok()?;
    let text = String::from_utf8(output.stdout).ok()?;
    output.status.success().then(|| text.trim().to_string())
}

/// The library of a folder: the static one, where it has that.
fn link_from(folder: &Path) {
    let kind = if folder.join("libiova.a").exists() { "static" } else { "dylib" };
    println!("cargo:rustc-link-search=native={}", folder.display());
    println!("cargo:rustc-link-lib={kind}=iova");
}

fn main() {
    for name in ["IOVA_LIB_DIR", "PKG_CONFIG", "PKG_CONFIG_PATH"] {
        println!("cargo:rerun-if-env-changed={name}");
    }
    println!("cargo:rerun-if-changed=build.rs");
    if let Some(folder) = std::env::var_os("IOVA_LIB_DIR") {
        return link_from(Path::new(&folder));
    }
    let program = std::env::var("PKG_CONFIG").unwrap_or_else(|_| "pkg-config".to_string());
    if let Some(words) = said(Command::new(program).args(["--libs", "iova >= 0.2.0"])) {
        for word in words.split_whitespace() {
            if let Some(folder) = word.strip_prefix("-L") {
                println!("cargo:rustc-link-search=native={folder}");
            } else if let Some(name) = word.strip_prefix("-l") {
                println!("cargo:rustc-link-lib=dylib={name}");
            }
        }
        return;
    }
    let clone = Path::new(env!("CARGO_MANIFEST_DIR")).join("../../dev/library");
    match clone.exists().then(|| said(&mut Command::new(&clone))).flatten() {
        Some(library) => {
            println!("cargo:rerun-if-changed={library}");
            link_from(Path::new(&library).parent().unwrap_or_else(|| Path::new("/")));
        }
        None => {
            eprintln!("libiova isn't found: install libiova-dev, or say in IOVA_LIB_DIR which folder has it");
            exit(1);
        }
    }
}
