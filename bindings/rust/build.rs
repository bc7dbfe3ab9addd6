//! Links the proved static library. It is looked for where VELKUNSHE_LIB says; beside this file; in the repository's target/staticlib, where
//! `tools/setup velkunshe` writes it; and where the pkg-config file says that `tools/install` wrote.

use std::env;
use std::path::{Path, PathBuf};
use std::process::{exit, Command};

const ARCHIVE: &str = "libvelkunshe.a";

fn main() {
    for name in ["VELKUNSHE_LIB", "PKG_CONFIG", "PKG_CONFIG_PATH", "PKG_CONFIG_LIBDIR"] {
        println!("cargo:rerun-if-env-changed={name}");
    }
    let archive = named().or_else(beside).or_else(installed).unwrap_or_else(|| {
        fail(
            "no libvelkunshe.a. Do one of these:\n\
             - set VELKUNSHE_LIB to its path;\n\
             - put it beside this package's Cargo.toml;\n\
             - in Velkunshe's repository, run `tools/setup velkunshe` to use it there,\n  \
             or `tools/install PREFIX` and add PREFIX/lib/pkgconfig to PKG_CONFIG_PATH",
        )
    });
    println!("cargo:rerun-if-changed={}", archive.display());
    let name = archive.file_name().and_then(|n| n.to_str()).and_then(|n| n.strip_prefix("lib")?.strip_suffix(".a"));
    let name = name.unwrap_or_else(|| fail(&format!("{} is not named libNAME.a", archive.display())));
    println!("cargo:rustc-link-search=native={}", archive.parent().unwrap_or(Path::new(".")).display());
    println!("cargo:rustc-link-lib=static={name}");
}

fn fail(why: &str) -> ! {
    eprintln!("velkunshe: {why}");
    exit(1);
}

/// What the environment names must be there.
fn named() -> Option<PathBuf> {
    let archive = PathBuf::from(env::var_os("VELKUNSHE_LIB")?);
    if !archive.is_file() {
        fail(&format!("VELKUNSHE_LIB is {}, and there is no such file", archive.display()));
    }
    Some(archive)
}

fn beside() -> Option<PathBuf> {
    let here = PathBuf::from(env::var_os("CARGO_MANIFEST_DIR")?);
    let places = [here.join(ARCHIVE), here.join("../../target/staticlib").join(ARCHIVE)];
    // An archive that is put there later is taken then.
    for place in &places {
        println!("cargo:rerun-if-changed={}", place.display());
    }
    places.into_iter().find(|place| place.is_file())
}

/// Without pkg-config, or without the file, there is none.
fn installed() -> Option<PathBuf> {
    let command = env::var_os("PKG_CONFIG").unwrap_or_else(|| "pkg-config".into());
    let output = Command::new(command).args(["--variable=libdir", "velkunshe"]).output().ok()?;
    let folder = String::from_utf8(output.stdout).ok()?;
    let archive = Path::new(folder.trim_end()).join(ARCHIVE);
    (output.status.success() && archive.is_file()).then_some(archive)
}
