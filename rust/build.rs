//! Says where the library, `librpeltp.a`, is: in the folder that `RPELTP_LIB_DIR` names, or where pkg-config has it.

use std::env;
use std::path::PathBuf;
use std::process::{self, Command};

const ARCHIVE: &str = "librpeltp.a";

fn main() {
    for name in ["RPELTP_LIB_DIR", "PKG_CONFIG_PATH", "PKG_CONFIG_LIBDIR"] {
        println!("cargo:rerun-if-env-changed={name}");
    }
    // for any other target src/lib.rs says what is wrong
    if env::var("CARGO_CFG_TARGET_ARCH").as_deref() != Ok("x86_64") {
        return;
    }
    match folder() {
        Ok(folder) => {
            println!("cargo:rerun-if-changed={}", folder.join(ARCHIVE).display());
            println!("cargo:rustc-link-search=native={}", folder.display());
            println!("cargo:rustc-link-lib=static=rpeltp");
        }
        Err(sentence) => {
            eprintln!("rpeltp: {sentence}");
            process::exit(1);
        }
    }
}

/// The folder that holds the archive, or what to set.
fn folder() -> Result<PathBuf, String> {
    let named = env::var_os("RPELTP_LIB_DIR").map(PathBuf::from);
    let asked = "set RPELTP_LIB_DIR to the whole path of the folder that holds it";
    match named.or_else(from_pkg_config) {
        Some(folder) if folder.is_absolute() && folder.join(ARCHIVE).is_file() => Ok(folder),
        Some(folder) => Err(format!(
            "there is no {ARCHIVE} in '{}': {asked}.",
            folder.display()
        )),
        None => Err(format!(
            "{ARCHIVE} is not found, and pkg-config has no rpeltp: {asked}."
        )),
    }
}

/// What pkg-config says, if it is there and knows the library.
fn from_pkg_config() -> Option<PathBuf> {
    let words = ["--variable=libdir", "rpeltp"];
    let output = Command::new("pkg-config").args(words).output().ok()?;
    let text = String::from_utf8(output.stdout).ok()?;
    let path = text.trim_end();
    (output.status.success() && !path.is_empty()).then(|| PathBuf::from(path))
}
