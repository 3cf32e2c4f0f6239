//! Links the static library. `WASMPRINTER_LIB` names the folder with `libwasmprinter.a`. If it is not set, `pkg-config wasmprinter` names it.
//!
//! Without both this script links nothing, so that `cargo check` and `cargo doc` work. It does not look for the library if `DOCS_RS` is
//! set.

use std::env;
use std::path::Path;
use std::process::Command;

const LIBRARY: &str = "libwasmprinter.a";

/// Returns the folder that pkg-config names, or the reason why it names none.
fn installed() -> Result<String, String> {
    let output = Command::new("pkg-config")
        .args(["--variable=libdir", "wasmprinter"])
        .output()
        .map_err(|error| format!("pkg-config can't be run: {error}"))?;
    if !output.status.success() {
        return Err("pkg-config does not know wasmprinter".to_owned());
    }
    let folder = String::from_utf8(output.stdout).map_err(|error| error.to_string())?;
    let folder = folder.trim();
    if Path::new(folder).join(LIBRARY).exists() {
        Ok(folder.to_owned())
    } else {
        Err(format!("{folder} has no {LIBRARY}"))
    }
}

/// Returns the folder with the library, or the reason why there is none.
fn folder() -> Result<String, String> {
    let Ok(folder) = env::var("WASMPRINTER_LIB") else {
        return installed();
    };
    let path = Path::new(&folder);
    assert!(
        path.is_absolute(),
        "WASMPRINTER_LIB is not an absolute path: {folder}"
    );
    assert!(
        path.join(LIBRARY).exists(),
        "WASMPRINTER_LIB names a folder without {LIBRARY}: {folder}"
    );
    Ok(folder)
}

fn main() {
    for variable in ["WASMPRINTER_LIB", "PKG_CONFIG_PATH", "DOCS_RS"] {
        println!("cargo:rerun-if-env-changed={variable}");
    }
    if env::var_os("DOCS_RS").is_some() {
        return;
    }
    match folder() {
        Ok(folder) => {
            println!("cargo:rerun-if-changed={folder}/{LIBRARY}");
            println!("cargo:rustc-link-search=native={folder}");
            println!("cargo:rustc-link-lib=static=wasmprinter");
        }
        Err(reason) => {
            println!("cargo:warning=No program can be linked, since {reason}. Set WASMPRINTER_LIB, or install the library with tools/install.sh.");
            // Cargo runs this script again, as long as this file is missing.
            println!("cargo:rerun-if-changed={LIBRARY}");
        }
    }
}
