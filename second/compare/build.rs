//! Links the proved library's archive from the folder named by `HAULSPAR_LIB`.

use std::env;
use std::fs;
use std::path::{Path, PathBuf};
use std::process::ExitCode;

/// The variable that names the archive's folder.
const FOLDER_VARIABLE: &str = "HAULSPAR_LIB";

/// The archive's file name.
const ARCHIVE: &str = "libhaulspar.a";

/// Tells cargo what to link, or why it cannot be linked.
fn main() -> ExitCode {
    println!("cargo:rerun-if-env-changed={FOLDER_VARIABLE}");
    match folder() {
        Ok(folder) => {
            println!("cargo:rerun-if-changed={}", folder.join(ARCHIVE).display());
            println!("cargo:rustc-link-search=native={}", folder.display());
            println!("cargo:rustc-link-lib=static=haulspar");
            ExitCode::SUCCESS
        }
        Err(reason) => {
            eprintln!("error: {reason}");
            ExitCode::FAILURE
        }
    }
}

/// The folder that holds the archive.
fn folder() -> Result<PathBuf, String> {
    let named = env::var_os(FOLDER_VARIABLE).ok_or(format!(
        "{FOLDER_VARIABLE} is not set; it names the folder of {ARCHIVE}"
    ))?;
    let folder = fs::canonicalize(Path::new(&named))
        .map_err(|error| format!("{FOLDER_VARIABLE}, {}: {error}", named.display()))?;
    if folder.join(ARCHIVE).is_file() {
        Ok(folder)
    } else {
        Err(format!(
            "{FOLDER_VARIABLE}: there is no {ARCHIVE} in {}",
            folder.display()
        ))
    }
}
