//! Checks the published files against PUBLISHED.sha256 and writes the module list that `src/lib.rs` includes.
//! The files are compiled from where they lie; none is copied or changed.

mod check;
mod sha256;

use std::path::{Path, PathBuf};
use std::{env, fs, process};

const LIST: &str = "../PUBLISHED.sha256";

fn main() {
    println!("cargo::rerun-if-env-changed=DUSTROUTE_SRC");
    println!("cargo::rerun-if-changed={LIST}");
    if let Err(message) = write_modules() {
        eprintln!("{message}");
        process::exit(1);
    }
}

fn write_modules() -> Result<(), String> {
    let folder = env::var_os("DUSTROUTE_SRC").ok_or(
        "DUSTROUTE_SRC is not set: it names the folder that holds crates/dustroute-translate/src",
    )?;
    let list = fs::read_to_string(LIST).map_err(|error| format!("{LIST}: {error}"))?;
    let files = check::published_files(&list, Path::new(&folder))?;
    for file in &files {
        println!("cargo::rerun-if-changed={}", file.display());
    }
    let out =
        PathBuf::from(env::var_os("OUT_DIR").ok_or("OUT_DIR is not set: run this through cargo")?);
    let modules: String = files.iter().map(|file| module_line(file)).collect();
    for file in files.iter().filter(|file| file.ends_with("multinet.rs")) {
        println!("cargo::rustc-env=MULTINET={}", file.display());
    }
    fs::write(out.join("published.rs"), modules).map_err(|error| error.to_string())
}

fn module_line(file: &Path) -> String {
    let name = file.file_stem().unwrap_or_default().to_string_lossy();
    format!("#[path = {file:?}]\npub mod {name};\n")
}
