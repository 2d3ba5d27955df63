//! The published files are used only if each has the sum that PUBLISHED.sha256 lists.

use std::fs;
use std::path::{Path, PathBuf};

use crate::sha256::sha256_hex;

/// The listed files below `folder`, in the list's order; an error names the first that is missing or differs.
pub fn published_files(list: &str, folder: &Path) -> Result<Vec<PathBuf>, String> {
    let folder = folder
        .canonicalize()
        .map_err(|error| format!("published sources: {}: {error}", folder.display()))?;
    list.lines()
        .map(|line| checked_file(line, &folder))
        .collect()
}

fn checked_file(line: &str, folder: &Path) -> Result<PathBuf, String> {
    let (sum, name) = line
        .split_once("  ")
        .ok_or_else(|| format!("PUBLISHED.sha256: not a line of sha256sum: {line}"))?;
    let file = folder.join(name);
    let bytes = fs::read(&file)
        .map_err(|error| format!("published sources: {}: {error}", file.display()))?;
    let found = sha256_hex(&bytes);
    if found != sum {
        return Err(format!(
            "published sources: {} is not the published file: its sha256 is {found}, PUBLISHED.sha256 says {sum}",
            file.display()
        ));
    }
    Ok(file)
}
