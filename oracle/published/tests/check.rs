//! The check of the published files: right sums pass, a changed or missing file is refused by name.

#[path = "../build/check.rs"]
mod check;
#[path = "../build/sha256.rs"]
mod sha256;

use std::fs;
use std::path::PathBuf;

/// A folder of one file, `a.rs`, that holds `abc`.
fn folder(name: &str) -> PathBuf {
    let folder = PathBuf::from(env!("CARGO_TARGET_TMPDIR")).join(name);
    fs::create_dir_all(&folder).unwrap();
    fs::write(folder.join("a.rs"), "abc").unwrap();
    folder
}

const ABC: &str = "ba7816bf8f01cfea414140de5dae2223b00361a396177a9cb410ff61f20015ad";

#[test]
fn sums_of_the_standard() {
    assert_eq!(sha256::sha256_hex(b"abc"), ABC);
    assert_eq!(
        sha256::sha256_hex(b""),
        "e3b0c44298fc1c149afbf4c8996fb92427ae41e4649b934ca495991b7852b855"
    );
    assert_eq!(
        sha256::sha256_hex(b"abcdbcdecdefdefgefghfghighijhijkijkljklmklmnlmnomnopnopq"),
        "248d6a61d20638b8e5c026930c3e6039a33ce45964ff2167f6ecedd419db06c1"
    );
}

#[test]
fn the_right_file_passes() {
    let files = check::published_files(&format!("{ABC}  a.rs\n"), &folder("right")).unwrap();
    assert!(files[0].ends_with("right/a.rs"));
}

#[test]
fn a_changed_file_is_refused() {
    let folder = folder("changed");
    fs::write(folder.join("a.rs"), "abd").unwrap();
    let message = check::published_files(&format!("{ABC}  a.rs\n"), &folder).unwrap_err();
    assert!(
        message.contains("a.rs is not the published file"),
        "{message}"
    );
}

#[test]
fn a_missing_file_is_refused() {
    let message =
        check::published_files(&format!("{ABC}  b.rs\n"), &folder("missing")).unwrap_err();
    assert!(message.contains("b.rs"), "{message}");
}

#[test]
fn a_missing_folder_is_refused() {
    let folder = folder("gone").join("nowhere");
    let message = check::published_files("", &folder).unwrap_err();
    assert!(message.contains("nowhere"), "{message}");
}
