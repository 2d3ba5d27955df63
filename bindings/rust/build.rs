//! Links the proved router: `DUSTROUTE_ARCHIVE` names the folder that holds libdustroute.a.

use std::env;

fn main() {
    println!("cargo::rerun-if-env-changed=DUSTROUTE_ARCHIVE");
    let folder = env::var("DUSTROUTE_ARCHIVE").unwrap_or_else(|_| {
        let package = env::var("CARGO_MANIFEST_DIR").expect("run this through cargo");
        format!("{package}/../../target/native")
    });
    println!("cargo::rerun-if-changed={folder}/libdustroute.a");
    println!("cargo::rustc-link-search=native={folder}");
    println!("cargo::rustc-link-lib=static=dustroute");
}
