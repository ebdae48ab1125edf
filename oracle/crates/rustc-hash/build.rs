//! Takes Debian's rustc-hash where `oracle/fetch-rustc-hash` has put it, else the stand-in (RUSTC_HASH=stand-in asks for it).

use std::path::PathBuf;

fn main() {
    let package = PathBuf::from(std::env::var_os("CARGO_MANIFEST_DIR").expect("run by cargo"));
    let fetched = package.join("../../fetched");
    println!("cargo::rerun-if-changed={}", fetched.display());
    let debian = fetched.join("rustc-hash-1.1.0/src/lib.rs");
    println!("cargo::rerun-if-env-changed=RUSTC_HASH");
    let asked = std::env::var("RUSTC_HASH").is_ok_and(|name| name == "stand-in");
    let (file, source) = match debian.is_file() && !asked {
        true => (debian, "Debian's rustc-hash 1.1.0"),
        false => (package.join("src/stand_in.rs"), "the stand-in for rustc-hash"),
    };
    println!("cargo::rerun-if-changed={}", file.display());
    let text = format!(
        "#[allow(unused_attributes, dead_code)]\n#[path = {file:?}]\nmod source;\npub use source::FxHashMap;\n\
         /// Which hash map this build has.\npub const SOURCE: &str = {source:?};\n"
    );
    let out = PathBuf::from(std::env::var_os("OUT_DIR").expect("run by cargo"));
    std::fs::write(out.join("source.rs"), text).expect("OUT_DIR can be written");
}
