//! The build script of both crates: links the verified library that a crate is over, which `tools/libraries` writes to target/staticlib. IAL_LIB and
//! MERGE_LIB name another folder that holds libial.a or libmerge.a. A crate comes before those it uses, so libmerge.a before libial.a.
use std::path::Path;

fn main() {
    let name = std::env::var("CARGO_MANIFEST_LINKS").unwrap();
    let variable = format!("{}_LIB", name.to_uppercase());
    let own = Path::new(env!("CARGO_MANIFEST_DIR")).join("../../target/staticlib");
    let folder = std::env::var_os(&variable).map_or(own, Into::into);
    println!("cargo:rustc-link-search=native={}", folder.display());
    println!("cargo:rustc-link-lib=static={name}");
    println!("cargo:rerun-if-changed={}", folder.join(format!("lib{name}.a")).display());
    println!("cargo:rerun-if-env-changed={variable}");
}
