//! Tells cargo where `libyarib.a` is: in the directory `YARIB_LIB`, or in `bindings/out`, where `bindings/build` puts it.
use std::{env, path::PathBuf};

fn main() {
    println!("cargo:rerun-if-env-changed=YARIB_LIB");
    let folder = env::var_os("YARIB_LIB").map_or_else(
        || PathBuf::from(env::var_os("CARGO_MANIFEST_DIR").expect("cargo sets it")).join("../out"),
        PathBuf::from,
    );
    let library = folder.join("libyarib.a");
    println!("cargo:rerun-if-changed={}", library.display());
    assert!(
        library.exists(),
        "{} is missing: run bindings/build first, or set YARIB_LIB",
        library.display()
    );
    println!("cargo:rustc-link-search=native={}", folder.display());
    println!("cargo:rustc-link-lib=static=yarib");
}
