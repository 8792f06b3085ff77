//! Links the proved library that `make` left in target/lib, or where KOLOWROTAN_LIB says.
use std::env;
use std::path::PathBuf;

fn main() {
    let here = PathBuf::from(env::var("CARGO_MANIFEST_DIR").expect("cargo sets it"));
    let folder = match env::var("KOLOWROTAN_LIB") {
        Ok(folder) => PathBuf::from(folder),
        Err(_) => here.join("../../target/lib"),
    };
    println!("cargo:rerun-if-env-changed=KOLOWROTAN_LIB");
    println!("cargo:rerun-if-changed={}", folder.join("libkolowrotan.a").display());
    println!("cargo:rustc-link-search=native={}", folder.display());
    println!("cargo:rustc-link-lib=static=kolowrotan");
}
