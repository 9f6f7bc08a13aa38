//! Links the static library libhost.a when LINEBOX_LIB names it.
//! LINEBOX_LIB is the library file itself or the folder that holds it.

use std::env;
use std::path::PathBuf;

fn main() {
    println!("cargo:rerun-if-changed=build.rs");
    println!("cargo:rerun-if-env-changed=LINEBOX_LIB");
    if let Some(value) = env::var_os("LINEBOX_LIB") {
        let named = PathBuf::from(value);
        let folder = if named.is_dir() {
            named.clone()
        } else {
            match named.parent() {
                Some(parent) => parent.to_path_buf(),
                None => PathBuf::from("."),
            }
        };
        println!("cargo:rerun-if-changed={}", folder.join("libhost.a").display());
        println!("cargo:rustc-link-search=native={}", folder.display());
        println!("cargo:rustc-link-lib=static=host");
    }
}
