//! Links libdeltat-udp, which is in the folder of libdeltat: deltat-sys has found that.
use std::path::PathBuf;
use std::{env, process};

fn main() {
    println!("cargo:rerun-if-changed=build.rs");
    if env::var_os("DOCS_RS").is_some() {
        return; // only documents are made, and nothing is linked
    }
    let folder = PathBuf::from(env::var_os("DEP_DELTAT_LIBDIR").unwrap_or_default());
    let archive = folder.join("libdeltat-udp.a");
    println!("cargo:rerun-if-changed={}", archive.display());
    if archive.exists() {
        println!("cargo:rustc-link-lib=static=deltat-udp");
    } else if folder.join("libdeltat-udp.so").exists() {
        println!("cargo:rustc-link-lib=dylib=deltat-udp");
    } else {
        eprintln!(
            "deltat-udp-sys: no libdeltat-udp.a or libdeltat-udp.so beside libdeltat: {}; run `make -C lib`, \
             install the package, or set DELTAT_LIB_DIR",
            folder.display()
        );
        process::exit(1);
    }
    println!("cargo:rustc-link-search=native={}", folder.display());
}
