//! Finds libdeltat and links it: in DELTAT_LIB_DIR; else in lib/ of the clone that this crate is in;
//! else where a `deltat.pc` says, in the folders in which pkg-config looks.
use std::path::{Path, PathBuf};
use std::{env, fs, process};

fn main() {
    println!("cargo:rerun-if-changed=build.rs");
    println!("cargo:rerun-if-env-changed=DELTAT_LIB_DIR");
    println!("cargo:rerun-if-env-changed=PKG_CONFIG_PATH");
    if env::var_os("DOCS_RS").is_some() {
        return; // only documents are made, and nothing is linked
    }
    match found() {
        Ok(folder) => link(&folder),
        Err(why) => {
            eprintln!(
                "deltat-sys: {why}; run `make -C lib`, install the package, or set DELTAT_LIB_DIR"
            );
            process::exit(1);
        }
    }
}

/// The folder of the library.
fn found() -> Result<PathBuf, String> {
    if let Some(folder) = env::var_os("DELTAT_LIB_DIR").map(PathBuf::from) {
        let problem =
            format!("no libdeltat.a or libdeltat.so in DELTAT_LIB_DIR: {}", folder.display());
        return has_library(&folder).then_some(folder).ok_or(problem);
    }
    let own = PathBuf::from(variable("CARGO_MANIFEST_DIR")).join("../../../lib");
    let described =
        pkg_config_folders().into_iter().filter_map(|it| library_folder(&it.join("deltat.pc")));
    std::iter::once(own)
        .chain(described)
        .find(|it| has_library(it))
        .ok_or_else(|| "no libdeltat.a or libdeltat.so here or where a deltat.pc says".to_string())
}

fn variable(name: &str) -> String {
    env::var(name).unwrap_or_else(|_| panic!("cargo sets {name}"))
}

fn has_library(folder: &Path) -> bool {
    ["libdeltat.a", "libdeltat.so"].iter().any(|it| folder.join(it).exists())
}

/// Where pkg-config looks: PKG_CONFIG_PATH, then the folders of the system.
fn pkg_config_folders() -> Vec<PathBuf> {
    let mut folders: Vec<PathBuf> =
        env::var_os("PKG_CONFIG_PATH").map_or(Vec::new(), |it| env::split_paths(&it).collect());
    let triplet = format!("{}-linux-gnu", variable("CARGO_CFG_TARGET_ARCH"));
    for prefix in ["/usr/local", "/usr"] {
        for lib in ["lib".to_string(), format!("lib/{triplet}"), "lib64".to_string()] {
            folders.push(Path::new(prefix).join(lib).join("pkgconfig"));
        }
    }
    folders
}

/// The `libdir` of a description, with the names before it put in.
fn library_folder(description: &Path) -> Option<PathBuf> {
    println!("cargo:rerun-if-changed={}", description.display());
    let mut known: Vec<(String, String)> = Vec::new();
    for line in fs::read_to_string(description).ok()?.lines() {
        if let Some((name, value)) = line.split_once('=') {
            let value = known
                .iter()
                .fold(value.trim().to_string(), |it, (name, value)| it.replace(name, value));
            if name.trim() == "libdir" {
                return Some(PathBuf::from(value));
            }
            known.push((format!("${{{}}}", name.trim()), value));
        }
    }
    None
}

/// The archive is preferred: then the program runs where no library is installed.
fn link(folder: &Path) {
    let archive = folder.join("libdeltat.a");
    println!("cargo:rerun-if-changed={}", archive.display());
    println!("cargo:rustc-link-search=native={}", folder.display());
    println!(
        "cargo:rustc-link-lib={}",
        if archive.exists() { "static=deltat" } else { "dylib=deltat" }
    );
    println!("cargo:libdir={}", folder.display());
}
