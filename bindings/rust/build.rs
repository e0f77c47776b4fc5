//! Finds the static library: in the folder that WIRAMBOLO_LIB names, else in the repository's target/staticlib.

use std::env;
use std::path::PathBuf;
use std::process::exit;

const LIBRARY: &str = "libwirambolo_c.a";

fn main() {
    println!("cargo:rerun-if-changed=build.rs");
    println!("cargo:rerun-if-env-changed=WIRAMBOLO_LIB");
    let folder = match env::var_os("WIRAMBOLO_LIB") {
        Some(folder) => PathBuf::from(folder),
        None => PathBuf::from(env!("CARGO_MANIFEST_DIR")).join("../../target/staticlib"),
    };
    let library = folder.join(LIBRARY);
    println!("cargo:rerun-if-changed={}", library.display());
    let Ok(library) = library.canonicalize() else {
        eprintln!("{} is not there.", library.display());
        eprintln!("Build it with `tools/build wirambolo_c` at the top of the repository,");
        eprintln!(
            "or name its folder, by its full path, in the environment variable WIRAMBOLO_LIB."
        );
        exit(1);
    };
    if let Some(folder) = library.parent() {
        println!("cargo:rustc-link-search=native={}", folder.display());
    }
}
