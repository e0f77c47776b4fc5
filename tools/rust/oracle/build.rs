//! Writes the patched files of phonors to OUT_DIR, with a `mods.rs` that declares them as modules.

use std::path::PathBuf;
use std::{env, fs};

mod phonors;

fn main() {
    println!("cargo:rerun-if-changed=build.rs");
    println!("cargo:rerun-if-changed=phonors.rs");
    let here = PathBuf::from(env::var_os("CARGO_MANIFEST_DIR").expect("set by cargo"));
    let out = PathBuf::from(env::var_os("OUT_DIR").expect("set by cargo"));
    let folder = phonors::source_folder(&here);
    let mut mods = String::new();
    for name in phonors::FILES {
        let path = out.join(format!("{name}.rs"));
        fs::write(&path, phonors::patched(&folder, name))
            .unwrap_or_else(|e| panic!("{}: {e}", path.display()));
        mods += &format!(
            "#[path = {path:?}]\n#[allow(dead_code, unused, clippy::all)]\npub mod {name};\n"
        );
    }
    fs::write(out.join("mods.rs"), mods).expect("mods.rs is written to OUT_DIR");
}
