//! The six files of phonors and every change made to them, for the build of the oracle and of the faults. No text of phonors enters
//! the repository.

use std::path::{Path, PathBuf};
use std::{env, fs};

pub const FILES: [&str; 6] = [
    "interaction",
    "reciprocal_to_normal",
    "real_to_reciprocal",
    "imag_self_energy",
    "common",
    "funcs",
];

/// One exact replacement: `find` must occur `times` times in `file`.
struct Patch {
    file: &'static str,
    find: &'static str,
    put: &'static str,
    times: usize,
}

/// The two stand-ins, then two functions opened to this crate.
const PATCHES: [Patch; 4] = [
    Patch {
        file: "real_to_reciprocal",
        find: "phase.sin_cos()",
        put: "crate::standins::sin_cos(phase)",
        times: 2,
    },
    Patch {
        file: "funcs",
        find: "(x / temperature_thz).exp()",
        put: "crate::standins::exp(x / temperature_thz)",
        times: 1,
    },
    Patch {
        file: "interaction",
        find: "\nfn compute_q_vecs(",
        put: "\npub(crate) fn compute_q_vecs(",
        times: 1,
    },
    Patch {
        file: "imag_self_energy",
        find: "\nfn set_g_pos_at_frequency_point(",
        put: "\npub(crate) fn set_g_pos_at_frequency_point(",
        times: 1,
    },
];

/// Calls whose bits depend on the machine's library or on a fused operation: none may be left after patching.
const MACHINE_CALLS: [&str; 13] = [
    ".sin_cos(",
    ".sin(",
    ".cos(",
    ".tan(",
    ".sinh(",
    ".exp(",
    ".exp2(",
    ".exp_m1(",
    ".ln(",
    ".powf(",
    ".powi(",
    ".cbrt(",
    ".mul_add(",
];

/// The exceptions, one call each: `gaussian` and `inv_sinh_occupation`, which no door reaches.
const KEPT_CALLS: [(&str, &str); 2] = [("funcs", ".exp("), ("funcs", ".sinh(")];

/// The folder that holds the .rs files: PHONORS_SRC/src, or `shared` beside the repository. `oracle` is the folder of this file.
pub fn source_folder(oracle: &Path) -> PathBuf {
    println!("cargo:rerun-if-env-changed=PHONORS_SRC");
    let root = match env::var_os("PHONORS_SRC") {
        Some(folder) if !folder.is_empty() => PathBuf::from(folder),
        _ => oracle.join("../../../../shared/docs/src"),
    };
    root.join("src")
}

/// The text of one of the files with its patches made.
pub fn patched(folder: &Path, file: &str) -> String {
    let path = folder.join(format!("{file}.rs"));
    println!("cargo:rerun-if-changed={}", path.display());
    let mut text = fs::read_to_string(&path).unwrap_or_else(|e| {
        panic!(
            "{}: {e}; set PHONORS_SRC to the folder of the phonors source",
            path.display()
        )
    });
    for patch in PATCHES.iter().filter(|patch| patch.file == file) {
        let found = text.matches(patch.find).count();
        assert!(
            found == patch.times,
            "{file}.rs: `{}` occurs {found} times, expected {}",
            patch.find.trim(),
            patch.times
        );
        text = text.replace(patch.find, patch.put);
    }
    check_machine_calls(file, &text);
    text
}

/// Stops the build if the patched `text` of `file` calls the machine's functions beyond the exceptions.
fn check_machine_calls(file: &str, text: &str) {
    for call in MACHINE_CALLS {
        let found = text.matches(call).count();
        let kept = usize::from(KEPT_CALLS.contains(&(file, call)));
        assert!(
            found == kept,
            "{file}.rs, patched: `{call}` occurs {found} times, expected {kept}"
        );
    }
}
