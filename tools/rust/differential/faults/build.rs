//! Reads faults.txt and writes one module for each mistake: the files of the oracle and of phonors that the mistake
//! changes and those that use them, with the mistake put in. The others come from one copy without mistakes.

use std::collections::BTreeMap;
use std::path::{Path, PathBuf};
use std::{env, fs};

#[path = "../../oracle/phonors.rs"]
mod phonors;

const ORACLE: [&str; 5] = ["doors", "refusals", "standins", "weights", "carton"];

struct Change {
    file: String,
    times: usize,
    find: String,
    put: String,
}

struct Fault {
    name: String,
    doors: String,
    changes: Vec<Change>,
}

fn main() {
    let here = PathBuf::from(env::var_os("CARGO_MANIFEST_DIR").expect("set by cargo"));
    let out = PathBuf::from(env::var_os("OUT_DIR").expect("set by cargo"));
    let files = base_files(&here);
    let faults = parse(&read(&here.join("faults.txt")));
    println!("cargo:rerun-if-changed=build.rs");
    println!("cargo:rerun-if-changed=../../oracle/phonors.rs");
    let mut modules = String::new();
    let mut table = String::new();
    modules += &module(&out, "base", &files, &files, true);
    for (place, fault) in faults.iter().enumerate() {
        let name = format!("fault{place}");
        let changed = with_mistake(&files, fault);
        modules += &module(&out, &name, &changed, &files, fault.doors.contains("key"));
        table += &format!(
            "Fault {{ name: {:?}, doors: {:?}, one_triplet: {name}::doors::one_triplet, \
             list_of_triplets: {name}::doors::list_of_triplets, totals_alone: {name}::doors::totals_alone, \
             joined: {name}::doors::joined, integration_weights: {name}::doors::integration_weights, \
             key: {name}::carton::key }},\n",
            fault.name, fault.doors
        );
    }
    modules += &format!("pub static FAULTS: &[Fault] = &[\n{table}];\n");
    fs::write(out.join("faults.rs"), modules).expect("faults.rs is written to OUT_DIR");
}

fn read(path: &Path) -> String {
    println!("cargo:rerun-if-changed={}", path.display());
    fs::read_to_string(path).unwrap_or_else(|e| panic!("{}: {e}", path.display()))
}

/// The files without mistakes, by name.
fn base_files(here: &Path) -> BTreeMap<String, String> {
    let oracle = here.join("../../oracle");
    let folder = phonors::source_folder(&oracle);
    let mut files = BTreeMap::new();
    for name in phonors::FILES {
        files.insert(name.to_string(), phonors::patched(&folder, name));
    }
    for name in ORACLE {
        let text = read(&oracle.join(format!("src/{name}.rs")));
        files.insert(
            name.to_string(),
            text.replace("#[cfg(test)]", "#[cfg(any())]"),
        );
    }
    files
}

/// A fault is `== name`, `doors ..`, then changes `-- file [times]`, old text, `-- with`, new text. Lines that begin with
/// `#` before the first fault are comments.
fn parse(text: &str) -> Vec<Fault> {
    let mut faults = Vec::new();
    for block in text.split("\n== ").skip(1) {
        let (name, rest) = block.split_once('\n').expect("a line behind the name");
        let (doors, rest) = rest.split_once('\n').unwrap_or((rest, ""));
        let doors = doors
            .strip_prefix("doors ")
            .unwrap_or_else(|| panic!("{name}: no doors"));
        let mut changes = Vec::new();
        for part in format!("\n{}", rest.trim_end_matches('\n'))
            .split("\n-- ")
            .skip(1)
        {
            match part.split_once('\n') {
                _ if part.starts_with("with") => {
                    let change: &mut Change = changes.last_mut().expect("old text before the new");
                    change.put = part
                        .strip_prefix("with")
                        .unwrap_or("")
                        .trim_start_matches('\n')
                        .to_string();
                }
                Some((head, find)) => {
                    let mut words = head.split(' ');
                    changes.push(Change {
                        file: words.next().unwrap_or("").to_string(),
                        times: words
                            .next()
                            .map_or(1, |n| n.parse().expect("a number of times")),
                        find: find.to_string(),
                        put: String::new(),
                    });
                }
                None => panic!("{name}: `{part}`"),
            }
        }
        faults.push(Fault {
            name: name.to_string(),
            doors: doors.to_string(),
            changes,
        });
    }
    faults
}

fn with_mistake(files: &BTreeMap<String, String>, fault: &Fault) -> BTreeMap<String, String> {
    let mut files = files.clone();
    for change in &fault.changes {
        let text = files
            .get_mut(&change.file)
            .unwrap_or_else(|| panic!("{}: no file {}", fault.name, change.file));
        let found = text.matches(&change.find).count();
        assert!(
            found == change.times,
            "{}: `{}` occurs {found} times in {}.rs, expected {}",
            fault.name,
            change.find,
            change.file,
            change.times
        );
        *text = text.replace(&change.find, &change.put);
    }
    files
}

/// A module with the files that differ from `base`, and those that use them; all of them for the base itself, and the
/// carton's only where `key` must show the mistake.
fn module(
    out: &Path,
    name: &str,
    files: &BTreeMap<String, String>,
    base: &BTreeMap<String, String>,
    with_key: bool,
) -> String {
    let own = own_files(files, base, name == "base", with_key);
    let folder = out.join(name);
    fs::create_dir_all(&folder).expect("a folder in OUT_DIR");
    let mut text =
        format!("#[allow(warnings, clippy::all)]\nmod {name} {{\npub use oracle::sets;\n");
    for (file, source) in files {
        if own.contains(file) {
            let path = folder.join(format!("{file}.rs"));
            fs::write(&path, source.replace("crate::", "super::")).expect("a file in OUT_DIR");
            text += &format!("#[path = {path:?}]\npub mod {file};\n");
        } else {
            text += &format!("pub use super::base::{file};\n");
        }
    }
    text + "}\n"
}

fn own_files(
    files: &BTreeMap<String, String>,
    base: &BTreeMap<String, String>,
    all: bool,
    with_key: bool,
) -> Vec<String> {
    let mut own: Vec<String> = files
        .keys()
        .filter(|&file| all || files[file] != base[file])
        .cloned()
        .collect();
    loop {
        let uses = |file: &String| {
            own.iter()
                .any(|o| files[file].contains(&format!("crate::{o}")))
        };
        let more: Vec<String> = files
            .keys()
            .filter(|&file| !own.contains(file) && uses(file) && (with_key || file != "carton"))
            .cloned()
            .collect();
        if more.is_empty() {
            return own;
        }
        own.extend(more);
    }
}
