//! The times as a program; `tools/bench` builds and runs it. usage.txt has the words it takes, but for --self and --source, which are
//! the script's.

use bench::case::{Case, Timed};
use bench::measure::{measure, Times};
use bench::{plot, report};
use differential::doors::Doors;
use differential::progress::Line;
use std::process::ExitCode;

const USAGE: &str = include_str!("../usage.txt");

/// So often all cases are gone through, each time with a part of the rounds: what disturbs the machine for some seconds then spoils no row.
const PASSES: u32 = 4;

struct Wanted {
    rounds: u32,
    out: Option<String>,
    svg: Option<String>,
    words: Vec<String>,
}

fn wanted(mut args: impl Iterator<Item = String>) -> Option<Wanted> {
    let mut wanted = Wanted {
        rounds: 15,
        out: None,
        svg: None,
        words: vec![],
    };
    while let Some(arg) = args.next() {
        match arg.as_str() {
            "--rounds" => wanted.rounds = args.next()?.parse().ok().filter(|&n| n > 0)?,
            "--out" => wanted.out = Some(args.next()?),
            "--svg" => wanted.svg = Some(args.next()?),
            word if Timed::ALL.iter().any(|timed| timed.word() == word) => wanted.words.push(arg),
            _ => return None,
        }
    }
    Some(wanted)
}

#[cfg(feature = "library")]
fn library() -> (&'static dyn Doors, &'static str) {
    (&differential::library::Library, "The proved library")
}

/// Without the library the oracle stands in for it; its times say nothing.
#[cfg(not(feature = "library"))]
fn library() -> (&'static dyn Doors, &'static str) {
    (
        &differential::doors::ORACLE,
        "The oracle in the library's place",
    )
}

fn main() -> ExitCode {
    let Some(wanted) = wanted(std::env::args().skip(1)) else {
        eprint!("{USAGE}");
        return ExitCode::from(2);
    };
    match run(&wanted) {
        Ok(()) => ExitCode::SUCCESS,
        Err(what) => {
            eprintln!("{what}");
            ExitCode::FAILURE
        }
    }
}

fn run(wanted: &Wanted) -> Result<(), String> {
    let (doors, name) = library();
    let mut line = Line::new();
    let cases: Vec<Case> = Timed::ALL
        .into_iter()
        .filter(|timed| {
            wanted.words.is_empty() || wanted.words.iter().any(|word| word == timed.word())
        })
        .flat_map(Case::all)
        .collect();
    let passes = PASSES.min(wanted.rounds);
    let mut rows: Vec<(Case, Times)> = Vec::new();
    for pass in 0..passes {
        // The rounds are dealt out to the passes; the first take what is left over.
        let rounds = wanted.rounds / passes + u32::from(pass < wanted.rounds % passes);
        for (place, case) in cases.iter().enumerate() {
            line.show(&format!(
                "pass {} of {passes}: {} {} {} P = {}",
                pass + 1,
                case.timed.name(),
                case.choices(),
                case.flags(),
                case.atoms
            ));
            let times = measure(case, doors, rounds)?;
            match rows.get_mut(place) {
                Some(row) => row.1 = row.1.least(times),
                None => rows.push((*case, times)),
            }
        }
    }
    line.clear();
    let table = report::markdown(&rows, wanted.rounds, name);
    print!("{table}");
    let write = |file: &Option<String>, text: &str| match file {
        Some(file) => std::fs::write(file, text).map_err(|e| format!("{file}: {e}")),
        None => Ok(()),
    };
    write(&wanted.out, &table)?;
    write(&wanted.svg, &plot::svg(&rows))
}
