//! The comparison as a program; `tools/differential` builds and runs it. usage.txt has the words it takes, but for --self and --source,
//! which are the script's.

use differential::call::{Call, Door};
use differential::cartons;
use differential::compare::{difference, expected, keep_tried_panics, tried, work};
use differential::doors::{Doors, ORACLE};
use differential::generate;
use differential::key;
use differential::progress::Progress;
use differential::replay;
use differential::tally::{CartonTally, Tally};
use differential::threads;
use std::ffi::OsStr;
use std::process::ExitCode;

const USAGE: &str = include_str!("../usage.txt");

/// After so many mismatches of a door the rest are counted and not printed.
const PRINTED: u64 = 20;

#[derive(Default)]
struct Wanted {
    faults: bool,
    replay: Option<String>,
    only: Option<u64>,
    trace: bool,
    threads: Option<usize>,
    seed: u64,
    sets: u64,
    doors: Vec<Door>,
    key: bool,
}

fn wanted(mut args: impl Iterator<Item = String>) -> Option<Wanted> {
    let mut wanted = Wanted::default();
    let mut numbers = Vec::new();
    while let Some(arg) = args.next() {
        match arg.as_str() {
            "--faults" => wanted.faults = true,
            "--replay" => wanted.replay = Some(args.next()?),
            "--trace" => wanted.trace = true,
            "--only" => wanted.only = Some(args.next()?.parse().ok()?),
            "--threads" => wanted.threads = Some(args.next()?.parse().ok().filter(|&n| n > 0)?),
            "key" => wanted.key = true,
            word => match Door::named(word) {
                Some(door) if wanted.doors.contains(&door) => (),
                Some(door) => wanted.doors.push(door),
                None => numbers.push(word.parse().ok()?),
            },
        }
    }
    [wanted.seed, wanted.sets] = numbers.try_into().ok()?;
    if wanted.doors.is_empty() && !wanted.key {
        wanted.doors = Door::ALL.to_vec();
        wanted.key = true;
    }
    Some(wanted)
}

fn main() -> ExitCode {
    let Some(wanted) = wanted(std::env::args().skip(1)) else {
        eprint!("{USAGE}");
        return ExitCode::from(2);
    };
    keep_tried_panics();
    if wanted.faults {
        return hunt_faults(&wanted);
    }
    if let Some(folder) = &wanted.replay {
        return write_replay(folder, &wanted);
    }
    let mut compared = 0;
    let mut mismatches = 0;
    if !wanted.doors.is_empty() {
        let tally = compare_doors(&wanted);
        compared += tally.sets();
        mismatches += tally.mismatches;
        println!("{}", tally.report());
    }
    if wanted.key {
        let tally = compare_key(&wanted);
        compared += tally.cartons();
        mismatches += tally.mismatches;
        println!("{}", tally.report());
    }
    println!("compared {compared}, mismatches {mismatches}");
    ExitCode::from(u8::from(mismatches > 0))
}

/// Writes the files `stdin` and `stdout` of the program `key_replay`.
fn write_replay(folder: &str, wanted: &Wanted) -> ExitCode {
    let stream = replay::stream(wanted.seed, wanted.sets as usize);
    let written = std::fs::write(format!("{folder}/stdin"), &stream.cartons)
        .and_then(|()| std::fs::write(format!("{folder}/stdout"), &stream.texts));
    match written {
        Ok(()) => ExitCode::SUCCESS,
        Err(e) => {
            eprintln!("{folder}: {e}");
            ExitCode::from(2)
        }
    }
}

#[cfg(feature = "library")]
fn doors() -> &'static (dyn Doors + Sync) {
    &differential::library::Library
}

/// Without the library the oracle stands in for it.
#[cfg(not(feature = "library"))]
fn doors() -> &'static (dyn Doors + Sync) {
    println!("the oracle stands in for the library");
    &ORACLE
}

fn indices(wanted: &Wanted) -> std::ops::Range<u64> {
    match wanted.only {
        Some(index) => index..index.saturating_add(1),
        None => 0..wanted.sets,
    }
}

/// How many threads share the indices; a trace has them in order.
fn threads_of(wanted: &Wanted) -> usize {
    if wanted.trace {
        return 1;
    }
    wanted.threads.unwrap_or_else(threads::of_machine)
}

/// What the comparison of one set or carton has to say.
enum Compared {
    Same(String),
    Mismatch(String),
}

/// Works each index on several threads with `compare`, prints what it has to say and gives what each thread counted.
fn compare_all<T: Default + Send>(
    wanted: &Wanted,
    name: &'static str,
    compare: impl Fn(&mut T, u64) -> Compared + Sync,
) -> Vec<T> {
    let progress = Progress::of(name, indices(wanted));
    let tallies = threads::share(
        indices(wanted),
        threads_of(wanted),
        |tally: &mut T, index| {
            if wanted.trace {
                eprintln!("{name} {index}");
            }
            match compare(tally, index) {
                Compared::Mismatch(how) => {
                    if progress.wrong() <= PRINTED {
                        let again = format!(
                            "tools/differential --only {index} {} {} {name}",
                            wanted.seed,
                            index + 1
                        );
                        let set = format!("seed {}, index {index}", wanted.seed);
                        progress.print(&format!("MISMATCH {set}: {how}\n  again: {again}"));
                    }
                }
                Compared::Same(what) if wanted.only.is_some() => {
                    progress.print(&format!("{what}, no mismatch"));
                }
                Compared::Same(_) => (),
            }
            if !wanted.trace {
                progress.step();
            }
        },
    );
    progress.clear();
    tallies
}

fn compare_doors(wanted: &Wanted) -> Tally {
    let doors = doors();
    let mut whole = Tally::default();
    for &door in &wanted.doors {
        let tallies = compare_all(wanted, door.name(), |tally: &mut Tally, index| {
            compare_set(wanted.seed, doors, door, index, tally)
        });
        for tally in &tallies {
            whole.add(tally);
        }
    }
    whole
}

/// A panic of generator or oracle is a mismatch too: the set was not compared.
fn compare_set(
    seed: u64,
    doors: &dyn Doors,
    door: Door,
    index: u64,
    tally: &mut Tally,
) -> Compared {
    let call = match tried(|| generate::call(seed, door, index)) {
        Ok(call) => call,
        Err(what) => {
            tally.note_lost(door);
            return Compared::Mismatch(format!("{}: the generator {what}", door.name()));
        }
    };
    let oracle = expected(&call);
    tally.note(&call, oracle.as_ref().ok().map(|outcome| outcome.answer));
    let how = match &oracle {
        Ok(oracle) => difference(&call, oracle, &work(doors, &call))
            .map(|how| format!("the oracle answers {}; {how}", oracle.answer)),
        Err(what) => Some(what.clone()),
    };
    match (how, oracle) {
        (None, Ok(oracle)) => {
            Compared::Same(format!("{} answers {}", describe(&call), oracle.answer))
        }
        (how, _) => {
            tally.mismatches += 1;
            Compared::Mismatch(format!(
                "{}\n  {}",
                describe(&call),
                how.unwrap_or_default()
            ))
        }
    }
}

fn describe(call: &Call) -> String {
    let set = &call.set.strengths;
    let mut text = format!(
        "{}, kind {:?}, {:?}, {:?}, {:?}, {:?}",
        call.door.name(),
        call.kind.name(),
        set.measures,
        set.settings,
        set.form,
        set.symmetry
    );
    if let Some(limit) = call.limit {
        text += &format!(", at the limit {:?}", limit.name());
    }
    if call.door == Door::List {
        text += &format!(", list {}", call.list);
    }
    if call.door.has_bath() {
        text += &format!(", {:?}, {:?}", call.weighting, call.set.bath);
    }
    if call.door == Door::Weights {
        text += &format!(", {:?}", call.shape);
    }
    if !call.planted.is_empty() {
        text += &format!(", planted {:?}", call.planted);
    }
    if let Some(foreign) = call.foreign {
        text += &format!(", {foreign:?}");
    }
    text
}

/// Runs the program named by KEY; without it the oracle's `key` stands in. The program must also tell of an answer that it cannot write.
fn compare_key(wanted: &Wanted) -> CartonTally {
    let program = std::env::var_os("KEY");
    if program.is_none() {
        println!("the oracle stands in for the program key");
    }
    let tallies = compare_all(wanted, "key", |tally: &mut CartonTally, index| {
        compare_carton(wanted.seed, program.as_deref(), index, tally)
    });
    let mut whole = CartonTally::default();
    for tally in &tallies {
        whole.add(tally);
    }
    if let Some(Err(how)) = program.as_deref().map(key::tells_of_a_cut) {
        println!("MISMATCH key: {how}");
        whole.mismatches += 1;
    }
    whole
}

fn compare_carton(
    seed: u64,
    program: Option<&OsStr>,
    index: u64,
    tally: &mut CartonTally,
) -> Compared {
    let carton = match tried(|| cartons::carton(seed, index)) {
        Ok(carton) => carton,
        Err(what) => {
            tally.note_lost();
            return Compared::Mismatch(format!("key: the generator {what}"));
        }
    };
    let oracle = tried(|| (ORACLE.key)(&carton.bytes));
    tally.note(carton.kind, oracle.as_deref().ok());
    let how = match &oracle {
        Ok(oracle) => {
            let printed = match program {
                Some(program) => key::run(program, &carton.bytes),
                None => Ok((ORACLE.key)(&carton.bytes)),
            };
            (printed.as_ref() != Ok(oracle)).then(|| key_difference(oracle, printed))
        }
        Err(what) => Some(format!("the oracle {what}")),
    };
    let carton = format!(
        "key, kind {:?}, {} bytes, damage {:?}",
        carton.kind.name(),
        carton.bytes.len(),
        carton.damage
    );
    match (how, oracle) {
        (None, Ok(oracle)) => {
            let line = String::from_utf8_lossy(&oracle);
            Compared::Same(format!(
                "{carton} prints {:?} first",
                line.lines().next().unwrap_or("")
            ))
        }
        (how, _) => {
            tally.mismatches += 1;
            Compared::Mismatch(format!("{carton}\n  {}", how.unwrap_or_default()))
        }
    }
}

fn key_difference(oracle: &[u8], printed: Result<Vec<u8>, String>) -> String {
    let printed = match printed {
        Ok(printed) => printed,
        Err(how) => return format!("the program {how}"),
    };
    let (a, b) = (
        String::from_utf8_lossy(oracle),
        String::from_utf8_lossy(&printed),
    );
    let line = a
        .lines()
        .zip(b.lines())
        .position(|(x, y)| x != y)
        .unwrap_or(a.lines().count().min(b.lines().count()));
    // A program that is not key may print anything.
    let start = |text: &str| -> String {
        let line = text.lines().nth(line).unwrap_or("");
        line.chars().take(80).collect()
    };
    format!(
        "line {line}: oracle {:?}, program {:?}",
        start(&a),
        start(&b)
    )
}

#[cfg(not(feature = "faults"))]
fn hunt_faults(_: &Wanted) -> ExitCode {
    eprintln!("built without the feature faults");
    ExitCode::from(2)
}

/// Prints for each mistake the number of sets until each of its doors showed it; names those not found.
#[cfg(feature = "faults")]
fn hunt_faults(wanted: &Wanted) -> ExitCode {
    use std::collections::HashSet;
    let mut line = differential::progress::Line::new();
    let hunts = differential::hunt::hunt(
        wanted.seed,
        wanted.sets,
        &wanted.doors,
        wanted.key,
        |text| line.show(text),
    );
    line.clear();
    for group in hunts.chunk_by(|a, b| a.fault.name == b.fault.name) {
        print!("{}:", group[0].fault.name);
        for hunt in group {
            match &hunt.found {
                Some(found) => print!(" {} {}", hunt.door, found.sets),
                None => print!(" {} -", hunt.door),
            }
        }
        println!();
    }
    let wrong = || hunts.iter().filter(|hunt| !hunt.is_right());
    for hunt in wrong() {
        match &hunt.found {
            Some(found) => println!("NO MISTAKE, but found at {}: {}", hunt.door, found.by),
            None => println!("NOT FOUND: {} at {}", hunt.fault.name, hunt.door),
        }
    }
    let of_mistakes = hunts.iter().filter(|hunt| hunt.fault.name != faults::NONE);
    let missed = of_mistakes
        .clone()
        .filter(|hunt| hunt.found.is_none())
        .count();
    let mistakes: HashSet<&str> = of_mistakes.clone().map(|hunt| hunt.fault.name).collect();
    println!(
        "{} faults, {} with their doors, not found {missed}",
        mistakes.len(),
        of_mistakes.count()
    );
    ExitCode::from(u8::from(wrong().next().is_some()))
}
