//! How far a run has come: on a terminal one line that is written over, elsewhere a new line now and then.

use std::io::{stderr, IsTerminal, Write};
use std::ops::Range;
use std::sync::{Mutex, MutexGuard};
use std::time::{Duration, Instant};

/// Times between two lines, on a terminal and elsewhere.
const SOON: Duration = Duration::from_millis(200);
const LATER: Duration = Duration::from_secs(10);

pub struct Line {
    terminal: bool,
    due: Instant,
}

impl Line {
    pub fn new() -> Line {
        let terminal = stderr().is_terminal();
        let wait = if terminal { Duration::ZERO } else { LATER };
        Line {
            terminal,
            due: Instant::now() + wait,
        }
    }

    fn is_due(&self) -> bool {
        Instant::now() >= self.due
    }

    /// Shows the text if the last one has stood for a while.
    pub fn show(&mut self, text: &str) {
        if !self.is_due() {
            return;
        }
        if self.terminal {
            eprint!("\r{text}\x1b[K");
            let _ = stderr().flush();
            self.due = Instant::now() + SOON;
        } else {
            eprintln!("{text}");
            self.due = Instant::now() + LATER;
        }
    }

    pub fn clear(&mut self) {
        if self.terminal {
            eprint!("\r\x1b[K");
            self.due = Instant::now();
        }
    }
}

impl Default for Line {
    fn default() -> Line {
        Line::new()
    }
}

/// A run over indices on several threads.
pub struct Progress {
    name: &'static str,
    sets: u64,
    start: Instant,
    state: Mutex<State>,
}

#[derive(Default)]
struct State {
    done: u64,
    wrong: u64,
    line: Line,
}

impl Progress {
    pub fn of(name: &'static str, indices: Range<u64>) -> Progress {
        Progress {
            name,
            sets: indices.end - indices.start,
            start: Instant::now(),
            state: Mutex::default(),
        }
    }

    fn state(&self) -> MutexGuard<'_, State> {
        self.state.lock().expect("no thread fails while it counts")
    }

    /// One set more.
    pub fn step(&self) {
        let mut state = self.state();
        state.done += 1;
        if state.line.is_due() {
            let pace = pace(state.done, self.sets, self.start.elapsed());
            let text = format!(
                "{} {} of {}, mismatches {}{pace}",
                self.name, state.done, self.sets, state.wrong
            );
            state.line.show(&text);
        }
    }

    /// One mismatch more; how many there are now.
    pub fn wrong(&self) -> u64 {
        let mut state = self.state();
        state.wrong += 1;
        state.wrong
    }

    /// A text on standard output, in the place of the line.
    pub fn print(&self, text: &str) {
        let mut state = self.state();
        state.line.clear();
        println!("{text}");
    }

    pub fn clear(&self) {
        self.state().line.clear();
    }
}

/// Sets a second, and the time left at this rate; nothing in the first second.
fn pace(done: u64, sets: u64, elapsed: Duration) -> String {
    let seconds = elapsed.as_secs_f64();
    if seconds < 1.0 || done == 0 {
        return String::new();
    }
    let rate = done as f64 / seconds;
    let left = ((sets - done) as f64 / rate).ceil() as u64;
    format!(
        ", {rate:.0} a second, {} min {:02} s left",
        left / 60,
        left % 60
    )
}

#[cfg(test)]
mod tests {
    use super::*;

    #[test]
    fn pace_has_rate_and_time_left() {
        assert_eq!(pace(10, 100, Duration::from_millis(500)), "");
        assert_eq!(
            pace(200, 1_100, Duration::from_secs(20)),
            ", 10 a second, 1 min 30 s left"
        );
    }
}
