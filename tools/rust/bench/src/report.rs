//! The table of ratios and times, in markdown.

use crate::case::{Case, Timed};
use crate::measure::Times;

pub type Row = (Case, Times);

/// `library` names what was timed beside the Rust. Where a second library was timed, two columns more have its time and its ratio.
pub fn markdown(rows: &[Row], rounds: u32, library: &str) -> String {
    let mut text = format!(
        "{library} beside the Rust source: one thread's processor time, release, alternating, least of {rounds} rounds, the same bits. S = 8·P, F = B."
    );
    if rows.iter().any(|(case, _)| case.timed == Timed::Weights) {
        text += " The weights: beside plain Rust of the same tests and formulas, on many frequency tables in turn.";
    }
    text += "\n\n";
    let two = rows.iter().any(|(_, times)| times.beside.is_some());
    text += "| Door | Choices | Flags | P | Rattle µs | Rust µs | Ratio |";
    text += if two {
        " Beside µs | Beside ratio |\n"
    } else {
        "\n"
    };
    text += "|---|---|---|---|---|---|---|";
    text += if two { "---|---|\n" } else { "\n" };
    for (case, times) in rows {
        text += &format!(
            "| {} | {} | {} | {} | {:.2} | {:.2} | {:.2} |",
            case.timed.name(),
            case.choices(),
            case.flags(),
            case.atoms,
            times.rattle,
            times.rust,
            times.ratio()
        );
        if let Some(beside) = times.beside {
            text += &format!(" {beside:.2} | {:.2} |", beside / times.rust);
        }
        text += "\n";
    }
    text
}

#[cfg(test)]
mod tests {
    use super::*;

    #[test]
    fn a_row_for_each_case() {
        let case = Case::all(Timed::Triplet)[0];
        let times = Times {
            rattle: 1.0,
            rust: 2.0,
            beside: None,
        };
        let text = markdown(&[(case, times)], 3, "The library");
        assert!(text.ends_with("| triplet | plain | no flags | 1 | 1.00 | 2.00 | 0.50 |\n"));
        assert!(!text.contains("weights"));
        let case = Case::all(Timed::Weights)[0];
        let text = markdown(&[(case, times)], 3, "The library");
        assert!(text.ends_with("| weights | Gaussian 0.1 |  | 1 | 1.00 | 2.00 | 0.50 |\n"));
        assert!(text.contains("The weights: beside plain Rust"));
    }

    #[test]
    fn two_columns_more_for_a_second_library() {
        let case = Case::all(Timed::Triplet)[0];
        let times = Times {
            rattle: 1.0,
            rust: 2.0,
            beside: Some(1.5),
        };
        let text = markdown(&[(case, times)], 3, "The library");
        let lines: Vec<&str> = text.lines().rev().take(3).collect();
        assert!(lines[0].ends_with("| 1.00 | 2.00 | 0.50 | 1.50 | 0.75 |"));
        let bars = |line: &str| line.matches('|').count();
        assert_eq!(
            (bars(lines[0]), bars(lines[1]), bars(lines[2])),
            (10, 10, 10)
        );
    }
}
