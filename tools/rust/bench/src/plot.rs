//! The plot: for each door a panel of the ratio and one of the times against P, as SVG.

use crate::case::{Case, Timed, ATOMS, SHAPES};
use crate::report::Row;

const WIDTH: f64 = 360.0;
const HEIGHT: f64 = 240.0;
const LEFT: f64 = 60.0;
const TOP: f64 = 40.0;
/// Space between panels.
const GAP: f64 = 70.0;
const LEGEND: f64 = 30.0;
const COLOURS: [&str; 4] = ["#0b6e99", "#c2571a", "#3d7a32", "#7a3d8f"];

/// A panel's place, and the values at its lower and upper edge.
struct Panel {
    x: f64,
    y: f64,
    low: f64,
    high: f64,
    logarithmic: bool,
}

impl Panel {
    /// P doubles at equal steps.
    fn across(&self, atoms: u64) -> f64 {
        self.x + WIDTH * (0.06 + 0.88 * (atoms as f64).log2() / 3.0)
    }

    fn up(&self, value: f64) -> f64 {
        let scale = |x: f64| if self.logarithmic { x.ln() } else { x };
        let part = (scale(value) - scale(self.low)) / (scale(self.high) - scale(self.low));
        self.y + HEIGHT * (1.0 - part)
    }

    fn ticks(&self) -> Vec<f64> {
        if self.logarithmic {
            let mut tick = 10f64.powf(self.low.log10().round());
            let mut ticks = Vec::new();
            while tick <= self.high * 1.001 {
                ticks.push(tick);
                tick *= 10.0;
            }
            return ticks;
        }
        let step = if self.high > 4.0 {
            1.0
        } else if self.high > 1.6 {
            0.5
        } else {
            0.25
        };
        (0..)
            .map(|n| f64::from(n) * step)
            .take_while(|&tick| tick <= self.high + 1e-9)
            .collect()
    }

    fn frame(&self, title: &str) -> String {
        let mut svg = text(self.x + WIDTH / 2.0, self.y - 10.0, "middle", title);
        svg += &format!(
            "<rect x=\"{}\" y=\"{}\" width=\"{WIDTH}\" height=\"{HEIGHT}\" fill=\"none\" stroke=\"#888\"/>\n",
            self.x, self.y
        );
        for tick in self.ticks() {
            let y = self.up(tick);
            svg += &line(self.x, y, self.x + WIDTH, y, "#ddd");
            svg += &text(self.x - 6.0, y + 4.0, "end", &format!("{tick}"));
        }
        for atoms in ATOMS {
            let label = format!("P = {atoms}");
            svg += &text(self.across(atoms), self.y + HEIGHT + 16.0, "middle", &label);
        }
        svg
    }

    /// A line through the values of one series, with a mark at each.
    fn series(&self, points: &[(u64, f64)], colour: &str, dashed: bool, hollow: bool) -> String {
        let path: Vec<String> = points
            .iter()
            .map(|&(atoms, value)| format!("{:.1},{:.1}", self.across(atoms), self.up(value)))
            .collect();
        let dash = if dashed {
            " stroke-dasharray=\"5 3\""
        } else {
            ""
        };
        let opacity = if hollow { 0.5 } else { 1.0 };
        let mut svg = format!(
            "<polyline points=\"{}\" fill=\"none\" stroke=\"{colour}\" stroke-opacity=\"{opacity}\"{dash}/>\n",
            path.join(" ")
        );
        let fill = if hollow { "white" } else { colour };
        for &(atoms, value) in points {
            svg += &format!(
                "<circle cx=\"{:.1}\" cy=\"{:.1}\" r=\"3\" fill=\"{fill}\" stroke=\"{colour}\"/>\n",
                self.across(atoms),
                self.up(value)
            );
        }
        svg
    }
}

fn line(x1: f64, y1: f64, x2: f64, y2: f64, colour: &str) -> String {
    format!(
        "<line x1=\"{x1:.1}\" y1=\"{y1:.1}\" x2=\"{x2:.1}\" y2=\"{y2:.1}\" stroke=\"{colour}\"/>\n"
    )
}

fn text(x: f64, y: f64, anchor: &str, words: &str) -> String {
    format!("<text x=\"{x:.1}\" y=\"{y:.1}\" text-anchor=\"{anchor}\">{words}</text>\n")
}

/// Rows that differ in P only.
struct Series<'a> {
    case: Case,
    rows: Vec<&'a Row>,
}

fn series_of(rows: &[Row], timed: Timed) -> Vec<Series<'_>> {
    let mut all: Vec<Series> = Vec::new();
    for row in rows.iter().filter(|row| row.0.timed == timed) {
        let like = |case: &Case| {
            Case {
                atoms: row.0.atoms,
                ..*case
            } == row.0
        };
        match all.iter_mut().find(|series| like(&series.case)) {
            Some(series) => series.rows.push(row),
            None => all.push(Series {
                case: row.0,
                rows: vec![row],
            }),
        }
    }
    all
}

fn colour(case: &Case) -> &'static str {
    let of_shape = SHAPES.iter().position(|&shape| case.shape == Some(shape));
    let of_choices = usize::from(case.averaged) + 2 * usize::from(case.symmetrized);
    COLOURS[of_shape.unwrap_or(of_choices)]
}

fn legend(series: &Series, x: f64, y: f64) -> String {
    let case = &series.case;
    let words = [case.choices(), case.flags().to_string()];
    let words: Vec<String> = words.into_iter().filter(|word| !word.is_empty()).collect();
    let label = words.join(", ");
    let dash = if case.half_flagged {
        " stroke-dasharray=\"5 3\""
    } else {
        ""
    };
    format!(
        "<line x1=\"{x:.1}\" y1=\"{:.1}\" x2=\"{:.1}\" y2=\"{:.1}\" stroke=\"{}\"{dash}/>\n",
        y - 4.0,
        x + 24.0,
        y - 4.0,
        colour(case)
    ) + &text(x + 30.0, y, "start", &label)
}

/// The panels of one door from `top` on, and their height with the legend.
fn door_panels(rows: &[Row], timed: Timed, top: f64) -> (String, f64) {
    let all = series_of(rows, timed);
    let times: Vec<f64> = rows
        .iter()
        .filter(|row| row.0.timed == timed)
        .flat_map(|row| [row.1.rattle, row.1.rust])
        .collect();
    let least = times.iter().copied().fold(f64::INFINITY, f64::min);
    let most = times.iter().copied().fold(0.0, f64::max);
    let ratio_most = rows
        .iter()
        .filter(|row| row.0.timed == timed)
        .map(|row| row.1.ratio())
        .fold(1.0, f64::max);
    let ratio = Panel {
        x: LEFT,
        y: top + TOP,
        low: 0.0,
        high: 1.1 * ratio_most,
        logarithmic: false,
    };
    let time = Panel {
        x: LEFT + WIDTH + GAP,
        y: top + TOP,
        low: 10f64.powf(least.log10().floor()),
        high: 10f64.powf(most.log10().ceil()),
        logarithmic: true,
    };
    let name = timed.name();
    let mut svg = ratio.frame(&format!("{name}: time of Rattle over time of Rust"));
    svg += &time.frame(&format!("{name}: µs a triplet, Rattle filled, Rust hollow"));
    let one = ratio.up(1.0);
    svg += &line(ratio.x, one, ratio.x + WIDTH, one, "#444");
    for series in &all {
        let points = |value: fn(&Row) -> f64| -> Vec<(u64, f64)> {
            series
                .rows
                .iter()
                .map(|row| (row.0.atoms, value(row)))
                .collect()
        };
        let (paint, dashed) = (colour(&series.case), series.case.half_flagged);
        svg += &ratio.series(&points(|row| row.1.ratio()), paint, dashed, false);
        svg += &time.series(&points(|row| row.1.rattle), paint, dashed, false);
        svg += &time.series(&points(|row| row.1.rust), paint, dashed, true);
    }
    let bottom = top + TOP + HEIGHT + LEGEND;
    for (place, series) in all.iter().enumerate() {
        let column = (place % 2) as f64;
        let row = (place / 2) as f64;
        svg += &legend(
            series,
            LEFT + column * (WIDTH + GAP),
            bottom + 10.0 + 18.0 * row,
        );
    }
    let legend_height = 18.0 * all.len().div_ceil(2) as f64;
    (svg, TOP + HEIGHT + LEGEND + legend_height + 20.0)
}

pub fn svg(rows: &[Row]) -> String {
    let mut body = String::new();
    let mut top = 0.0;
    for timed in Timed::ALL {
        if rows.iter().any(|row| row.0.timed == timed) {
            let (panels, height) = door_panels(rows, timed, top);
            body += &panels;
            top += height;
        }
    }
    let width = LEFT + 2.0 * WIDTH + GAP + 30.0;
    format!(
        "<svg xmlns=\"http://www.w3.org/2000/svg\" width=\"{width}\" height=\"{top}\" font-family=\"sans-serif\" font-size=\"12\">\n\
         <rect width=\"100%\" height=\"100%\" fill=\"white\"/>\n{body}</svg>\n"
    )
}

#[cfg(test)]
mod tests {
    use super::*;
    use crate::measure::Times;

    #[test]
    fn a_series_for_each_choice() {
        let rows: Vec<Row> = Case::all(Timed::Joined)
            .into_iter()
            .map(|case| {
                let rust = (case.atoms * case.atoms) as f64;
                (
                    case,
                    Times {
                        rattle: 0.7 * rust,
                        rust,
                        beside: None,
                    },
                )
            })
            .collect();
        assert_eq!(series_of(&rows, Timed::Joined).len(), 8);
        let svg = svg(&rows);
        assert_eq!(svg.matches("<polyline").count(), 24);
        assert!(!svg.contains("NaN") && !svg.contains("inf"));
    }
}
