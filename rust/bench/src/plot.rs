//! A plot as SVG: both axes by powers of two, a line a side.

use std::fmt::Write;

/// One line of a plot: what it is, its colour, and its points.
pub struct Series {
    pub name: String,
    pub colour: &'static str,
    /// Drawn in dashes.
    pub dashed: bool,
    pub points: Vec<(f64, f64)>,
}

/// A plot: what it shows, what its axes are, and its lines.
pub struct Plot {
    pub title: &'static str,
    pub across: &'static str,
    pub up: &'static str,
    pub series: Vec<Series>,
}

const WIDTH: f64 = 720.0;
const HEIGHT: f64 = 440.0;
const LEFT: f64 = 70.0;
const RIGHT: f64 = 160.0;
const TOP: f64 = 40.0;
const BOTTOM: f64 = 50.0;

/// The powers of two from the one at or below the least value to the one at or above the greatest.
fn range(values: impl Iterator<Item = f64> + Clone) -> (f64, f64) {
    let least = values.clone().fold(f64::INFINITY, f64::min);
    let greatest = values.fold(1.0, f64::max);
    (least.log2().floor(), greatest.log2().ceil())
}

/// A number of nanoseconds or things as a mark at an axis.
fn mark(power: f64) -> String {
    format!("{}", power.exp2())
}

struct Frame {
    across: (f64, f64),
    up: (f64, f64),
}

impl Frame {
    fn x(&self, value: f64) -> f64 {
        let (low, high) = self.across;
        LEFT + (value.log2() - low) / (high - low).max(1.0) * (WIDTH - LEFT - RIGHT)
    }

    fn y(&self, value: f64) -> f64 {
        let (low, high) = self.up;
        HEIGHT - BOTTOM - (value.log2() - low) / (high - low).max(1.0) * (HEIGHT - TOP - BOTTOM)
    }

    /// The grid with the marks of both axes.
    fn grid(&self, out: &mut String) {
        let mut power = self.across.0;
        while power <= self.across.1 {
            let x = self.x(power.exp2());
            line(out, (x, TOP), (x, HEIGHT - BOTTOM), "#ddd");
            text(out, (x, HEIGHT - BOTTOM + 16.0), "middle", &mark(power));
            power += 1.0;
        }
        power = self.up.0;
        while power <= self.up.1 {
            let y = self.y(power.exp2());
            line(out, (LEFT, y), (WIDTH - RIGHT, y), "#ddd");
            text(out, (LEFT - 6.0, y + 4.0), "end", &mark(power));
            power += 2.0;
        }
    }

    fn series(&self, out: &mut String, series: &Series, place: usize) {
        let points: Vec<String> = series
            .points
            .iter()
            .map(|&(x, y)| format!("{:.1},{:.1}", self.x(x), self.y(y)))
            .collect();
        let dashes = if series.dashed {
            " stroke-dasharray=\"5 4\""
        } else {
            ""
        };
        let style = format!(
            "fill=\"none\" stroke=\"{}\" stroke-width=\"2\"{}",
            series.colour, dashes
        );
        let _ = writeln!(out, "<polyline {} points=\"{}\"/>", style, points.join(" "));
        let y = TOP + 14.0 + 20.0 * place as f64;
        let x = WIDTH - RIGHT + 12.0;
        let _ = writeln!(
            out,
            "<polyline {} points=\"{},{} {},{}\"/>",
            style,
            x,
            y,
            x + 24.0,
            y
        );
        text(out, (x + 30.0, y + 4.0), "start", &series.name);
    }
}

fn line(out: &mut String, from: (f64, f64), to: (f64, f64), colour: &str) {
    let _ = writeln!(
        out,
        "<line x1=\"{:.1}\" y1=\"{:.1}\" x2=\"{:.1}\" y2=\"{:.1}\" stroke=\"{}\"/>",
        from.0, from.1, to.0, to.1, colour
    );
}

fn text(out: &mut String, at: (f64, f64), anchor: &str, words: &str) {
    let _ = writeln!(
        out,
        "<text x=\"{:.1}\" y=\"{:.1}\" text-anchor=\"{}\">{}</text>",
        at.0, at.1, anchor, words
    );
}

impl Plot {
    /// The plot as an SVG file.
    pub fn svg(&self) -> String {
        let points = || self.series.iter().flat_map(|series| series.points.iter());
        let frame = Frame {
            across: range(points().map(|point| point.0)),
            up: range(points().map(|point| point.1)),
        };
        let mut out = format!(
            "<svg xmlns=\"http://www.w3.org/2000/svg\" viewBox=\"0 0 {} {}\" font-family=\"sans-serif\" font-size=\"12\">\n",
            WIDTH, HEIGHT
        );
        let _ = writeln!(
            out,
            "<rect width=\"{}\" height=\"{}\" fill=\"white\"/>",
            WIDTH, HEIGHT
        );
        text(
            &mut out,
            (LEFT, 24.0),
            "start",
            &format!("{}: {}", self.title, self.up),
        );
        frame.grid(&mut out);
        text(
            &mut out,
            ((LEFT + WIDTH - RIGHT) / 2.0, HEIGHT - 12.0),
            "middle",
            self.across,
        );
        for (place, series) in self.series.iter().enumerate() {
            frame.series(&mut out, series, place);
        }
        out.push_str("</svg>\n");
        out
    }
}
