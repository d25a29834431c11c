//! Charts with two logarithmic axes, as SVG.
use std::fmt::Write;

pub struct Axis {
    pub title: &'static str,
    pub low: f64,
    pub high: f64,
    pub ticks: Vec<(f64, String)>,
}

#[derive(Clone, Copy)]
pub enum Mark {
    Circle,
    Square,
    Triangle,
    Diamond,
}

pub struct Series {
    pub name: String,
    pub colour: &'static str,
    pub mark: Mark,
    /// Marks with an empty inside, and a dashed line.
    pub hollow: bool,
    pub points: Vec<(f64, f64)>,
    /// What stands beside the points, if anything does.
    pub labels: Vec<String>,
}

pub struct Chart {
    pub title: &'static str,
    pub subtitle: String,
    pub x: Axis,
    pub y: Axis,
    pub series: Vec<Series>,
}

const WIDTH: f64 = 900.0;
const HEIGHT: f64 = 560.0;
/// The plot's edges; the legend is to the right of it.
const LEFT: f64 = 90.0;
const RIGHT: f64 = 690.0;
const TOP: f64 = 80.0;
const BOTTOM: f64 = 490.0;
const INK: &str = "#222222";
const GREY: &str = "#666666";
const GRID: &str = "#e3e3e3";

impl Axis {
    /// An axis around values, with ticks at these multiples of the powers of ten.
    pub fn around(title: &'static str, values: &[f64], multiples: &[f64], name: impl Fn(f64) -> String) -> Axis {
        let (least, most) = values.iter().fold((f64::MAX, 0f64), |(a, b), &v| (a.min(v), b.max(v)));
        let (low, high) = (least / 1.4, most * 1.4);
        let powers = (low.log10().floor() as i32..=high.log10().ceil() as i32).map(|n| 10f64.powi(n));
        let ticks = powers
            .flat_map(|power| multiples.iter().map(move |m| m * power))
            .filter(|v| (low..=high).contains(v));
        Axis {
            title,
            low,
            high,
            ticks: ticks.map(|v| (v, name(v))).collect(),
        }
    }

    /// Where a value is between two ends.
    fn place(&self, value: f64, from: f64, to: f64) -> f64 {
        from + (value / self.low).ln() / (self.high / self.low).ln() * (to - from)
    }
}

fn text(out: &mut String, x: f64, y: f64, size: u32, anchor: &str, colour: &str, words: &str) {
    writeln!(
        out,
        r#"<text x="{x:.1}" y="{y:.1}" font-size="{size}" text-anchor="{anchor}" fill="{colour}">{words}</text>"#
    )
    .unwrap();
}

fn line(out: &mut String, from: (f64, f64), to: (f64, f64), colour: &str) {
    let ((a, b), (c, d)) = (from, to);
    writeln!(
        out,
        r#"<line x1="{a:.1}" y1="{b:.1}" x2="{c:.1}" y2="{d:.1}" stroke="{colour}" stroke-width="1"/>"#
    )
    .unwrap();
}

impl Series {
    fn draw_line(&self, out: &mut String, points: &[(f64, f64)]) {
        let list: Vec<String> = points.iter().map(|(x, y)| format!("{x:.1},{y:.1}")).collect();
        let dash = if self.hollow { r#" stroke-dasharray="5 4""# } else { "" };
        let (points, colour) = (list.join(" "), self.colour);
        writeln!(
            out,
            r#"<polyline points="{points}" fill="none" stroke="{colour}" stroke-width="2"{dash}/>"#
        )
        .unwrap();
    }

    fn draw_mark(&self, out: &mut String, (x, y): (f64, f64)) {
        let (r, fill) = if self.hollow { (6.5, "none") } else { (4.5, self.colour) };
        let style = format!(r#"fill="{fill}" stroke="{}" stroke-width="1.8""#, self.colour);
        let corners: &[(f64, f64)] = match self.mark {
            Mark::Circle => {
                writeln!(out, r#"<circle cx="{x:.1}" cy="{y:.1}" r="{r}" {style}/>"#).unwrap();
                return;
            }
            Mark::Square => &[(-0.9, -0.9), (0.9, -0.9), (0.9, 0.9), (-0.9, 0.9)],
            Mark::Triangle => &[(0.0, -1.2), (1.1, 0.8), (-1.1, 0.8)],
            Mark::Diamond => &[(0.0, -1.3), (1.3, 0.0), (0.0, 1.3), (-1.3, 0.0)],
        };
        let list: Vec<String> = corners
            .iter()
            .map(|(a, b)| format!("{:.1},{:.1}", x + r * a, y + r * b))
            .collect();
        writeln!(out, r#"<polygon points="{}" {style}/>"#, list.join(" ")).unwrap();
    }
}

impl Chart {
    pub fn svg(&self) -> String {
        let (mut out, mut labels) = (String::new(), String::new());
        let (size, fonts) = (
            format!(r#"width="{WIDTH}" height="{HEIGHT}""#),
            "DejaVu Sans, Verdana, Arial, sans-serif",
        );
        let view = format!(r#"viewBox="0 0 {WIDTH} {HEIGHT}""#);
        writeln!(
            out,
            r#"<svg xmlns="http://www.w3.org/2000/svg" {view} {size} font-family="{fonts}">"#
        )
        .unwrap();
        writeln!(out, r##"<rect width="{WIDTH}" height="{HEIGHT}" fill="#ffffff"/>"##).unwrap();
        text(&mut out, LEFT, 32.0, 19, "start", INK, self.title);
        text(&mut out, LEFT, 56.0, 13, "start", GREY, &self.subtitle);
        self.axes(&mut out);
        for series in &self.series {
            let points: Vec<_> = series
                .points
                .iter()
                .map(|&(x, y)| (self.x.place(x, LEFT, RIGHT), self.y.place(y, BOTTOM, TOP)))
                .collect();
            series.draw_line(&mut out, &points);
            points.iter().for_each(|&point| series.draw_mark(&mut out, point));
            for (&(x, y), label) in points.iter().zip(&series.labels) {
                text(&mut labels, x + 11.0, y - 7.0, 12, "start", series.colour, label);
            }
        }
        // a white rim keeps the labels apart from the lines under them
        writeln!(
            out,
            "<g stroke=\"#ffffff\" stroke-width=\"4\" paint-order=\"stroke\">\n{labels}</g>"
        )
        .unwrap();
        self.legend(&mut out);
        out.push_str("</svg>\n");
        out
    }

    fn axes(&self, out: &mut String) {
        for (value, name) in &self.x.ticks {
            let x = self.x.place(*value, LEFT, RIGHT);
            line(out, (x, TOP), (x, BOTTOM), GRID);
            line(out, (x, BOTTOM), (x, BOTTOM + 5.0), INK);
            text(out, x, BOTTOM + 22.0, 13, "middle", INK, name);
        }
        for (value, name) in &self.y.ticks {
            let y = self.y.place(*value, BOTTOM, TOP);
            line(out, (LEFT, y), (RIGHT, y), GRID);
            line(out, (LEFT - 5.0, y), (LEFT, y), INK);
            text(out, LEFT - 10.0, y + 4.5, 13, "end", INK, name);
        }
        line(out, (LEFT, BOTTOM), (RIGHT, BOTTOM), INK);
        line(out, (LEFT, TOP), (LEFT, BOTTOM), INK);
        text(out, (LEFT + RIGHT) / 2.0, BOTTOM + 50.0, 14, "middle", INK, self.x.title);
        writeln!(
            out,
            r#"<g transform="translate(24 {:.1}) rotate(-90)">"#,
            (TOP + BOTTOM) / 2.0
        )
        .unwrap();
        text(out, 0.0, 0.0, 14, "middle", INK, self.y.title);
        out.push_str("</g>\n");
    }

    fn legend(&self, out: &mut String) {
        for (i, series) in self.series.iter().enumerate() {
            let (x, y) = (RIGHT + 24.0, TOP + 14.0 + 26.0 * i as f64);
            series.draw_line(out, &[(x, y), (x + 34.0, y)]);
            series.draw_mark(out, (x + 17.0, y));
            text(out, x + 44.0, y + 4.5, 13, "start", INK, &series.name);
        }
    }
}
