//! The two pictures.
use crate::measure::{FULL, PARTIAL};
use crate::picture::{Axis, Chart, Mark, Series};
use crate::report::grouped;

/// A build of about 2^size leaves: seconds for each leaf.
pub struct Built {
    pub t: usize,
    pub l: usize,
    pub size: u32,
    pub leaf: f64,
}

/// The proved times of one tree, in seconds a call.
pub struct Growth {
    pub leaves: usize,
    pub build: f64,
    pub open: f64,
    pub verify: f64,
    pub replace: f64,
}

const BLUE: &str = "#1f5fa8";
const RED: &str = "#c8501e";
const GREEN: &str = "#2e7d32";
const VIOLET: &str = "#7b3fa0";

/// The time of a build for each leaf, by arity: a line for each width and each of the two sizes.
pub fn by_arity(builds: &[Built], [small, large]: [u32; 2]) -> String {
    let mut series = vec![];
    for (t, colour, mark) in [(12, BLUE, Mark::Circle), (8, RED, Mark::Square), (4, GREEN, Mark::Diamond)] {
        for size in [large, small] {
            let chosen: Vec<&Built> = builds.iter().filter(|b| b.t == t && b.size == size).collect();
            let name = format!("t = {t}, about {}", power_of_two(size));
            let points = chosen.iter().map(|b| ((t / b.l) as f64, b.leaf * 1e9)).collect();
            let labels = chosen
                .iter()
                .filter(|_| size == large)
                .map(|b| format!("l = {}", b.l))
                .collect();
            series.push(Series {
                name,
                colour,
                mark,
                hollow: size == small,
                points,
                labels,
            });
        }
    }
    let times: Vec<f64> = builds.iter().map(|b| b.leaf * 1e9).collect();
    let ticks = [2, 3, 4, 6, 8, 12].map(|k| (k as f64, k.to_string())).to_vec();
    let (few, many) = (power_of_two(small), power_of_two(large));
    let chart = Chart {
        title: "Building: time for each leaf, by arity",
        subtitle: format!(
            "proved library, R_F = {FULL}, R_P = {PARTIAL}; node size l beside the mark; about {few} and {many} leaves"
        ),
        x: Axis {
            title: "arity k = t / l",
            low: 1.8,
            high: 14.5,
            ticks,
        },
        y: Axis::around("nanoseconds for each leaf", &times, &[1.0, 2.0, 5.0], |v| {
            grouped(v.round() as usize)
        }),
        series,
    };
    chart.svg()
}

/// The times of one shape, by the number of leaves.
pub fn by_leaves(growth: &[Growth], (t, l): (usize, usize)) -> String {
    let line = |name: &str, colour, mark, hollow, read: fn(&Growth) -> f64| {
        let points = growth.iter().map(|g| (g.leaves as f64, read(g))).collect();
        Series {
            name: name.to_string(),
            colour,
            mark,
            hollow,
            points,
            labels: vec![],
        }
    };
    let series = vec![
        line("build", BLUE, Mark::Circle, false, |g| g.build),
        line("replace", RED, Mark::Square, true, |g| g.replace),
        line("verify", GREEN, Mark::Diamond, false, |g| g.verify),
        line("open", VIOLET, Mark::Triangle, false, |g| g.open),
    ];
    let times: Vec<f64> = series.iter().flat_map(|s| s.points.iter().map(|p| p.1)).collect();
    let ticks: Vec<(f64, String)> = growth
        .iter()
        .map(|g| (g.leaves as f64, power_of_two(g.leaves.ilog2())))
        .collect();
    let (low, high) = (ticks[0].0 / 1.5, ticks[ticks.len() - 1].0 * 1.5);
    let chart = Chart {
        title: "Cost by the number of leaves",
        subtitle: format!("proved library, t = {t}, l = {l}, R_F = {FULL}, R_P = {PARTIAL}; time of one call"),
        x: Axis {
            title: "leaves",
            low,
            high,
            ticks,
        },
        y: Axis::around("time of one call", &times, &[1.0], power_of_ten),
        series,
    };
    chart.svg()
}

/// A power of ten of seconds, with its unit.
fn power_of_ten(seconds: f64) -> String {
    let n = (seconds.log10().round() + 9.0) as usize;
    format!("1{} {}", "0".repeat(n % 3), ["ns", "µs", "ms", "s"][n / 3])
}

fn power_of_two(n: u32) -> String {
    let raised = |c: char| "⁰¹²³⁴⁵⁶⁷⁸⁹".chars().nth(c as usize - '0' as usize).unwrap();
    format!("2{}", n.to_string().chars().map(raised).collect::<String>())
}
