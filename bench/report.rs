//! What the program prints: Markdown tables, and the machine.
use crate::measure::{Keeping, Tested, Thousand, Times};
use crate::trees::Sizes;
use std::fs::read_to_string;

/// What one operation takes.
pub struct Row {
    pub operation: String,
    pub t: Option<usize>,
    pub l: Option<usize>,
    pub tree: Option<Sizes>,
    pub times: Times,
    /// The most that proved/tuned is to be.
    pub target: Option<f64>,
}

/// A thousand inverse permutations.
pub struct Inverted {
    pub t: usize,
    pub times: Thousand,
}

/// Validation, and the judging of a set that is handed in, beside what they were before a set kept anything.
pub struct Judged {
    pub t: usize,
    pub times: Keeping,
}

/// A verification beside the work that it cannot do without.
pub struct Floor {
    pub t: usize,
    pub l: usize,
    pub h: usize,
    pub verify: f64,
    /// h compressions and one judging of the set.
    pub floor: f64,
}

/// The leaf of a file beside the work that it cannot do without.
pub struct Absorption {
    pub t: usize,
    pub l: usize,
    pub bytes: usize,
    pub blocks: usize,
    pub leaf: f64,
    /// A permutation for each message block.
    pub floor: f64,
    /// The most that leaf/floor is to be.
    pub target: Option<f64>,
}

/// A push and its test for a place that stands twice.
pub struct Pushed {
    pub leaves: usize,
    pub records: usize,
    pub rising: bool,
    pub times: Tested,
    /// The most that proved/tuned is to be.
    pub target: Option<f64>,
    /// Whether the test has targets here.
    pub aimed: bool,
}

impl Pushed {
    /// How the places stand. One is in either order.
    fn order(&self) -> &'static str {
        match self.rising {
            _ if self.records == 1 => "",
            true => "rising",
            false => "shuffled",
        }
    }
}

/// What there is to choose from, at about the same number of leaves.
pub struct Choice {
    pub t: usize,
    pub l: usize,
    pub sizes: Sizes,
    pub build: f64,
    pub open: f64,
    pub verify: f64,
    pub replace: f64,
}

const FLOOR_TARGET: f64 = 1.05;
/// The most that validation is to take longer than it did, in inversions of a word, and the most that the judging of a set over what it was
/// is to be.
const INVERSIONS_TARGET: f64 = 2.0;
const JUDGING_TARGET: f64 = 1.5;
/// The most that a push of all leaves over a build of them is to be.
const WHOLE_TARGET: f64 = 1.10;
/// The most that the test for a place that stands twice is to be, in per cent of the push, and in nanoseconds a record where there are
/// fewer places than this.
const SHARE_TARGET: f64 = 5.0;
const RECORD_TARGET: f64 = 20.0;
const RECORD_PLACES: usize = 1 << 20;

/// Three digits and a unit. A difference of two times may be below 0.
pub fn time(seconds: f64) -> String {
    if seconds < 0.0 {
        return format!("-{}", time(-seconds));
    }
    let (value, unit) = match seconds {
        s if s < 0.9995e-6 => (s * 1e9, "ns"),
        s if s < 0.9995e-3 => (s * 1e6, "µs"),
        s if s < 0.9995 => (s * 1e3, "ms"),
        s => (s, "s"),
    };
    format!("{} {unit}", digits(value))
}

fn digits(value: f64) -> String {
    match value {
        v if v < 9.995 => format!("{v:.2}"),
        v if v < 99.95 => format!("{v:.1}"),
        v => grouped(v.round() as usize),
    }
}

/// A number with commas between its thousands.
pub fn grouped(n: usize) -> String {
    if n < 1000 {
        n.to_string()
    } else {
        format!("{},{:03}", grouped(n / 1000), n % 1000)
    }
}

fn mark(ratio: f64, target: Option<f64>) -> String {
    match target {
        None => String::new(),
        Some(most) if ratio <= most => format!("≤ {most:.2}"),
        Some(most) => format!("≤ {most:.2} **missed**"),
    }
}

fn or_blank(n: Option<usize>) -> String {
    n.map_or(String::new(), grouped)
}

pub fn print_rows(rows: &[Row]) {
    println!("| operation | t | l | h | leaves | proved | proved/tuned | proved/plain | target |");
    println!("|---|--:|--:|--:|--:|--:|--:|--:|---|");
    for r in rows {
        let (t, l, h, leaves) = (
            or_blank(r.t),
            or_blank(r.l),
            or_blank(r.tree.map(|s| s.height)),
            or_blank(r.tree.map(|s| s.leaves)),
        );
        let Times { proved, tuned, plain } = r.times;
        let (name, time, by_tuned, by_plain) = (&r.operation, time(proved), proved / tuned, proved / plain);
        let target = mark(by_tuned, r.target);
        println!("| {name} | {t} | {l} | {h} | {leaves} | {time} | {by_tuned:.3} | {by_plain:.3} | {target} |");
    }
    let aimed: Vec<(f64, f64)> = rows
        .iter()
        .filter_map(|r| Some((r.times.proved / r.times.tuned, r.target?)))
        .collect();
    print_met(&aimed);
}

/// How many ratios are at most what they are to be.
fn print_met(ratios: &[(f64, f64)]) {
    let met = ratios.iter().filter(|(ratio, most)| ratio <= most).count();
    println!("\n{met} of {} targets met.", ratios.len());
}

pub fn print_inverted(inverted: &[Inverted]) {
    println!(
        "| t | proved | tuned | proved, a validation before each | tuned, a validation before each | tuned, D inverted in each \
         | proved, without these validations/with | tuned, without inverting D/with |"
    );
    println!("|--:|--:|--:|--:|--:|--:|--:|--:|");
    for i in inverted {
        let Thousand { kept, anew, former } = i.times;
        println!(
            "| {} | {} | {} | {} | {} | {} | {:.3} | {:.3} |",
            i.t,
            time(kept[0]),
            time(kept[1]),
            time(anew[0]),
            time(anew[1]),
            time(former),
            kept[0] / anew[0],
            kept[1] / former
        );
    }
}

pub fn print_judged(judged: &[Judged]) {
    println!(
        "| t | validation before, tuned | validate | inverse of a word | longer by, in inversions | target \
         | judging of a set | judging/validation before | target |"
    );
    println!("|--:|--:|--:|--:|--:|---|--:|--:|---|");
    let mut aimed = vec![];
    for j in judged {
        let (times, judging) = (j.times, j.times.judging());
        let (inversions, ratio) = (times.inversions(), judging / times.former);
        aimed.extend([(inversions, INVERSIONS_TARGET), (ratio, JUDGING_TARGET)]);
        println!(
            "| {} | {} | {} | {} | {inversions:.3} | {} | {} | {ratio:.3} | {} |",
            j.t,
            time(times.former),
            time(times.validate),
            time(times.inverse),
            mark(inversions, Some(INVERSIONS_TARGET)),
            time(judging),
            mark(ratio, Some(JUDGING_TARGET)),
        );
    }
    print_met(&aimed);
}

pub fn print_floors(floors: &[Floor]) {
    println!("| t | l | h | verify | h compressions and one judging of the set | ratio | target |");
    println!("|--:|--:|--:|--:|--:|--:|---|");
    for f in floors {
        let ratio = f.verify / f.floor;
        let target = mark(ratio, Some(FLOOR_TARGET));
        println!(
            "| {} | {} | {} | {} | {} | {ratio:.3} | {target} |",
            f.t,
            f.l,
            f.h,
            time(f.verify),
            time(f.floor)
        );
    }
    print_met(&floors.iter().map(|f| (f.verify / f.floor, FLOOR_TARGET)).collect::<Vec<_>>());
}

pub fn print_absorptions(absorptions: &[Absorption]) {
    println!("| t | l | bytes | message blocks | leaf of file | its permutations alone | ratio | target |");
    println!("|--:|--:|--:|--:|--:|--:|--:|---|");
    for a in absorptions {
        let ratio = a.leaf / a.floor;
        let target = mark(ratio, a.target);
        println!(
            "| {} | {} | {} | {} | {} | {} | {ratio:.3} | {target} |",
            a.t,
            a.l,
            grouped(a.bytes),
            grouped(a.blocks),
            time(a.leaf),
            time(a.floor)
        );
    }
    let aimed: Vec<(f64, f64)> = absorptions
        .iter()
        .filter_map(|a| Some((a.leaf / a.floor, a.target?)))
        .collect();
    print_met(&aimed);
}

pub fn print_pushes(pushes: &[Pushed]) {
    println!(
        "| leaves | records | places | compressions | push | push, a compression | proved/tuned | target \
         | build of the same leaves | push/build | target |"
    );
    println!("|--:|--:|---|--:|--:|--:|--:|---|--:|--:|---|");
    let mut aimed = vec![];
    for p in pushes {
        let Tested {
            made,
            proved,
            tuned,
            build,
            ..
        } = p.times;
        aimed.extend(p.target.map(|most| (proved / tuned, most)));
        aimed.extend(build.map(|build| (proved / build, WHOLE_TARGET)));
        println!(
            "| {} | {} | {} | {} | {} | {} | {:.3} | {} | {} | {} | {} |",
            grouped(p.leaves),
            grouped(p.records),
            p.order(),
            grouped(made as usize),
            time(proved),
            time(proved / made as f64),
            proved / tuned,
            mark(proved / tuned, p.target),
            build.map_or(String::new(), time),
            build.map_or(String::new(), |build| format!("{:.3}", proved / build)),
            build.map_or(String::new(), |build| mark(proved / build, Some(WHOLE_TARGET))),
        );
    }
    print_met(&aimed);
}

pub fn print_tests(pushes: &[Pushed]) {
    println!(
        "| leaves | records | places | push | tuned, with the test/without | the test | of the push | target | a record | target \
         | first pass and search, a record | the search, in whole calls |"
    );
    println!("|--:|--:|---|--:|--:|--:|--:|---|--:|---|--:|--:|");
    let mut aimed = vec![];
    for p in pushes {
        let (times, test) = (p.times, p.times.test());
        let (share, record) = (100.0 * test / times.proved, 1e9 * test / p.records as f64);
        let mut target = |value: f64, most: f64, unit: &str, is_aimed: bool| {
            if !is_aimed {
                return String::new();
            }
            aimed.push((value, most));
            let missed = if value <= most { "" } else { " **missed**" };
            format!("≤ {most} {unit}{missed}")
        };
        println!(
            "| {} | {} | {} | {} | {:.3} | {} | {share:.3} % | {} | {record:.2} ns | {} | {} | {} |",
            grouped(p.leaves),
            grouped(p.records),
            p.order(),
            time(times.proved),
            times.tuned / times.untested,
            time(test),
            target(share, SHARE_TARGET, "%", p.aimed),
            target(record, RECORD_TARGET, "ns", p.aimed && p.leaves < RECORD_PLACES),
            time(times.most() / p.records as f64),
            times.search.map_or(String::new(), |search| time(search.shown())),
        );
    }
    print_met(&aimed);
}

pub fn print_choices(choices: &[Choice]) {
    println!("| t | l | k | h | leaves | build | build, a leaf | store | opening | open | verify | replace |");
    println!("|--:|--:|--:|--:|--:|--:|--:|--:|--:|--:|--:|--:|");
    for c in choices {
        let s = &c.sizes;
        println!(
            "| {} | {} | {} | {} | {} | {} | {} | {} MB | {} bytes | {} | {} | {} |",
            c.t,
            c.l,
            s.arity,
            s.height,
            grouped(s.leaves),
            time(c.build),
            time(c.build / s.leaves as f64),
            digits(s.store_words() as f64 * 8e-6),
            grouped(s.opening_words() * 8),
            time(c.open),
            time(c.verify),
            time(c.replace)
        );
    }
}

/// The processor, and how many of it there are.
pub fn machine() -> String {
    let info = read_to_string("/proc/cpuinfo").unwrap_or_default();
    let field = |name: &str| {
        let line = info.lines().find(|line| line.starts_with(name));
        line.and_then(|line| line.split(':').nth(1))
            .map_or("unknown", str::trim)
            .to_string()
    };
    let count = info.lines().filter(|line| line.starts_with("processor")).count();
    format!(
        "{} (family {}, model {}), {count} processors",
        field("model name"),
        field("cpu family"),
        field("model\t")
    )
}

/// The load averages of the last 1, 5 and 15 minutes.
pub fn load() -> String {
    let line = read_to_string("/proc/loadavg").unwrap_or_default();
    line.split_whitespace().take(3).collect::<Vec<_>>().join(" ")
}
