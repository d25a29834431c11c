//! The proved library beside Rust versions of the same work, in interleaved rounds of one run. `tuned` keeps lazy numbers below
//! 2^64 and sums in u128; `plain` brings every sum and product below p. The program prints Markdown and writes two pictures to
//! the folder that it is handed; a second argument `quick` makes it do a tenth of the rounds, once, without the longest pushes.
mod charts;
mod files;
mod halves;
mod inverses;
mod measure;
mod picture;
mod poseidon2;
mod proved;
mod repeats;
mod report;
mod sets;
mod trees;

use charts::{Built, Growth};
use measure::{Case, Times};
use report::{Absorption, Choice, Floor, Inverted, Judged, Pushed, Row};
use trees::Sizes;

/// Every width and node size, by falling width and rising arity.
const SHAPES: [(usize, usize); 10] = [
    (12, 6),
    (12, 4),
    (12, 3),
    (12, 2),
    (12, 1),
    (8, 4),
    (8, 2),
    (8, 1),
    (4, 2),
    (4, 1),
];
/// Those whose every operation is measured.
const MEASURED: [(usize, usize); 4] = [(12, 6), (12, 1), (8, 4), (4, 2)];
/// The powers of two that trees are near to.
const SIZES: [u32; 2] = [16, 20];
/// The shapes at which the leaf of a file is measured, the one of them that has targets, and the bytes of the file.
const FILE_SHAPES: [(usize, usize); 3] = [(12, 6), (12, 1), (8, 4)];
const AIMED: (usize, usize) = (12, 6);
const FILE_BYTES: usize = 1 << 20;
/// Heights at which every push is tried beside its records done singly; and so it is near the lesser size.
const SMALL: [usize; 4] = [0, 1, 2, 3];
/// The shape at which pushes are measured, rising and shuffled, with their test for a place that stands twice; near which size, of how many
/// records, in how many rounds, and the most that proved/tuned is to be. For those of over so many records the test has no target, and a
/// quick run leaves them out.
const PUSHED: (usize, usize) = (12, 6);
const PUSHES: [(u32, usize, usize, Option<f64>); 9] = [
    (16, 1, 90, None),
    (16, 100, 60, Some(PUSH_TARGET)),
    (16, 10_000, 30, Some(PUSH_TARGET)),
    (16, 65_536, 15, Some(PUSH_TARGET)),
    (20, 1, 90, None),
    (20, 100, 30, None),
    (20, 10_000, 9, None),
    (20, 100_000, 9, Some(PUSH_TARGET)),
    (20, 1_000_000, 3, None),
];
const LONG: usize = 100_000;
/// What the second picture is of, and its heights.
const GROWING: (usize, usize) = (12, 6);
const HEIGHTS: [usize; 7] = [8, 10, 12, 14, 16, 18, 20];

/// Everything is measured so many times over, with some minutes between, and the best times count: a slow spell of the machine does
/// not decide.
const PASSES: usize = 3;

/// The most that proved/tuned is to be.
const INVERSE_TARGET: f64 = 1.03;
const STORELESS_TARGET: f64 = 1.10;
const PUSH_TARGET: f64 = 1.05;
const FILE_TARGET: f64 = 1.03;
/// The most that the leaf of a file over its permutations alone is to be.
const ABSORPTION_TARGET: f64 = 1.08;

fn permutation_target(t: usize) -> f64 {
    if t == 12 {
        1.00
    } else {
        1.08
    }
}

fn build_target(t: usize) -> f64 {
    if t == 12 {
        1.03
    } else {
        1.08
    }
}

/// The height at which k^h is nearest to 2^size on a logarithmic scale.
fn height_near(size: u32, arity: usize) -> usize {
    (size as f64 / (arity as f64).log2()).round() as usize
}

/// What has been measured.
struct Bench {
    quick: bool,
    rows: Vec<Row>,
    inverted: Vec<Inverted>,
    judged: Vec<Judged>,
    floors: Vec<Floor>,
    absorptions: Vec<Absorption>,
    pushes: Vec<Pushed>,
    choices: Vec<Choice>,
    builds: Vec<Built>,
    growth: Vec<Growth>,
}

impl Bench {
    /// One pass over everything.
    fn measured(quick: bool) -> Bench {
        let draw = &mut poseidon2::seeded();
        let mut bench = Bench {
            quick,
            rows: vec![],
            inverted: vec![],
            judged: vec![],
            floors: vec![],
            absorptions: vec![],
            pushes: vec![],
            choices: vec![],
            builds: vec![],
            growth: vec![],
        };
        let times = measure::inverse(bench.rounds(300), draw());
        bench.add("inverse of a word", None, None, None, times, None);
        bench.states::<4>(draw);
        bench.states::<8>(draw);
        bench.states::<12>(draw);
        for size in SIZES {
            for (t, l) in SHAPES {
                match t {
                    4 => bench.trees::<4>(l, size, draw),
                    8 => bench.trees::<8>(l, size, draw),
                    _ => bench.trees::<12>(l, size, draw),
                }
            }
        }
        bench.growing(draw);
        for (t, l) in FILE_SHAPES {
            match t {
                4 => bench.files::<4>(l, draw),
                8 => bench.files::<8>(l, draw),
                _ => bench.files::<12>(l, draw),
            }
        }
        bench
    }

    /// The better times of two passes.
    fn best(mut self, other: Bench) -> Bench {
        let lower = |a: &mut f64, b: f64| *a = a.min(b);
        for (a, b) in self.rows.iter_mut().zip(other.rows) {
            a.times = a.times.best(b.times);
        }
        for (a, b) in self.inverted.iter_mut().zip(other.inverted) {
            a.times = a.times.best(b.times);
        }
        for (a, b) in self.judged.iter_mut().zip(other.judged) {
            a.times = a.times.best(b.times);
        }
        for (a, b) in self.floors.iter_mut().zip(other.floors) {
            lower(&mut a.verify, b.verify);
            lower(&mut a.floor, b.floor);
        }
        for (a, b) in self.absorptions.iter_mut().zip(other.absorptions) {
            lower(&mut a.leaf, b.leaf);
            lower(&mut a.floor, b.floor);
        }
        for (a, b) in self.pushes.iter_mut().zip(other.pushes) {
            a.times = a.times.best(b.times);
        }
        for (a, b) in self.choices.iter_mut().zip(other.choices) {
            lower(&mut a.build, b.build);
            lower(&mut a.open, b.open);
            lower(&mut a.verify, b.verify);
            lower(&mut a.replace, b.replace);
        }
        for (a, b) in self.builds.iter_mut().zip(other.builds) {
            lower(&mut a.leaf, b.leaf);
        }
        for (a, b) in self.growth.iter_mut().zip(other.growth) {
            lower(&mut a.build, b.build);
            lower(&mut a.open, b.open);
            lower(&mut a.verify, b.verify);
            lower(&mut a.replace, b.replace);
        }
        self
    }

    /// The rounds of a pass.
    fn rounds(&self, full: usize) -> usize {
        full.div_ceil(if self.quick { 10 } else { PASSES })
    }

    fn add(
        &mut self,
        operation: &str,
        t: impl Into<Option<usize>>,
        l: Option<usize>,
        tree: Option<Sizes>,
        times: Times,
        target: Option<f64>,
    ) {
        self.rows.push(Row {
            operation: operation.to_string(),
            t: t.into(),
            l,
            tree,
            times,
            target,
        });
    }

    /// A permutation and the halves of its external layer, the inverse permutation, a compression, a validation, and the judging of a set.
    fn states<const T: usize>(&mut self, draw: &mut impl FnMut() -> u64) {
        let case = Case::<T>::new(T / 2, 16, draw);
        let (n, few, l) = (self.rounds(300), self.rounds(60), Some(T / 2));
        let target = permutation_target(T);
        case.assert_halves();
        case.assert_inverses();
        self.add("permutation, no validation", T, None, None, case.permutation(n), Some(target));
        // A block alone has no sums.
        if T > 4 {
            self.add("sums", T, None, None, case.sums(n), None);
        }
        self.add("M4 in each block", T, None, None, case.m4_blocks(n), None);
        self.add("compression, no validation", T, l, None, case.bare_compression(n), None);
        self.add("compress", T, l, None, case.compression(n), None);
        let (inverse, thousand) = case.inverse_permutations(few);
        self.add("inverse permutation", T, None, None, inverse, Some(INVERSE_TARGET));
        self.inverted.push(Inverted { t: T, times: thousand });
        let (validate, keeping) = case.validation(n);
        self.add("validate", T, l, None, validate, None);
        self.judged.push(Judged { t: T, times: keeping });
        self.add("sizes", T, l, Some(case.sizes), case.sizing(n), None);
    }

    /// The trees of one shape near one size.
    fn trees<const T: usize>(&mut self, l: usize, size: u32, draw: &mut impl FnMut() -> u64) {
        let case = Case::<T>::new(l, height_near(size, T / l), draw);
        let sizes = case.sizes;
        eprintln!("t = {T}, l = {l}, h = {}", sizes.height);
        let built = case.build(self.rounds(if size > 16 { 6 } else { 15 }));
        let mut add = |operation, times, target| self.add(operation, T, Some(l), Some(sizes), times, target);
        add("build", built, Some(build_target(T)));
        self.builds.push(Built {
            t: T,
            l,
            size,
            leaf: built.proved / sizes.leaves as f64,
        });
        let (n, store) = (self.rounds(80), case.store());
        let (verify, floor) = case.verify(n, &store);
        let (open, replace) = (case.open(n, &store), case.replace(n, &store));
        self.floors.push(Floor {
            t: T,
            l,
            h: sizes.height,
            verify: verify.proved,
            floor,
        });
        if size > 16 {
            let (build, open, verify, replace) = (built.proved, open.proved, verify.proved, replace.proved);
            self.choices.push(Choice {
                t: T,
                l,
                sizes,
                build,
                open,
                verify,
                replace,
            });
        }
        if size == 16 {
            case.assert_pushes(&store, draw);
            for h in SMALL {
                let small = Case::<T>::new(l, h, draw);
                small.assert_pushes(&small.store(), draw);
            }
            let times = case.storeless_root(self.rounds(15));
            self.add("storeless root", T, Some(l), Some(sizes), times, Some(STORELESS_TARGET));
        }
        if size == 16 && MEASURED.contains(&(T, l)) {
            let (some, few) = (self.rounds(60), self.rounds(30));
            let mut add = |operation, times, target| self.add(operation, T, Some(l), Some(sizes), times, target);
            add("open", open, None);
            add("verify", verify, None);
            add("replace", replace, None);
            add("push, 1 record", case.push(n, &store, 1, draw), None);
            add("push, 100 records", case.push(some, &store, 100, draw), None);
            add("push, 10,000 records", case.push(few, &store, 10_000, draw), None);
        }
        if (T, l) == PUSHED {
            self.pushes(&case, size, &store, draw);
        }
    }

    /// Pushes of one shape and size, with their test for a place that stands twice.
    fn pushes<const T: usize>(&mut self, case: &Case<T>, size: u32, store: &[u64], draw: &mut impl FnMut() -> u64) {
        let leaves = case.sizes.leaves;
        for (near, records, rounds, target) in PUSHES {
            let aimed = records <= LONG;
            if near != size || (self.quick && !aimed) {
                continue;
            }
            eprintln!("t = {T}, l = {}, {leaves} leaves, pushes of {records}", case.sizes.node);
            if records > 1 {
                case.assert_repeats_refused(store, records, draw);
            }
            // One record is in either order.
            let orders = if records == 1 { &[true][..] } else { &[true, false] };
            for &rising in orders {
                let times = case.tested_push(self.rounds(rounds), store, (records, rising), draw);
                self.pushes.push(Pushed {
                    leaves,
                    records,
                    rising,
                    times,
                    target,
                    aimed,
                });
            }
        }
    }

    /// One shape at many heights, for the second picture.
    fn growing(&mut self, draw: &mut impl FnMut() -> u64) {
        const T: usize = GROWING.0;
        for h in HEIGHTS {
            eprintln!("t = {T}, l = {}, h = {h}", GROWING.1);
            let case = Case::<T>::new(GROWING.1, h, draw);
            let build = case.proved_build(self.rounds(if h > 16 { 4 } else { 20 }));
            let (n, store) = (self.rounds(50), case.store());
            let (open, replace) = (case.open(n, &store).proved, case.replace(n, &store).proved);
            let verify = case.verify(n, &store).0.proved;
            self.growth.push(Growth {
                leaves: case.sizes.leaves,
                build,
                open,
                verify,
                replace,
            });
        }
    }

    /// The leaf of a file, at one shape.
    fn files<const T: usize>(&mut self, l: usize, draw: &mut impl FnMut() -> u64) {
        eprintln!("t = {T}, l = {l}, a file");
        let contents: Vec<u8> = (0..FILE_BYTES).map(|_| draw() as u8).collect();
        let case = Case::<T>::new(l, 1, draw);
        let (times, floor) = case.leaf_of_file(self.rounds(30), &contents);
        let aimed = (T, l) == AIMED;
        let operation = format!("leaf of file, {} MiB", FILE_BYTES >> 20);
        self.add(&operation, T, Some(l), None, times, aimed.then_some(FILE_TARGET));
        self.absorptions.push(Absorption {
            t: T,
            l,
            bytes: FILE_BYTES,
            blocks: case.blocks(&contents),
            leaf: times.proved,
            floor,
            target: aimed.then_some(ABSORPTION_TARGET),
        });
    }

    fn print(mut self, load: String) {
        let order = [
            "permutation",
            "sums",
            "M4",
            "inverse permutation",
            "inverse of",
            "compression",
            "compress",
            "validate",
            "sizes",
            "build",
            "storeless",
            "open",
            "verify",
            "replace",
            "push",
            "leaf",
        ];
        let place = |row: &Row| order.iter().position(|name| row.operation.starts_with(name));
        self.rows.sort_by_key(|row| {
            (
                place(row),
                row.operation.len(),
                row.tree.is_some_and(|tree| tree.leaves > 1 << 18),
            )
        });
        println!("- processor: {}", report::machine());
        println!("- Rust: {}", option_env!("BENCH_RUSTC").unwrap_or("unknown"));
        println!("- Rattle: {}", option_env!("BENCH_RT").unwrap_or("unknown"));
        println!(
            "- load averages of 1, 5 and 15 minutes: {load} at the start, {} at the end",
            report::load()
        );
        println!("\n### Every operation\n");
        report::print_rows(&self.rows);
        println!("\n### A thousand inverse permutations\n");
        report::print_inverted(&self.inverted);
        println!("\n### Validation, and the judging of a set, beside what they were before a set kept anything\n");
        report::print_judged(&self.judged);
        println!("\n### Verification beside the work that it cannot do without\n");
        report::print_floors(&self.floors);
        println!("\n### The leaf of a file beside its permutations alone\n");
        report::print_absorptions(&self.absorptions);
        let shape = format!("at t = {}, l = {}", PUSHED.0, PUSHED.1);
        println!("\n### Pushes, {shape}\n");
        report::print_pushes(&self.pushes);
        println!("\n### The test of a push for a place that stands twice, {shape}\n");
        report::print_tests(&self.pushes);
        println!("\n### To choose from, at about 2^20 leaves\n");
        report::print_choices(&self.choices);
    }
}

fn main() {
    let arguments: Vec<String> = std::env::args().skip(1).collect();
    let (folder, quick) = match &arguments[..] {
        [folder] => (folder, false),
        [folder, word] if word == "quick" => (folder, true),
        _ => panic!("usage: bench FOLDER [quick]"),
    };
    let load = report::load();
    let passes = if quick { 1 } else { PASSES };
    let bench = (1..passes).fold(Bench::measured(quick), |best, _| best.best(Bench::measured(quick)));
    let write = |name: &str, svg: String| std::fs::write(format!("{folder}/{name}"), svg).expect("the folder can be written");
    write("arity.svg", charts::by_arity(&bench.builds, SIZES));
    write("leaves.svg", charts::by_leaves(&bench.growth, GROWING));
    bench.print(load);
}
