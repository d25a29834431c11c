//! One measurement of each operation: the proved version, the tuned and the plain one in interleaved rounds.
use crate::files;
use crate::halves;
use crate::inverses::Inverting;
use crate::poseidon2::{Plain, Tuned, Version, P};
use crate::proved;
use crate::repeats;
use crate::sets::{self, Numbers, Set, BAD_KEPT_VALUES, BAD_WIDTH, DONE, SINGULAR};
use crate::trees::{self, places, Sizes, BAD_LENGTH, NOT_A_WORD, RECORD, REPEATED};
use std::hint::black_box;

/// R_F and R_P.
pub const FULL: usize = 8;
pub const PARTIAL: usize = 22;
/// Calls in a round: of one permutation, compression or validation; of a half of M_E, which takes little; of one verification or
/// replacement.
const STATE_CALLS: usize = 400;
const HALF_CALLS: usize = 20_000;
const TREE_CALLS: usize = 40;
/// Inverse permutations in a round.
const THOUSAND: usize = 1_000;
/// An opening takes little: a round opens each place so many times.
const OPENINGS: usize = 10;
/// A round times the parts of a push so many times, each time with calls for at least so many records.
const SAMPLES: usize = 20;
const SAMPLE_RECORDS: usize = 2_000;

/// The best times of the versions, in seconds a call.
#[derive(Clone, Copy)]
pub struct Times {
    pub proved: f64,
    pub tuned: f64,
    pub plain: f64,
}

impl Times {
    /// The better of each.
    pub fn best(self, other: Times) -> Times {
        Times {
            proved: self.proved.min(other.proved),
            tuned: self.tuned.min(other.tuned),
            plain: self.plain.min(other.plain),
        }
    }

    fn of(best: &[f64], calls: usize) -> Times {
        let n = calls as f64;
        Times {
            proved: best[0] / n,
            tuned: best[1] / n,
            plain: best[2] / n,
        }
    }
}

/// The best times of a thousand inverse permutations, in seconds: of the proved version and of the tuned one.
#[derive(Clone, Copy)]
pub struct Thousand {
    /// Under one set.
    pub kept: [f64; 2],
    /// With a validation before each.
    pub anew: [f64; 2],
    /// The tuned version that keeps nothing: in each D is inverted, word by word.
    pub former: f64,
}

impl Thousand {
    /// The better of each.
    pub fn best(self, other: Thousand) -> Thousand {
        Thousand {
            kept: lower(self.kept, other.kept),
            anew: lower(self.anew, other.anew),
            former: self.former.min(other.former),
        }
    }
}

/// What the values that a set keeps cost where it is made and where it is handed in: the best times of proved calls, and of a tuned version
/// of what there was before, in seconds.
#[derive(Clone, Copy)]
pub struct Keeping {
    pub validate: f64,
    /// The tuned validation without these values.
    pub former: f64,
    /// The inverse of a word.
    pub inverse: f64,
    /// A call that is refused for its set's width, before anything is judged of the lists, and one that is refused right after the judging.
    pub refused: [f64; 2],
}

impl Keeping {
    /// The better of each.
    pub fn best(self, other: Keeping) -> Keeping {
        Keeping {
            validate: self.validate.min(other.validate),
            former: self.former.min(other.former),
            inverse: self.inverse.min(other.inverse),
            refused: lower(self.refused, other.refused),
        }
    }

    /// How much longer validation takes than it did, in inversions.
    pub fn inversions(&self) -> f64 {
        (self.validate - self.former) / self.inverse
    }

    /// The judging of a set that is handed in, as it shows in whole calls.
    pub fn judging(&self) -> f64 {
        self.refused[1] - self.refused[0]
    }
}

/// The lower of each.
fn lower(a: [f64; 2], b: [f64; 2]) -> [f64; 2] {
    [a[0].min(b[0]), a[1].min(b[1])]
}

/// The best times of a push and of its test for a place that stands twice, in seconds.
#[derive(Clone, Copy)]
pub struct Tested {
    /// The compressions that the push makes.
    pub made: u64,
    pub proved: f64,
    pub tuned: f64,
    /// The tuned version without the test.
    pub untested: f64,
    /// The proved build of the leaves that the push brings, where it brings all.
    pub build: Option<f64>,
    /// The proved first pass over the records, without its part of the test and with it.
    pub passes: [f64; 2],
    /// Where a push searches its places.
    pub search: Option<Search>,
}

#[derive(Clone, Copy)]
pub struct Search {
    /// The proved search by itself.
    pub alone: f64,
    /// Pushes of such a list whose last place is also the first, which the library refuses: with 12 before the search, for the store's
    /// last number, and with 17 where the search ends.
    pub refused: [f64; 2],
}

impl Search {
    /// The search as it shows in whole calls.
    pub fn shown(&self) -> f64 {
        self.refused[1] - self.refused[0]
    }
}

impl Tested {
    /// The library's test: what it adds to the first pass, and the search.
    pub fn test(&self) -> f64 {
        self.most() - self.passes[0]
    }

    /// More than the test can take: the whole first pass, whatever it tests, and the search.
    pub fn most(&self) -> f64 {
        self.passes[1] + self.search.map_or(0.0, |search| search.alone)
    }

    /// The better of each.
    pub fn best(self, other: Tested) -> Tested {
        Tested {
            made: self.made,
            proved: self.proved.min(other.proved),
            tuned: self.tuned.min(other.tuned),
            untested: self.untested.min(other.untested),
            build: self.build.zip(other.build).map(|(a, b)| a.min(b)),
            passes: lower(self.passes, other.passes),
            search: self.search.zip(other.search).map(|(a, b)| Search {
                alone: a.alone.min(b.alone),
                refused: lower(a.refused, b.refused),
            }),
        }
    }
}

/// The processor time that this thread has taken, in seconds.
fn clock() -> f64 {
    #[repr(C)]
    struct Timespec {
        seconds: i64,
        nanoseconds: i64,
    }
    extern "C" {
        fn clock_gettime(clock: i32, time: *mut Timespec) -> i32;
    }
    const THREAD: i32 = 3;
    let mut time = Timespec {
        seconds: 0,
        nanoseconds: 0,
    };
    assert_eq!(unsafe { clock_gettime(THREAD, &mut time) }, 0);
    time.seconds as f64 + time.nanoseconds as f64 * 1e-9
}

/// The seconds that some work takes.
fn timed(work: impl FnOnce()) -> f64 {
    let begun = clock();
    work();
    clock() - begun
}

/// A best time that improves by less than this is not better.
const NOISE: f64 = 0.002;
/// Rounds go on past their number while a best time still improves, at most so many times over.
const PATIENCE: usize = 3;

/// Versions that are timed in turn, round by round. There is a buffer for each version, and from round to round they change places,
/// so that none has the better memory; after every round the buffers must be equal.
struct Race<'a, F> {
    versions: &'a [F],
    buffers: Vec<Vec<u64>>,
    best: Vec<f64>,
    /// The rounds so far, and the last of them in which a best time got better.
    rounds: usize,
    improved: usize,
}

impl<'a, F: Copy> Race<'a, F> {
    fn new(start: &[u64], versions: &'a [F]) -> Self {
        Race {
            versions,
            buffers: vec![start.to_vec(); versions.len()],
            best: vec![f64::MAX; versions.len()],
            rounds: 0,
            improved: 0,
        }
    }

    /// Whether there is another round: of so many, and then while one of the best times got better in the last few.
    fn goes_on(&self, rounds: usize) -> bool {
        let few = 2 * self.versions.len();
        self.rounds < rounds || (self.rounds < self.improved + few && self.rounds < PATIENCE * rounds)
    }

    fn round(&mut self, work: impl Fn(F, usize, &mut [u64])) {
        for (j, buffer) in self.buffers.iter_mut().enumerate() {
            let i = (j + self.rounds) % self.versions.len();
            let taken = timed(|| work(self.versions[i], self.rounds, buffer));
            if taken < self.best[i] * (1.0 - NOISE) {
                self.improved = self.rounds;
            }
            self.best[i] = self.best[i].min(taken);
        }
        assert!(self.buffers.windows(2).all(|two| two[0] == two[1]), "the versions differ");
        self.rounds += 1;
    }
}

/// The best time of each version.
fn race<F: Copy, const N: usize>(
    rounds: usize,
    start: &[u64],
    versions: [F; N],
    work: impl Fn(F, usize, &mut [u64]),
) -> [f64; N] {
    let mut race = Race::new(start, &versions);
    while race.goes_on(rounds) {
        race.round(&work);
    }
    race.best.try_into().expect("a time for each version")
}

/// The inverse of a word, and of that again.
pub fn inverse(rounds: usize, word: u64) -> Times {
    let best = race(rounds, &[word], INVERSES, |version, _, word| {
        (0..STATE_CALLS).for_each(|_| word[0] = version(black_box(word[0])));
    });
    Times::of(&best, STATE_CALLS)
}

/// Brings the best time of a call down, if so many calls take less. One before them is not timed: what it reads is then near for all.
fn sample(best: &mut f64, calls: usize, call: impl Fn()) {
    call();
    *best = best.min(timed(|| (0..calls).for_each(|_| call())) / calls as f64);
}

// What the versions of an operation have in common. A call goes through a pointer, so that no version is joined with its caller.
type Permute<const T: usize> = fn(&Set, &mut [u64; T]);
type Half<const T: usize> = fn(&[u64; T], &mut [u64; T]);
type BareCompress<const T: usize> = fn(&Set, &[u64; T], &mut [u64]);
type Inverse = fn(u64) -> u64;
type Validate = fn(&Numbers, &mut Set) -> u8;
type Unpermute = fn(&Set, &mut [u64]) -> u8;
type Count = fn(&Set, &mut [u64; 3]) -> u8;
type Write = fn(&Set, &[u64], &mut [u64]) -> u8;
type Open = fn(&Set, &[u64], u64, &mut [u64]) -> u8;
type Verify<'a> = &'a dyn Fn(&Set, &[u64], u64, &[u64], &[u64]) -> u8;
type Replace = fn(&Set, &mut [u64], u64, &[u64], &mut u64) -> u8;
type Push = fn(&Set, &mut [u64], &[u64], &mut u64) -> u8;
type LeafOfFile<'a> = &'a dyn Fn(&Set, &[u8], &mut [u64]) -> u8;

fn permute<V: Version, const T: usize>(set: &Set, state: &mut [u64; T]) {
    set.permute::<V, T>(state)
}

// The versions of what is made of inverses.
const INVERSES: [Inverse; 3] = [proved::inverse, Tuned::inverse, Plain::inverse];
const VALIDATIONS: [Validate; 3] = [proved::validate, sets::validate::<Tuned>, sets::validate::<Plain>];
const SIZES: [Count; 3] = [proved::sizes, trees::sizes::<Tuned>, trees::sizes::<Plain>];

fn unpermutes<const T: usize>() -> [Unpermute; 3] {
    [proved::unpermute, trees::unpermute::<Tuned, T>, trees::unpermute::<Plain, T>]
}

/// What a half of M_E writes.
fn written<const T: usize>(half: Half<T>, numbers: &[u64; T]) -> [u64; T] {
    let mut state = [1; T];
    half(numbers, &mut state);
    state
}

// The versions of the halves of M_E.
fn sums<const T: usize>() -> [Half<T>; 3] {
    [halves::sums, Tuned::sums, Plain::sums]
}

fn m4_blocks<const T: usize>() -> [Half<T>; 3] {
    [halves::m4_blocks, Tuned::m4_blocks, Plain::m4_blocks]
}

/// Every version answers a set with this number.
fn assert_judged(set: &Set, number: u8) {
    for version in SIZES {
        assert_eq!(version(set, &mut [0; 3]), number);
    }
}

// The versions of a push.
fn pushes<const T: usize>() -> [Push; 3] {
    [proved::push, trees::push::<Tuned, T, true>, trees::push::<Plain, T, true>]
}

/// Records to push.
struct Pushable {
    /// The different nodes above the places.
    nodes: u64,
    /// A list for even rounds and one for odd, with other leaves at the same places, so that a push changes something.
    lists: [Vec<u64>; 2],
}

/// A set of seeded words, with leaves, and places with new leaves for them.
pub struct Case<const T: usize> {
    pub sizes: Sizes,
    set: Set,
    leaves: Vec<u64>,
    places: Vec<u64>,
    /// Six words for each place: one list for even rounds and one for odd, so that a change changes something.
    changes: [Vec<u64>; 2],
}

impl<const T: usize> Case<T> {
    pub fn new(l: usize, h: usize, draw: &mut impl FnMut() -> u64) -> Self {
        let sizes = Sizes::new(T / l, l, h);
        let mut list = |n: usize| (0..n).map(|_| draw()).collect::<Vec<u64>>();
        let (diagonal, constants, leaves) = (list(T), list(T * FULL + PARTIAL), list(sizes.leaf_words()));
        let places = list(TREE_CALLS).into_iter().map(|x| x % sizes.leaves as u64).collect();
        let numbers = Numbers {
            width: T as u64,
            node_size: l as u64,
            height: h as u64,
            full_rounds: FULL as u64,
            partial_rounds: PARTIAL as u64,
            diagonal: &diagonal,
            constants: &constants,
        };
        let mut set = Set::NONE;
        assert_eq!(proved::validate(&numbers, &mut set), DONE);
        Case {
            sizes,
            set,
            leaves,
            places,
            changes: [list(TREE_CALLS * 6), list(TREE_CALLS * 6)],
        }
    }

    /// The store of the leaves.
    pub fn store(&self) -> Vec<u64> {
        let mut store = vec![0; self.sizes.store_words()];
        assert_eq!(proved::build(&self.set, &self.leaves, &mut store), 0);
        store
    }

    fn row(&self) -> [u64; T] {
        std::array::from_fn(|i| self.leaves[i])
    }

    /// One permutation after another, without validation.
    pub fn permutation(&self, rounds: usize) -> Times {
        let versions: [Permute<T>; 3] = [proved::bare_permute, permute::<Tuned, T>, permute::<Plain, T>];
        let best = race(rounds, &self.row(), versions, |version, _, buffer| {
            let state: &mut [u64; T] = buffer.try_into().unwrap();
            (0..STATE_CALLS).for_each(|_| version(black_box(&self.set), state));
        });
        Times::of(&best, STATE_CALLS)
    }

    pub fn sums(&self, rounds: usize) -> Times {
        self.half(rounds, sums(), halves::SUMMED)
    }

    pub fn m4_blocks(&self, rounds: usize) -> Times {
        self.half(rounds, m4_blocks(), halves::MULTIPLIED)
    }

    /// Calls of a half of M_E, each of the same numbers below a bound.
    fn half(&self, rounds: usize, versions: [Half<T>; 3], bound: u64) -> Times {
        let numbers = self.row().map(|x| x % bound);
        let best = race(rounds, &[1; T], versions, |version, _, buffer| {
            let state: &mut [u64; T] = buffer.try_into().unwrap();
            (0..HALF_CALLS).for_each(|_| version(black_box(&numbers), state));
        });
        Times::of(&best, HALF_CALLS)
    }

    /// The versions' halves agree, and M4 after the sums is M_E, which is what a permutation without rounds makes.
    pub fn assert_halves(&self) {
        let row = self.row().map(|x| x % halves::SUMMED);
        let mut starts = vec![row];
        for number in [0, 1, halves::SUMMED - 1] {
            starts.push([number; T]);
            starts.extend((0..T).map(|i| std::array::from_fn(|j| if i == j { number } else { row[j] })));
        }
        let no_rounds = Set {
            full_rounds: 0,
            partial_rounds: 0,
            ..self.set.clone()
        };
        for start in starts {
            let mut whole = start;
            permute::<Plain, T>(black_box(&no_rounds), &mut whole);
            let made = sums().map(|version| written(version, &start));
            assert!(made == [made[0]; 3], "the sums differ");
            let made = m4_blocks().map(|version| written(version, &made[0]));
            assert!(made == [whole; 3], "the halves are not M_E");
        }
    }

    /// One compression after another, without validation. The node goes to the front of the next row.
    pub fn bare_compression(&self, rounds: usize) -> Times {
        let versions: [BareCompress<T>; 3] = [
            proved::bare_compress,
            trees::bare_compress::<Tuned, T>,
            trees::bare_compress::<Plain, T>,
        ];
        let best = race(rounds, &self.leaves[..self.sizes.node], versions, |version, _, node| {
            let mut row = self.row();
            for _ in 0..STATE_CALLS {
                row[..node.len()].copy_from_slice(node);
                version(black_box(&self.set), &row, node);
            }
        });
        Times::of(&best, STATE_CALLS)
    }

    /// One compression after another, each with its validation.
    pub fn compression(&self, rounds: usize) -> Times {
        let versions: [Write; 3] = [proved::compress, trees::compress::<Tuned, T>, trees::compress::<Plain, T>];
        let best = race(rounds, &self.leaves[..self.sizes.node], versions, |version, _, node| {
            let mut row = self.row();
            for _ in 0..STATE_CALLS {
                row[..node.len()].copy_from_slice(node);
                assert_eq!(version(black_box(&self.set), &row, node), 0);
            }
        });
        Times::of(&best, STATE_CALLS)
    }

    /// Validation, and in the same rounds what else shows the cost of the values that a set keeps.
    pub fn validation(&self, rounds: usize) -> (Times, Keeping) {
        let (numbers, no_width) = (
            self.set.numbers(),
            Set {
                width: 0,
                ..self.set.clone()
            },
        );
        let validated = |version: Validate| {
            let mut set = Set::NONE;
            (0..STATE_CALLS).for_each(|_| assert_eq!(version(black_box(&numbers), &mut set), DONE));
            assert!(set == self.set, "the versions keep other values");
        };
        let refused = |set: &Set, number: u8| {
            (0..STATE_CALLS).for_each(|_| assert_eq!(proved::unpermute(black_box(set), &mut []), number));
        };
        let [proved, tuned, plain] = VALIDATIONS;
        let versions: [&dyn Fn(); 7] = [
            &|| validated(proved),
            &|| validated(tuned),
            &|| validated(plain),
            &|| (0..STATE_CALLS).for_each(|_| assert_eq!(sets::former_validate::<Tuned>(black_box(&numbers)), DONE)),
            &|| {
                (0..STATE_CALLS).fold(self.leaves[0], |x, _| proved::inverse(black_box(x)));
            },
            &|| refused(&no_width, BAD_WIDTH),
            &|| refused(&self.set, BAD_LENGTH),
        ];
        let best = race(rounds, &[], versions, |version, _, _| version()).map(|time| time / STATE_CALLS as f64);
        let keeping = Keeping {
            validate: best[0],
            former: best[3],
            inverse: best[4],
            refused: [best[5], best[6]],
        };
        (Times::of(&best, 1), keeping)
    }

    /// The sizes of the set's tree, for which the set is judged and hardly more is done.
    pub fn sizing(&self, rounds: usize) -> Times {
        let best = race(rounds, &[0; 3], SIZES, |version, _, buffer| {
            let counts: &mut [u64; 3] = buffer.try_into().unwrap();
            (0..STATE_CALLS).for_each(|_| assert_eq!(version(black_box(&self.set), counts), DONE));
        });
        Times::of(&best, STATE_CALLS)
    }

    /// A thousand inverse permutations, each of the state that the last one made: under one set; with a validation before each; and by the
    /// tuned version that keeps nothing.
    pub fn inverse_permutations(&self, rounds: usize) -> (Times, Thousand) {
        let numbers = self.set.numbers();
        let anew = |validate: Validate, unpermute: Unpermute, state: &mut [u64]| {
            let mut set = Set::NONE;
            assert_eq!(validate(black_box(&numbers), &mut set), DONE);
            unpermute(&set, state)
        };
        let ([validate, tuned_validate, _], [proved, tuned, plain]) = (VALIDATIONS, unpermutes::<T>());
        let versions: [&dyn Fn(&Set, &mut [u64]) -> u8; 6] = [
            &proved,
            &tuned,
            &plain,
            &|_, state| anew(validate, proved, state),
            &|_, state| anew(tuned_validate, tuned, state),
            &|_, state| trees::former_unpermute::<Tuned, T>(black_box(&numbers), state),
        ];
        let best = race(rounds, &self.row(), versions, |version, _, state| {
            (0..THOUSAND).for_each(|_| assert_eq!(version(black_box(&self.set), state), DONE));
        });
        let thousand = Thousand {
            kept: [best[0], best[1]],
            anew: [best[3], best[4]],
            former: best[5],
        };
        (Times::of(&best, THOUSAND), thousand)
    }

    /// With no 0 in D, and with one at each place: the versions keep the same values, their inverse permutations take a permutation back,
    /// and they refuse kept values of which one is another. And they refuse a D whose M_I has no inverse.
    pub fn assert_inverses(&self) {
        for zero in (0..=T).rev() {
            let mut set = self.set.clone();
            if zero < T {
                set.diagonal[zero] = 0;
            }
            let made = VALIDATIONS.map(|version| {
                let mut made = Set::NONE;
                assert_eq!(version(&set.numbers(), &mut made), DONE);
                made
            });
            assert!(
                made[1..] == [made[0].clone(), made[0].clone()],
                "the versions keep other values"
            );
            let [set, ..] = made;
            let (row, mut permuted) = (self.row(), self.row());
            permute::<Plain, T>(&set, &mut permuted);
            for version in unpermutes::<T>() {
                let mut state = permuted;
                assert_eq!(version(&set, &mut state), DONE);
                assert!(state == row, "a permutation is not taken back");
            }
            let mut state = permuted;
            assert_eq!(trees::former_unpermute::<Tuned, T>(&set.numbers(), &mut state), DONE);
            assert!(state == row, "a permutation is not taken back");
            for i in 0..12 {
                let mut other = set.clone();
                other.kept.inverses[i] ^= 1;
                assert_judged(&other, if i < T { BAD_KEPT_VALUES } else { DONE });
            }
            let mut other = set.clone();
            other.kept.total_inverse ^= 1;
            assert_judged(&other, BAD_KEPT_VALUES);
        }
        let mut singular = self.set.clone();
        let others = singular.kept.inverses[1..T].iter().fold(1, |n, &e| Plain::mul_add(1, e, n));
        singular.diagonal[0] = P - Plain::inverse(others);
        assert_judged(&singular, SINGULAR);
        for version in VALIDATIONS {
            assert_eq!(version(&singular.numbers(), &mut Set::NONE.clone()), SINGULAR);
        }
    }

    pub fn build(&self, rounds: usize) -> Times {
        let versions: [Write; 3] = [proved::build, trees::build::<Tuned, T>, trees::build::<Plain, T>];
        let best = race(rounds, &vec![1; self.sizes.store_words()], versions, |version, _, store| {
            assert_eq!(version(black_box(&self.set), &self.leaves, store), 0);
        });
        Times::of(&best, 1)
    }

    /// The proved build by itself, in seconds.
    pub fn proved_build(&self, rounds: usize) -> f64 {
        let [best] = race(rounds, &vec![1; self.sizes.store_words()], [()], |_, _, store| {
            assert_eq!(proved::build(&self.set, &self.leaves, store), 0);
        });
        best
    }

    pub fn storeless_root(&self, rounds: usize) -> Times {
        let versions: [Write; 3] = [
            proved::storeless_root,
            trees::storeless_root::<Tuned, T>,
            trees::storeless_root::<Plain, T>,
        ];
        let best = race(rounds, &vec![1; self.sizes.node], versions, |version, _, node| {
            assert_eq!(version(black_box(&self.set), &self.leaves, node), 0);
        });
        Times::of(&best, 1)
    }

    pub fn open(&self, rounds: usize, store: &[u64]) -> Times {
        let versions: [Open; 3] = [proved::open, trees::open::<Tuned, T>, trees::open::<Plain, T>];
        let words = self.sizes.opening_words();
        let best = race(rounds, &vec![1; TREE_CALLS * words], versions, |version, _, openings| {
            for _ in 0..OPENINGS {
                for (&place, siblings) in self.places.iter().zip(openings.chunks_exact_mut(words)) {
                    assert_eq!(version(black_box(&self.set), store, place, siblings), 0);
                }
            }
        });
        Times::of(&best, TREE_CALLS * OPENINGS)
    }

    /// Verifications, and in the same rounds the proved work that each cannot do without: the set is judged, as it is where sizes are asked
    /// for, and h compressions.
    pub fn verify(&self, rounds: usize, store: &[u64]) -> (Times, f64) {
        let (words, l) = (self.sizes.opening_words(), self.sizes.node);
        let mut openings = vec![0; TREE_CALLS * words];
        for (&place, siblings) in self.places.iter().zip(openings.chunks_exact_mut(words)) {
            assert_eq!(proved::open(&self.set, store, place, siblings), 0);
        }
        let floor = |set: &Set, _: &[u64], _: u64, leaf: &[u64], _: &[u64]| {
            let (mut row, mut node) = (self.row(), [0; T]);
            node[..l].copy_from_slice(leaf);
            for _ in 0..self.sizes.height {
                row[..l].copy_from_slice(&node[..l]);
                proved::bare_compress(black_box(set), &row, &mut node[..l]);
            }
            proved::sizes(set, &mut [0; 3])
        };
        let versions: [Verify; 4] = [
            &proved::verify,
            &trees::verify::<Tuned, T>,
            &trees::verify::<Plain, T>,
            &floor,
        ];
        let root = &store[store.len() - l..];
        let best = race(rounds, &[], versions, |version, _, _| {
            for (&place, siblings) in self.places.iter().zip(openings.chunks_exact(words)) {
                let at = place as usize * l;
                assert_eq!(version(black_box(&self.set), root, place, &store[at..at + l], siblings), 0);
            }
        });
        (Times::of(&best, TREE_CALLS), best[3] / TREE_CALLS as f64)
    }

    pub fn replace(&self, rounds: usize, store: &[u64]) -> Times {
        let versions: [Replace; 3] = [proved::replace, trees::replace::<Tuned, T>, trees::replace::<Plain, T>];
        let l = self.sizes.node;
        let best = race(rounds, store, versions, |version, round, store| {
            for (&place, leaf) in self.places.iter().zip(self.changes[round % 2].chunks_exact(6)) {
                let mut made = 0;
                assert_eq!(version(black_box(&self.set), store, place, &leaf[..l], &mut made), 0);
                assert_eq!(made, self.set.height);
            }
        });
        Times::of(&best, TREE_CALLS)
    }

    /// Seeded records at different places, which rise or are shuffled.
    fn records(&self, count: usize, rising: bool, draw: &mut impl FnMut() -> u64) -> Vec<u64> {
        let mut places: Vec<u64> = (0..self.sizes.leaves as u64).collect();
        for i in 0..count {
            places.swap(i, i + draw() as usize % (self.sizes.leaves - i));
        }
        places.truncate(count);
        if rising {
            places.sort();
        }
        let mut records: Vec<u64> = (0..count * RECORD).map(|_| draw()).collect();
        for (record, place) in records.chunks_exact_mut(RECORD).zip(places) {
            record[0] = place;
        }
        records
    }

    /// Two lists of such records.
    fn pushable(&self, count: usize, rising: bool, draw: &mut impl FnMut() -> u64) -> Pushable {
        let records = self.records(count, rising, draw);
        let mut others = records.clone();
        for record in others.chunks_exact_mut(RECORD) {
            record[1..].fill_with(&mut *draw);
        }
        Pushable {
            nodes: self.nodes_above(&records),
            lists: [records, others],
        }
    }

    /// How many different nodes there are above the places of records.
    fn nodes_above(&self, records: &[u64]) -> u64 {
        let (mut under, mut nodes) = (1, 0);
        for _ in 0..self.sizes.height {
            under *= self.sizes.arity;
            let mut is_above = vec![false; self.sizes.leaves / under];
            places(records).for_each(|place| is_above[place as usize / under] = true);
            nodes += is_above.iter().filter(|&&is| is).count();
        }
        nodes as u64
    }

    /// The leaves with those of records at their places.
    fn changed(&self, records: &[u64]) -> Vec<u64> {
        let (l, mut leaves) = (self.sizes.node, self.leaves.clone());
        for record in records.chunks_exact(RECORD) {
            let at = record[0] as usize * l;
            leaves[at..at + l].copy_from_slice(&record[1..1 + l]);
        }
        leaves
    }

    /// One version's push of a list, with the compressions that it is to make.
    fn push_once(&self, version: Push, store: &mut [u64], list: &[u64], nodes: u64) {
        let mut made = 0;
        assert_eq!(version(black_box(&self.set), store, list, &mut made), 0);
        assert_eq!(made, nodes);
    }

    /// Every version's push leaves what its records leave that are done singly, and makes a compression for each node above them.
    pub fn assert_pushes(&self, store: &[u64], draw: &mut impl FnMut() -> u64) {
        let (l, leaves) = (self.sizes.node, self.sizes.leaves);
        let most = leaves.min(2_000);
        let counts = [0, 1, 2, leaves / 2, leaves, 20, 100, 1_000];
        for count in counts.into_iter().filter(|&count| count <= most) {
            for rising in [false, true] {
                let pushed = self.pushable(count, rising, draw);
                let (mut singly, list) = (store.to_vec(), &pushed.lists[0]);
                for record in list.chunks_exact(RECORD) {
                    let mut made = 0;
                    assert_eq!(
                        proved::replace(&self.set, &mut singly, record[0], &record[1..1 + l], &mut made),
                        0
                    );
                    assert_eq!(made, self.set.height);
                }
                for version in pushes::<T>() {
                    let mut left = store.to_vec();
                    self.push_once(version, &mut left, list, pushed.nodes);
                    assert!(left == singly, "a push differs from its records done singly");
                }
            }
        }
    }

    /// A push of `count` shuffled records; the time is of the whole push.
    pub fn push(&self, rounds: usize, store: &[u64], count: usize, draw: &mut impl FnMut() -> u64) -> Times {
        let Pushable { nodes, lists } = self.pushable(count, false, draw);
        let best = race(rounds, store, pushes::<T>(), |version, round, store| {
            self.push_once(version, store, &lists[round % 2], nodes);
        });
        Times::of(&best, 1)
    }

    /// A push of `count` records, and in the same rounds the parts that its test for a place that stands twice is made of. Where the
    /// records are at all places, also a build of their leaves.
    pub fn tested_push(
        &self,
        rounds: usize,
        store: &[u64],
        (count, rising): (usize, bool),
        draw: &mut impl FnMut() -> u64,
    ) -> Tested {
        let Pushable { nodes, lists } = self.pushable(count, rising, draw);
        let (leaves, list) = (self.sizes.leaves, &lists[0]);
        let whole = count == leaves;
        let built = lists.each_ref().map(|list| if whole { self.changed(list) } else { vec![] });
        let mut twice = list.clone();
        twice[(count - 1) * RECORD] = list[0];
        // The last is the build.
        let versions: [Option<Push>; 4] = [
            Some(proved::push),
            Some(trees::push::<Tuned, T, true>),
            Some(trees::push::<Tuned, T, false>),
            None,
        ];
        let mut race = Race::new(store, &versions[..if whole { 4 } else { 3 }]);
        let mut passes = [f64::MAX; 2];
        let mut search = repeats::is_searched(list).then_some(Search {
            alone: f64::MAX,
            refused: [f64::MAX; 2],
        });
        let calls = SAMPLE_RECORDS.div_ceil(count);
        while race.goes_on(rounds) {
            race.round(|version, round, store| match version {
                Some(push) => self.push_once(push, store, &lists[round % 2], nodes),
                None => assert_eq!(proved::build(black_box(&self.set), &built[round % 2], store), 0),
            });
            for _ in 0..SAMPLES {
                for (best, with) in passes.iter_mut().zip([false, true]) {
                    sample(best, calls, || {
                        assert!(repeats::first_pass(black_box(&self.set), list, leaves, with))
                    });
                }
                if let Some(search) = &mut search {
                    sample(&mut search.alone, calls, || {
                        assert!(repeats::search(black_box(&self.set), list, leaves))
                    });
                    self.refused_pushes(&mut search.refused, &mut race.buffers[0], &twice);
                }
            }
        }
        Tested {
            made: nodes,
            proved: race.best[0],
            tuned: race.best[1],
            untested: race.best[2],
            build: race.best.get(3).copied(),
            passes,
            search,
        }
    }

    /// Pushes of a list that has a place twice: one that is refused before the search, for the last number of the store, and one that is
    /// refused by it. The store stays as it is.
    fn refused_pushes(&self, best: &mut [f64; 2], store: &mut [u64], twice: &[u64]) {
        let last = store.len() - 1;
        let kept = store[last];
        for (best, (number, refusal)) in best.iter_mut().zip([(u64::MAX, NOT_A_WORD), (kept, REPEATED)]) {
            store[last] = number;
            let taken = timed(|| assert_eq!(proved::push(black_box(&self.set), store, twice, &mut 0), refusal));
            *best = best.min(taken);
        }
    }

    /// Every version refuses a list of so many records that has a place twice, and leaves the store.
    pub fn assert_repeats_refused(&self, store: &[u64], count: usize, draw: &mut impl FnMut() -> u64) {
        let mut left = store.to_vec();
        for rising in [false, true] {
            let mut records = self.records(count, rising, draw);
            let last = (count - 1) * RECORD;
            for from in [0, count / 2 - 1, count - 2] {
                records[last] = records[from * RECORD];
                for version in pushes::<T>() {
                    assert_eq!(version(&self.set, &mut left, &records, &mut 0), REPEATED);
                    assert!(left == store, "a refused push wrote to the store");
                }
            }
        }
    }

    /// The message blocks of a file.
    pub fn blocks(&self, contents: &[u8]) -> usize {
        files::blocks(contents, T - self.sizes.node)
    }

    /// The leaf of a file, and in the same rounds the proved work that it cannot do without: a permutation for each message
    /// block, each of the state that the last one made. These make no leaf; the one that is known is written, and so compared.
    pub fn leaf_of_file(&self, rounds: usize, contents: &[u8]) -> (Times, f64) {
        let (blocks, mut known) = (self.blocks(contents), vec![0; self.sizes.node]);
        assert_eq!(files::plain::<T>(&self.set, contents, &mut known), 0);
        let alone = |set: &Set, _: &[u8], leaf: &mut [u64]| {
            let mut state = self.row();
            (0..blocks).for_each(|_| proved::bare_permute(black_box(set), &mut state));
            black_box(state);
            leaf.copy_from_slice(&known);
            0
        };
        let versions: [LeafOfFile; 4] = [&proved::leaf_of_file, &files::tuned::<T>, &files::plain::<T>, &alone];
        let best = race(rounds, &vec![1; self.sizes.node], versions, |version, _, leaf| {
            assert_eq!(version(black_box(&self.set), contents, leaf), 0);
        });
        (Times::of(&best, 1), best[3])
    }
}
