//! Sets and openings under which two different leaves are accepted at one place under one root.
//!
//! No collision of a sound set is known, so a set is made for its own collision. It has two full rounds: write c for the constants
//! of the first, e for those of the second, S for the seventh powers and B for the partial rounds between them. With d = M_E^-1 c,
//! what a row x compresses to is the first l words of
//!
//!     M_E S(y + e) + v - d    where v = x + d, g = M_E v and y = B M_E S(g).
//!
//! A level has a pair of rows, and a pair is chosen by its two g. Then v and y are known though d and e are not, and the nodes that
//! the pair compresses to differ by the first l words of
//!
//!     M_E u + (v - v')        where u_i = (y_i + e_i)^7 - (y'_i + e_i)^7.
//!
//! From the leaves up: below the level at which the rows are to compress alike, a pair's y differ in one word alone. Its e_i is
//! drawn, and the difference of the pair's nodes is then known, though neither node is. The pair of the level above is chosen so that
//! its rows differ by as much in one node. At the last level all but l words of e are drawn, the others solved for.
//!
//! Then e is known, and so is each node plus the first node of d. It has to be a node of the row above, which is v less d: this gives
//! that node of d. So the path goes through other nodes at each level, and never the first.

use super::calls::{Call, Entry};
use super::cases::{diagonal_of, fill_beyond, greatest_height};
use super::generator::Generator;
use super::roots::roots;
use crate::model::field::{add, add_lists, inverse, multiply, power, seventh_power, seventh_root, subtract, subtract_lists};
use crate::model::linear::{inverse_matrix, matrix_of, times, Matrix};
use crate::model::permutation::{external_layer, partial_rounds, undo_partial_rounds};
use crate::model::set::{validated, Numbers, Set};
use crate::model::tree::climb;

/// The levels at which a collision's rows compress alike.
#[derive(Clone, Copy, Debug)]
pub enum Kind {
    /// This level alone. The rows of the levels below differ too.
    At(usize),
    /// Levels 0 and 1.
    Twice,
}

/// Rows of two leaves, level by level, that are accepted together under a set.
#[derive(Debug)]
pub struct Collision {
    set: Set,
    rows: Vec<[Vec<u64>; 2]>,
    /// Which node of its row the path goes through, above level 0.
    digits: Vec<usize>,
}

/// The states g of a level's two rows.
type Pair = [Vec<u64>; 2];

/// How two rows are to differ in one of their nodes.
struct Known {
    digit: usize,
    difference: Vec<u64>,
}

struct Search<'a> {
    generator: &'a mut Generator,
    t: usize,
    l: usize,
    diagonal: Vec<u64>,
    partial: Vec<u64>,
    layer: Matrix,
    unlayer: Matrix,
    /// e, as far as it is known.
    last: Vec<Option<u64>>,
    /// Places of e that are left: first l for each meeting, which its equations can be solved for, then some for other pairs.
    places: Vec<usize>,
}

/// A collision of this shape. Kinds above level 1 have no partial rounds.
pub fn collision(generator: &mut Generator, shape: (u64, u64), kind: Kind, partial: usize) -> Collision {
    let (width, node_size) = shape;
    let (t, l) = (width as usize, node_size as usize);
    let layer = matrix_of(t, external_layer);
    let unlayer = inverse_matrix(&layer).expect("M_E has an inverse");
    let diagonal = diagonal_of(generator, t);
    let partial = generator.words(partial);
    let mut search = Search { generator, t, l, diagonal, partial, layer, unlayer, last: vec![None; t], places: vec![] };
    let digits = match kind {
        Kind::At(level) => search.generator.some_below(level, t / l - 1),
        Kind::Twice => search.generator.some_below(1, t / l - 1),
    };
    let digits: Vec<usize> = digits.into_iter().map(|digit| digit + 1).collect();
    let pairs = search.pairs(kind, &digits);
    search.finish(shape, pairs, digits)
}

impl Search<'_> {
    fn pairs(&mut self, kind: Kind, digits: &[usize]) -> Vec<Pair> {
        self.draw_places(if matches!(kind, Kind::Twice) { 2 } else { 1 });
        let mut pairs = match kind {
            Kind::At(0) => return vec![self.last_pair(None)],
            Kind::At(_) => vec![self.first_pair()],
            Kind::Twice => vec![self.first_meeting_pair()],
        };
        for (above, &digit) in digits.iter().enumerate() {
            let known = Known { digit, difference: self.nodes_difference(&pairs[above]) };
            pairs.push(if above + 1 < digits.len() { self.middle_pair(&known) } else { self.last_pair(Some(&known)) });
        }
        pairs
    }

    /// y of a state g.
    fn before_last(&self, g: &[u64]) -> Vec<u64> {
        let raised: Vec<u64> = g.iter().map(|&word| seventh_power(word)).collect();
        partial_rounds(&self.diagonal, &self.partial, &external_layer(&raised))
    }

    /// The state g of a y.
    fn state_before(&self, y: &[u64]) -> Vec<u64> {
        let raised = times(&self.unlayer, &undo_partial_rounds(&self.diagonal, &self.partial, y));
        raised.into_iter().map(seventh_root).collect()
    }

    /// v - v'
    fn rows_difference(&self, [g, h]: &Pair) -> Vec<u64> {
        times(&self.unlayer, &subtract_lists(g, h))
    }

    /// u, with 0 where e is not known.
    fn raised_difference(&self, pair: &Pair) -> Vec<u64> {
        let [y, z] = [0, 1].map(|side| self.before_last(&pair[side]));
        let word = |i: usize| match self.last[i] {
            Some(e) => subtract(seventh_power(add(y[i], e)), seventh_power(add(z[i], e))),
            None => 0,
        };
        (0..self.t).map(word).collect()
    }

    /// How the nodes of a pair differ, where e is known wherever its y differ.
    fn nodes_difference(&self, pair: &Pair) -> Vec<u64> {
        let mut difference = add_lists(&external_layer(&self.raised_difference(pair)), &self.rows_difference(pair));
        difference.truncate(self.l);
        difference
    }

    fn draw_places(&mut self, meetings: usize) {
        let rows: Matrix = self.layer[..self.l].to_vec();
        let can_be_solved = |places: &[usize]| solved(&rows, places, &vec![0; self.l]).is_some();
        loop {
            self.places = self.generator.some_below(self.t, self.t);
            if self.places.chunks(self.l).take(meetings).all(can_be_solved) {
                return;
            }
        }
    }

    /// The places of the next meeting.
    fn meeting_places(&mut self) -> Vec<usize> {
        self.places.drain(..self.l).collect()
    }

    /// The place of a pair that doesn't meet, whose e is drawn.
    fn drawn_place(&mut self) -> usize {
        let place = self.places.pop().expect("there are more places than levels");
        self.last[place] = Some(self.generator.word());
        place
    }

    /// A pair whose y differ at these places alone.
    fn confined(&mut self, places: &[usize]) -> Pair {
        let y = self.generator.words(self.t);
        let mut z = y.clone();
        for &i in places {
            z[i] = add(z[i], self.generator.non_zero_word());
        }
        [self.state_before(&y), self.state_before(&z)]
    }

    /// A pair of level 0 whose nodes differ.
    fn first_pair(&mut self) -> Pair {
        let place = self.drawn_place();
        self.confined(&[place])
    }

    /// A pair of level 0 whose nodes are equal.
    fn first_meeting_pair(&mut self) -> Pair {
        let places = self.meeting_places();
        loop {
            let pair = self.confined(&places);
            if self.meet(&pair, &places) {
                return pair;
            }
        }
    }

    /// A pair whose nodes differ, and whose rows differ as is known. Without partial rounds.
    fn middle_pair(&mut self, known: &Known) -> Pair {
        let place = self.drawn_place();
        loop {
            let mut apart = vec![0; self.t];
            apart[place] = self.generator.non_zero_word();
            if let Some(pair) = self.raised_pair(&times(&self.unlayer, &apart), known) {
                return pair;
            }
        }
    }

    /// A pair whose g have seventh powers that differ by the given words, and whose rows differ as is known, if it can be solved for.
    fn raised_pair(&mut self, apart: &[u64], known: &Known) -> Option<Pair> {
        let mut g = self.generator.words(self.t);
        let mut h: Vec<u64> = g.iter().zip(apart).map(|(&g, &apart)| seventh_root(subtract(seventh_power(g), apart))).collect();
        // Some l words of g - h are solved for; the others stay.
        let places = self.generator.some_below(self.l, self.t);
        for &i in &places {
            (g[i], h[i]) = (0, 0);
        }
        let rows: Matrix = self.unlayer[known.digit * self.l..][..self.l].to_vec();
        let wanted = subtract_lists(&known.difference, &times(&rows, &subtract_lists(&g, &h)));
        for (&i, word) in places.iter().zip(solved(&rows, &places, &wanted)?) {
            g[i] = self.base(word, apart[i])?;
            h[i] = subtract(g[i], word);
        }
        Some([g, h])
    }

    /// A pair whose nodes are equal, and whose rows differ as is known, or anyhow. Gives all of e.
    fn last_pair(&mut self, known: Option<&Known>) -> Pair {
        let places = self.meeting_places();
        for i in 0..self.t {
            if self.last[i].is_none() && !places.contains(&i) {
                self.last[i] = Some(self.generator.word());
            }
        }
        loop {
            let mut apart = self.generator.words(self.t);
            if let Some(known) = known {
                apart[known.digit * self.l..][..self.l].copy_from_slice(&known.difference);
            } else if self.generator.once_in(2) {
                // A node that is equal in both rows.
                let digit = self.generator.below(self.t / self.l);
                apart[digit * self.l..][..self.l].fill(0);
            }
            let g = self.generator.words(self.t);
            let h = subtract_lists(&g, &external_layer(&apart));
            let pair = [g, h];
            if self.meet(&pair, &places) {
                return pair;
            }
        }
    }

    /// Solves for l words of e, so that the pair's nodes are equal, if there are such words. Those of the other places are known
    /// wherever the pair's y differ.
    fn meet(&mut self, pair: &Pair, places: &[usize]) -> bool {
        let rows: Matrix = self.layer[..self.l].to_vec();
        let wanted = subtract_lists(&vec![0; self.l], &self.nodes_difference(pair));
        let Some(raised) = solved(&rows, places, &wanted) else {
            return false;
        };
        let [y, z] = [0, 1].map(|side| self.before_last(&pair[side]));
        let mut found = Vec::new();
        for (&i, raised) in places.iter().zip(raised) {
            let Some(base) = self.base(subtract(y[i], z[i]), raised) else {
                return false;
            };
            found.push((i, subtract(base, y[i])));
        }
        for (i, e) in found {
            self.last[i] = Some(e);
        }
        true
    }

    /// A word a for which a^7 - (a - apart)^7 is the given word, if there is one.
    fn base(&mut self, apart: u64, raised: u64) -> Option<u64> {
        if apart == 0 {
            return None;
        }
        // With r half of `apart` and a = r + r w, this is r^7 ((1 + w)^7 + (1 - w)^7), which has even powers of w alone.
        let r = multiply(apart, inverse(2));
        let ratio = multiply(raised, inverse(power(r, 7)));
        for square in roots(self.generator, &[subtract(2, ratio), 42, 70, 14]) {
            if let Some(&w) = roots(self.generator, &[subtract(0, square), 0, 1]).first() {
                return Some(add(r, multiply(r, w)));
            }
        }
        None
    }

    /// The constants and rows of pairs that are chosen.
    fn finish(self, shape: (u64, u64), pairs: Vec<Pair>, digits: Vec<usize>) -> Collision {
        let l = self.l;
        let last: Vec<u64> = self.last.iter().map(|e| e.expect("the last pair gives all")).collect();
        let shifted_rows: Vec<Pair> = pairs.iter().map(|pair| [0, 1].map(|side| times(&self.unlayer, &pair[side]))).collect();
        let mut d = self.generator.words(self.t);
        for (below, &digit) in digits.iter().enumerate() {
            let y = self.before_last(&pairs[below][0]);
            let raised: Vec<u64> = add_lists(&y, &last).into_iter().map(seventh_power).collect();
            let shifted_node = add_lists(&external_layer(&raised), &shifted_rows[below][0]);
            for i in 0..l {
                let node = subtract(shifted_node[i], d[i]);
                d[digit * l + i] = subtract(shifted_rows[below + 1][0][digit * l + i], node);
            }
        }
        let rows = shifted_rows.iter().map(|[v, w]| [subtract_lists(v, &d), subtract_lists(w, &d)]).collect();
        let constants = [external_layer(&d), self.partial.clone(), last].concat();
        let partial_rounds = self.partial.len() as u64;
        let (width, node_size) = shape;
        let diagonal = self.diagonal;
        let numbers = Numbers { width, node_size, height: 0, full_rounds: 2, partial_rounds, diagonal, constants };
        Collision { set: validated(&numbers).expect("accepted"), rows, digits }
    }
}

/// The words that at these places, with 0 at the others, make the wanted ones of the matrix.
fn solved(rows: &Matrix, places: &[usize], wanted: &[u64]) -> Option<Vec<u64>> {
    let square: Matrix = rows.iter().map(|row| places.iter().map(|&i| row[i]).collect()).collect();
    Some(times(&inverse_matrix(&square)?, wanted))
}

impl Collision {
    /// An extraction: the leaf at any node of its row, any height and any siblings above the rows, and at times anything in the places that
    /// the set does not use.
    pub fn extraction(&self, generator: &mut Generator) -> Call {
        let (t, l) = (self.set.width as usize, self.set.node_size as usize);
        let least = self.rows.len();
        let greatest = greatest_height(self.set.width, self.set.node_size) as usize;
        let height = if generator.once_in(16) { greatest } else { greatest.min(least + generator.below(3)) };
        let mut set = self.set.clone();
        set.height = height as u64;
        if generator.once_in(2) {
            fill_beyond(generator, &mut set);
        }
        let mut digits = vec![generator.below(t / l)];
        digits.extend(&self.digits);
        digits.extend((least..height).map(|_| generator.below(t / l)));
        let place = digits.iter().rev().fold(0, |place, &digit| place * set.arity() + digit as u64);
        let above = generator.words((height - least) * (t - l));
        let [(a, a_siblings), (b, b_siblings)] = [0, 1].map(|side| {
            let own = |level: usize| digits[level] * l..(digits[level] + 1) * l;
            let leaf = self.rows[0][side][own(0)].to_vec();
            let mut siblings = Vec::new();
            for (level, rows) in self.rows.iter().enumerate() {
                siblings.extend(&rows[side][..own(level).start]);
                siblings.extend(&rows[side][own(level).end..]);
            }
            siblings.extend(&above);
            (leaf, siblings)
        });
        let (_, root) = climb(&set, place, &a, &a_siblings);
        let buffers = vec![root, a, a_siblings, b, b_siblings, generator.junk(t), generator.junk(t)];
        Call { entry: Entry::Extract, set, numbers: vec![place], buffers, contents: vec![] }
    }
}
