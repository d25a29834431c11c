//! The cases of the reference, as the inputs of the programs have them, and what its scripts print.

use std::process::Command;

use crate::model::field::P;
use crate::model::set::{Set, CONSTANT_PLACES, DIAGONAL_PLACES};

/// The reference's digest of a list of numbers.
pub fn digest(numbers: &[u64]) -> u64 {
    numbers.iter().fold(1, |digest: u64, &number| digest.wrapping_mul(31).wrapping_add(number))
}

/// A file of the repository.
pub fn text(path: &str) -> String {
    let path = format!("{}/../../{path}", env!("CARGO_MANIFEST_DIR"));
    std::fs::read_to_string(&path).unwrap_or_else(|error| panic!("{path}: {error}"))
}

/// What a script of the reference prints.
pub fn printed(script: &str) -> String {
    let path = format!("{}/../../reference/{script}", env!("CARGO_MANIFEST_DIR"));
    let output = Command::new("python3").arg(&path).output().unwrap_or_else(|error| panic!("python3 {path}: {error}"));
    assert!(output.status.success(), "python3 {path}: {}", String::from_utf8_lossy(&output.stderr));
    String::from_utf8(output.stdout).expect("text")
}

/// The numbers of an input, in order.
pub struct Input(std::vec::IntoIter<u64>);

impl Input {
    /// Decimal numbers, each followed by one byte that is no digit.
    pub fn new(text: &str) -> Input {
        let numbers = text.split_terminator(|c: char| !c.is_ascii_digit()).map(|number| number.parse().expect("a number"));
        Input(numbers.collect::<Vec<u64>>().into_iter())
    }

    pub fn is_at_its_end(&self) -> bool {
        self.0.len() == 0
    }

    pub fn number(&mut self) -> u64 {
        self.0.next().expect("the input has another number")
    }

    /// The buffer that a list is made in, and how many places of it are the list.
    fn buffer(&mut self, places: usize, beyond: u64) -> (Vec<u64>, usize) {
        let count = self.number().min(places as u64) as usize;
        let mut buffer = drawn(self.number(), count);
        buffer.resize(places, beyond);
        self.runs(&mut buffer);
        (buffer, count)
    }

    /// Values that are written over others.
    fn runs(&mut self, buffer: &mut [u64]) {
        for _ in 0..self.number() {
            let (place, length) = (self.number() as usize, self.number() as usize);
            buffer[place..place + length].fill_with(|| self.number());
        }
    }

    /// A list in a buffer of so many places.
    pub fn list(&mut self, places: usize) -> Vec<u64> {
        let (mut buffer, count) = self.buffer(places, 0);
        buffer.truncate(count);
        buffer
    }

    /// A set that is handed in, which keeps the values of its D.
    pub fn set(&mut self) -> Set {
        let [width, node_size, height, full_rounds, partial_rounds, beyond] = [(); 6].map(|()| self.number());
        let (diagonal, _) = self.buffer(DIAGONAL_PLACES, beyond);
        let (constants, _) = self.buffer(CONSTANT_PLACES, beyond);
        let mut set = Set {
            width,
            node_size,
            height,
            full_rounds,
            partial_rounds,
            diagonal: diagonal.try_into().expect("the places of D"),
            constants: constants.try_into().expect("the places of C"),
            inverses: [beyond; DIAGONAL_PLACES],
            total_inverse: 0,
        };
        set.keep();
        set
    }

    /// A set with values that are written over those that it keeps.
    pub fn set_and_kept(&mut self) -> Set {
        let mut set = self.set();
        let mut kept = [&set.inverses[..], &[set.total_inverse]].concat();
        self.runs(&mut kept);
        set.total_inverse = kept.pop().expect("the last of them");
        set.inverses.copy_from_slice(&kept);
        set
    }

    /// Drawn words, one of which may be p.
    pub fn held(&mut self, seed: u64) -> Vec<u64> {
        let (count, fault) = (self.number() as usize, self.number() as usize);
        let mut words = drawn(seed, count);
        if fault > 0 {
            words[fault - 1] = P;
        }
        words
    }
}

/// The reference's own generator, modulo p.
fn drawn(seed: u64, count: usize) -> Vec<u64> {
    drawn_numbers(seed).take(count).map(|x| x % P).collect()
}

/// The reference's own generator, without end.
pub fn drawn_numbers(seed: u64) -> impl Iterator<Item = u64> {
    let mut x = 88172645463325252u64.wrapping_add(seed);
    std::iter::repeat_with(move || {
        x ^= x << 13;
        x ^= x >> 7;
        x ^= x << 17;
        x
    })
}
