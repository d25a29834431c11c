//! The leaf of a file in Rust, twice. The tuned version adds the contents to the state from where they are, and of the message it
//! holds the head alone; the plain one lays out the whole message. Both test what the proved entry tests. T is the width, known
//! to the compiler.
use crate::poseidon2::{add, add_word, Plain, Tuned, Version};
use crate::sets::{Set, DONE};
use crate::trees::BAD_LENGTH;
use std::io::Write;

pub const TOO_LONG: u8 = 16;
const MOST_BYTES: usize = 4294967295;
/// The bytes of a word.
const BYTES: usize = 7;
const WORD: u64 = (1 << (8 * BYTES)) - 1;

/// The number of the first refusal that applies, or 0.
fn refusal_of<V: Version>(set: &Set, contents: &[u8], leaf: &[u64]) -> u8 {
    match set.judge::<V>() {
        DONE if leaf.len() as u64 != set.node_size => BAD_LENGTH,
        DONE if contents.len() > MOST_BYTES => TOO_LONG,
        number => number,
    }
}

/// A message: what comes before the contents, and the contents where they are.
struct Message<'a> {
    head: [u8; 16],
    head_count: usize,
    contents: &'a [u8],
}

impl Message<'_> {
    fn of(contents: &[u8]) -> Message<'_> {
        let mut head = [0; 16];
        let mut free = &mut head[..];
        write!(free, "blob {}\0", contents.len()).expect("a count of at most ten digits");
        let head_count = 16 - free.len();
        Message {
            head,
            head_count,
            contents,
        }
    }

    /// The message blocks, of so many words each: the message and the byte 01, and zeros to the next multiple.
    fn blocks(&self, words: usize) -> usize {
        (self.head_count + self.contents.len() + 1).div_ceil(BYTES * words)
    }

    /// Byte i of the padded message.
    fn byte(&self, i: usize) -> u8 {
        if i < self.head_count {
            return self.head[i];
        }
        let from = i - self.head_count;
        let end = (from == self.contents.len()) as u8;
        *self.contents.get(from).unwrap_or(&end)
    }

    /// The word that begins at byte `at`, byte by byte.
    #[cold]
    fn edge_word(&self, at: usize) -> u64 {
        (0..BYTES).rev().fold(0, |word, i| word << 8 | self.byte(at + i) as u64)
    }

    /// Adds block n to the words. Within the contents a word is one load of eight bytes, without the highest.
    #[inline(always)]
    fn add_block(&self, n: usize, words: &mut [u64]) {
        let (at, size) = (n * BYTES * words.len(), BYTES * words.len() + 1);
        let inner = at
            .checked_sub(self.head_count)
            .and_then(|from| self.contents.get(from..from + size));
        if let Some(bytes) = inner {
            for (x, eight) in words.iter_mut().zip(bytes.windows(8).step_by(BYTES)) {
                *x = add_word(*x, u64::from_le_bytes(eight.try_into().unwrap()) & WORD);
            }
        } else {
            for (i, x) in words.iter_mut().enumerate() {
                *x = add_word(*x, self.edge_word(at + BYTES * i));
            }
        }
    }
}

/// The message blocks of a file, of so many words each.
pub fn blocks(contents: &[u8], words: usize) -> usize {
    Message::of(contents).blocks(words)
}

#[inline(never)]
pub fn tuned<const T: usize>(set: &Set, contents: &[u8], leaf: &mut [u64]) -> u8 {
    let number = refusal_of::<Tuned>(set, contents, leaf);
    if number != DONE {
        return number;
    }
    let (message, words) = (Message::of(contents), T - leaf.len());
    let mut state = [0; T];
    for n in 0..message.blocks(words) {
        message.add_block(n, &mut state[..words]);
        set.permute::<Tuned, T>(&mut state);
    }
    leaf.copy_from_slice(&state[..leaf.len()]);
    DONE
}

/// The message with its padding, to a multiple of so many bytes.
fn padded(contents: &[u8], block: usize) -> Vec<u8> {
    let mut message = format!("blob {}\0", contents.len()).into_bytes();
    message.extend_from_slice(contents);
    message.push(1);
    message.resize(message.len().next_multiple_of(block), 0);
    message
}

#[inline(never)]
pub fn plain<const T: usize>(set: &Set, contents: &[u8], leaf: &mut [u64]) -> u8 {
    let number = refusal_of::<Plain>(set, contents, leaf);
    if number != DONE {
        return number;
    }
    let words = T - leaf.len();
    let mut state = [0; T];
    for block in padded(contents, BYTES * words).chunks_exact(BYTES * words) {
        for (x, bytes) in state.iter_mut().zip(block.chunks_exact(BYTES)) {
            let word = bytes.iter().rev().fold(0, |word, &byte| word << 8 | byte as u64);
            *x = add(*x, word);
        }
        set.permute::<Plain, T>(&mut state);
    }
    leaf.copy_from_slice(&state[..leaf.len()]);
    DONE
}
