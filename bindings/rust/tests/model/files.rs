//! The leaf of a file, of an accepted set: the whole message is laid out before any of it is taken in.

use super::field::add;
use super::permutation::permute;
use super::set::Set;

/// The bytes of a word.
const WORD_BYTES: usize = 7;

/// What Git calls a blob.
fn message(contents: &[u8]) -> Vec<u8> {
    let count = contents.len().to_string();
    [b"blob ", count.as_bytes(), &[0], contents].concat()
}

/// The message with a byte 01 and zeros after it, of whole message blocks of so many bytes.
fn padded(mut message: Vec<u8>, block: usize) -> Vec<u8> {
    message.push(1);
    while !message.len().is_multiple_of(block) {
        message.push(0);
    }
    message
}

/// The number of these bytes, the lowest first.
fn number(bytes: &[u8]) -> u64 {
    let mut number = 0;
    for &byte in bytes.iter().rev() {
        number = 256 * number + byte as u64;
    }
    number
}

/// The words of a file.
pub fn words(set: &Set, contents: &[u8]) -> Vec<u64> {
    let block = WORD_BYTES * (set.width - set.node_size) as usize;
    padded(message(contents), block).chunks(WORD_BYTES).map(number).collect()
}

/// The leaf of a file.
pub fn leaf(set: &Set, contents: &[u8]) -> Vec<u64> {
    let mut state = vec![0; set.width as usize];
    for block in words(set, contents).chunks((set.width - set.node_size) as usize) {
        for (i, &word) in block.iter().enumerate() {
            state[i] = add(state[i], word);
        }
        state = permute(set, &state);
    }
    state.truncate(set.node_size as usize);
    state
}
