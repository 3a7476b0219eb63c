//! The words check: codes 13, 14 and 15.

use crate::answer::{Code, Refusal};

/// The sentence's words, if there are at most 64 of them and none is zero.
pub fn check(bytes: &[u8]) -> Result<Vec<u16>, Refusal> {
    if bytes.len() / 2 > 64 {
        return Err(Refusal::new(Code::Long, 64));
    }
    if bytes.len() % 2 == 1 {
        return Err(Refusal::new(Code::Odd, bytes.len() - 1));
    }
    let words: Vec<u16> =
        bytes.chunks_exact(2).map(|pair| u16::from_le_bytes([pair[0], pair[1]])).collect();
    match words.iter().position(|&word| word == 0) {
        Some(index) => Err(Refusal::new(Code::ZeroWord, index)),
        None => Ok(words),
    }
}
