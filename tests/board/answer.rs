//! An answer's bytes, by docs/EMBEDDING.md.

use model::table::Answer;

/// Their number.
pub const ANSWER: usize = 25;

pub fn answer_bytes(answer: &Answer) -> [u8; ANSWER] {
    let [high, low] = answer.argument.to_be_bytes();
    let [z, v, c] = [answer.z, answer.v, answer.c].map(u8::from);
    let mut bytes = [0; ANSWER];
    bytes[..8].copy_from_slice(&[answer.number, z, v, c, answer.active, answer.walked, high, low]);
    bytes[8..16].copy_from_slice(&answer.skipped.to_be_bytes());
    bytes[16] = answer.sender;
    bytes[17..].copy_from_slice(&answer.text);
    bytes
}
