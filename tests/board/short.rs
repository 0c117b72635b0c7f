//! Short inputs, for counting instructions: the mixes cut to about a hundred steps, and the open door.

use model::configuration::fresh_from_start;
use model::mixes::mixes;
use model::records::records_of;

const OPEN_DOOR: &str = include_str!("../../samples/open-door.hex");

/// How many steps are kept of each mix: its beginning, and then whole rounds.
const STEPS: [usize; 5] = [110, 103, 102, 102, 102];

/// The inputs, by name.
pub fn short_mixes() -> Vec<(&'static str, Vec<u8>)> {
    let mut inputs: Vec<_> =
        mixes().into_iter().zip(STEPS).map(|((name, input), steps)| (name, beginning(&input, steps))).collect();
    inputs.push(("open door", bytes_of(OPEN_DOOR)));
    inputs
}

/// The configuration and so many steps.
fn beginning(input: &[u8], steps: usize) -> Vec<u8> {
    let (_, used) = fresh_from_start(input).expect("a mix has a configuration");
    let records = records_of(&input[used..]);
    [&input[..used], &records[..steps].concat()].concat()
}

/// The bytes of a sample: pairs of hex digits, and # to the end of the line a comment.
fn bytes_of(text: &str) -> Vec<u8> {
    text.lines()
        .flat_map(|line| line.split('#').next().unwrap_or("").split_whitespace())
        .map(|pair| u8::from_str_radix(pair, 16).expect("a pair of hex digits"))
        .collect()
}
