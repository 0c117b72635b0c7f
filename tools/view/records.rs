//! The records of an input: how it is cut into them.

/// The length of a configuration at the start of an input, up to its first 42; the whole input where it has none.
pub fn configuration(input: &[u8]) -> usize {
    let mut at = 2;
    while input.get(at) == Some(&0x41) {
        at += 3;
    }
    (at + 1).min(input.len())
}

/// The length of a step's record by its kind; `None` for what is no step.
pub fn length(kind: u8) -> Option<usize> {
    match kind {
        0x00 | 0x80 => Some(1),
        0x03 | 0x06 | 0x07 | 0x15 => Some(2),
        0x01 | 0x02 | 0x04 | 0x09 => Some(3),
        0x0B => Some(4),
        0x05 => Some(5),
        0x0A => Some(6),
        0x14 => Some(10),
        _ => None,
    }
}

/// The first record of some steps, and what follows it; else why there is none, as the bench's stop has it.
pub fn cut(steps: &[u8]) -> Result<(&[u8], &[u8]), u8> {
    let long = length(steps[0]).ok_or(4)?;
    if steps.len() < long {
        return Err(3);
    }
    Ok(steps.split_at(long))
}
