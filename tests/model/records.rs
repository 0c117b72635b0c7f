//! The records of calls and tick: their lengths, and how steps are cut into them.

/// The length of the body that a kind of call, or the tick, fixes; `None` for what is neither.
pub fn body_length(kind: u8) -> Option<usize> {
    match kind {
        0x00 | 0x80 => Some(0),
        0x03 | 0x06 | 0x07 | 0x15 => Some(1),
        0x01 | 0x02 | 0x04 | 0x09 => Some(2),
        0x0B => Some(3),
        0x05 => Some(4),
        0x0A => Some(5),
        0x14 => Some(9),
        _ => None,
    }
}

/// The first record of the steps and what follows it; else 3 for a cut one, 4 for an unknown one.
pub fn cut(steps: &[u8]) -> Result<(&[u8], &[u8]), u8> {
    let length = body_length(*steps.first().ok_or(3)?).ok_or(4)?;
    if steps.len() <= length {
        return Err(3);
    }
    Ok(steps.split_at(1 + length))
}

/// The records of some steps, up to the first that is cut or unknown.
pub fn records_of(mut steps: &[u8]) -> Vec<&[u8]> {
    let mut records = Vec::new();
    while let Ok((record, more)) = cut(steps) {
        records.push(record);
        steps = more;
    }
    records
}
