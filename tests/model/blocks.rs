//! The blocks of document 02 and of the guide's Appendix B a second time, written from these papers alone.

/// A fault that can be planted in the model, to see that the trial finds it.
#[derive(Clone, Copy, PartialEq, Eq)]
pub enum Fault {
    None,
    ListForFiveOnly,
    EndIsInside,
    PlacesFromZero,
}

pub fn fault_of(name: &str) -> Option<Fault> {
    match name {
        "list-for-five-only" => Some(Fault::ListForFiveOnly),
        "end-is-inside" => Some(Fault::EndIsInside),
        "places-from-0" => Some(Fault::PlacesFromZero),
        _ => None,
    }
}

/// The longest image.
const LONGEST: usize = 65_536;

/// The length of a block of this type; `None` where it is none of the four.
pub fn block_length(kind: u8) -> Option<usize> {
    match kind {
        0 => Some(1),
        1 | 2 => Some(3),
        5 => Some(6),
        _ => None,
    }
}

/// The length of a record of this kind, which is one of the four.
fn record_length(kind: u8) -> usize {
    match kind {
        0 => 1,
        5 => 5,
        _ => 3,
    }
}

fn is_outside(image: &[u8], address: usize, fault: Fault) -> bool {
    let past = if fault == Fault::EndIsInside { address > image.len() } else { address >= image.len() };
    image.len() > LONGEST || past
}

fn is_bad(list: &[u16]) -> bool {
    list.len() > 16 || (1..list.len()).any(|i| list[..i].contains(&list[i]))
}

/// Old boards read bit 6 and unit 5 of type 1, and unit 5 of type 2, otherwise.
fn is_read_otherwise(kind: u8, first: u8) -> bool {
    (kind == 1 && (first & 0x40 != 0 || first & 7 == 5)) || (kind == 2 && first == 5)
}

/// The record of the block at an address, or the number of the refusal.
pub fn read(image: &[u8], address: usize, list: &[u16], argument: u16, fault: Fault) -> Result<Vec<u8>, u8> {
    if is_outside(image, address, fault) {
        return Err(18);
    }
    let kind = *image.get(address).unwrap_or(&0xFF);
    let length = block_length(kind).ok_or(4)?;
    let block = image.get(address..address + length).ok_or(18)?;
    let mut record = block.to_vec();
    if is_bad(list) && (kind == 5 || fault != Fault::ListForFiveOnly) {
        return Err(19);
    }
    if kind == 5 {
        let task = u16::from_be_bytes([block[2], block[3]]);
        let place = list.iter().position(|known| *known == task).ok_or(19)?;
        let from = if fault == Fault::PlacesFromZero { 0 } else { 1 };
        record = vec![5, block[1], place as u8 + from];
        record.extend(argument.to_be_bytes());
    } else if kind != 0 && is_read_otherwise(kind, block[1]) {
        return Err(21);
    }
    Ok(record)
}

/// The image with the record's block at an address, or the number of the refusal.
pub fn write(
    image: &[u8],
    address: usize,
    list: &[u16],
    record: &[u8],
    work: u16,
    fault: Fault,
) -> Result<Vec<u8>, u8> {
    if is_outside(image, address, fault) {
        return Err(18);
    }
    let kind = *record.first().ok_or(4)?;
    let length = block_length(kind).ok_or(4)?;
    if record.len() != record_length(kind) {
        return Err(3);
    }
    if address + length > image.len() {
        return Err(18);
    }
    if is_bad(list) && (kind == 5 || fault != Fault::ListForFiveOnly) {
        return Err(19);
    }
    let mut block = record.to_vec();
    if kind == 5 {
        let from = if fault == Fault::PlacesFromZero { 0 } else { 1 };
        let place = usize::from(record[2]).checked_sub(from).ok_or(19)?;
        let task = list.get(place).ok_or(19)?;
        block = vec![5, record[1]];
        block.extend(task.to_be_bytes());
        block.extend(work.to_be_bytes());
    } else if kind != 0 && is_read_otherwise(kind, record[1]) {
        return Err(21);
    }
    let mut after = image.to_vec();
    after[address..address + length].copy_from_slice(&block);
    Ok(after)
}
