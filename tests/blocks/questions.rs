//! Seeded questions: images of every length that matters, addresses around their ends, all types, lists good and bad.

use model::blocks::block_length;
use model::runs::Rng;

/// A question, and the room for the record that a read gives.
pub struct Question {
    pub way: u8,
    pub address: u32,
    pub beside: u16,
    pub list: Vec<u16>,
    pub record: Vec<u8>,
    pub image: Vec<u8>,
    pub room: usize,
    /// How many bytes the head is cut by, or grows by.
    pub cut: i32,
}

const LENGTHS: [usize; 8] = [0, 1, 5, 6, 7, 65_535, 65_536, 65_537];

impl Question {
    /// The question of a number.
    pub fn new(seed: u64, index: u64) -> Question {
        let mut rng = Rng::new(seed, index);
        let length = if rng.one_in(4) { rng.below(40) } else { rng.pick(&LENGTHS) };
        let image = filled(&mut rng, length);
        let kind = kind_of(&mut rng, index);
        let size = block_length(kind).unwrap_or(1);
        let address = address_of(&mut rng, length, size);
        let mut asked = Question {
            way: if rng.one_in(100) { rng.byte() } else { (index % 2) as u8 },
            address,
            beside: rng.below(65_536) as u16,
            list: list_of(&mut rng),
            record: Vec::new(),
            image,
            room: if rng.one_in(50) { rng.below(6) } else { 6 },
            cut: if rng.one_in(100) { rng.below(7) as i32 - 3 } else { 0 },
        };
        asked.lay(&mut rng, kind, index);
        asked
    }

    /// A block of this type at the address, where it goes in, and a record of it.
    fn lay(&mut self, rng: &mut Rng, kind: u8, index: u64) {
        let first = (index / 7) as u8;
        let listed = if self.list.is_empty() { 0 } else { rng.pick(&self.list) };
        let task = if rng.one_in(8) { rng.below(65_536) as u16 } else { listed };
        let mut block = vec![kind, first, rng.byte()];
        if kind == 5 {
            block.truncate(2);
            block.extend(task.to_be_bytes());
            block.extend([rng.byte(), rng.byte()]);
        }
        let address = self.address as usize;
        for (place, byte) in block.iter().enumerate() {
            if let Some(there) = self.image.get_mut(address.saturating_add(place)) {
                *there = *byte;
            }
        }
        self.record = match kind {
            0 => vec![0],
            5 => vec![5, first, rng.below(19) as u8, rng.byte(), rng.byte()],
            _ => vec![kind, first, rng.byte()],
        };
        match rng.below(40) {
            0 => self.record.clear(),
            1 => self.record.push(0),
            2 => drop(self.record.pop()),
            _ => {}
        }
    }

    /// The head's bytes.
    pub fn head(&self) -> Vec<u8> {
        let mut head = vec![self.way];
        head.extend(self.address.to_be_bytes());
        head.extend(self.beside.to_be_bytes());
        head.push(self.list.len() as u8);
        head.extend(self.list.iter().flat_map(|address| address.to_be_bytes()));
        head.push(self.record.len() as u8);
        head.extend(&self.record);
        for _ in self.cut..0 {
            head.pop();
        }
        head.extend((0..self.cut).map(|_| 0x55));
        head
    }
}

fn filled(rng: &mut Rng, length: usize) -> Vec<u8> {
    let mut image = vec![rng.byte(); length];
    for _ in 0..length.min(64) {
        let place = rng.below(length);
        image[place] = rng.byte();
    }
    image
}

/// One of the four types, or each of the 256 in turn.
fn kind_of(rng: &mut Rng, index: u64) -> u8 {
    match rng.below(8) {
        0 => (index / 2) as u8,
        1 => 0,
        2 | 3 => 1,
        4 => 2,
        _ => 5,
    }
}

/// An address so that the block ends at the very end, or near it, or anywhere, or far past it.
fn address_of(rng: &mut Rng, length: usize, size: usize) -> u32 {
    let near = (length + rng.below(4)).saturating_sub(size + rng.below(4));
    match rng.below(10) {
        0..=3 => length.saturating_sub(size) as u32,
        4..=6 => near as u32,
        7 => length as u32,
        8 => u32::MAX - rng.below(3) as u32,
        _ => rng.below(length + 1) as u32,
    }
}

/// A list of 0 to 17 addresses, now and then with a repeat.
fn list_of(rng: &mut Rng) -> Vec<u16> {
    let length = rng.below(18);
    let begin = rng.below(65_536) as u16;
    let mut list: Vec<u16> = (0..length).map(|place| begin.wrapping_add(place as u16 * 0x0301)).collect();
    if length > 1 && rng.one_in(4) {
        let (from, to) = (rng.below(length), rng.below(length));
        list[to] = list[from];
    }
    list
}
