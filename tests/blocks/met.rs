//! What a trial met: each number in each way, each type at the very end, all types, all parameters, all lengths.

use crate::questions::Question;
use model::blocks::block_length;
use std::collections::BTreeSet;

#[derive(Default)]
pub struct Met {
    numbers: BTreeSet<(u8, u8)>,
    at_end: BTreeSet<(u8, u8)>,
    types: BTreeSet<u8>,
    parameters: BTreeSet<(u8, u8)>,
    images: BTreeSet<usize>,
    lists: BTreeSet<(usize, bool)>,
}

impl Met {
    pub fn add(&mut self, asked: &Question, number: u8) {
        self.numbers.insert((asked.way.min(2), number));
        self.images.insert(asked.image.len());
        let repeats = (1..asked.list.len()).any(|i| asked.list[..i].contains(&asked.list[i]));
        self.lists.insert((asked.list.len(), repeats));
        let address = asked.address as usize;
        let kind = if asked.way == 0 { asked.image.get(address) } else { asked.record.first() };
        let kind = match kind {
            Some(kind) if asked.way < 2 => *kind,
            _ => return,
        };
        self.types.insert(kind);
        if number == 0 && address + block_length(kind).unwrap_or(0) == asked.image.len() {
            self.at_end.insert((asked.way, kind));
        }
        if kind == 1 && (number == 0 || number == 21) {
            let place = if asked.way == 0 { asked.image[address + 1] } else { asked.record[1] };
            self.parameters.insert((asked.way, place));
        }
    }

    /// Says what was met; true if all that can be was.
    pub fn print(&self) -> bool {
        let reads = [0, 3, 4, 18, 19, 20, 21].iter().all(|n| self.numbers.contains(&(0, *n)));
        let writes = [0, 3, 4, 18, 19, 21].iter().all(|n| self.numbers.contains(&(1, *n)));
        let no_way = self.numbers.contains(&(2, 3));
        let ends = self.at_end.len() == 8;
        let images = [0, 1, 5, 6, 7, 65_535, 65_536, 65_537].iter().all(|n| self.images.contains(n));
        let lists =
            (0..=17).all(|n| self.lists.contains(&(n, false))) && (2..=17).all(|n| self.lists.contains(&(n, true)));
        let all = [
            ("each number of a read", reads),
            ("each number of a write", writes),
            ("a question that is neither", no_way),
            ("each type at the very end of an image, both ways", ends),
            ("all 256 types", self.types.len() == 256),
            ("all parameters of type 1, both ways", self.parameters.len() == 512),
            ("each length of an image", images),
            ("each length of a list, with and without a repeat", lists),
        ];
        for (what, met) in all {
            println!("{what}: {}", if met { "met" } else { "NEVER MET" });
        }
        all.iter().all(|(_, met)| *met)
    }
}
