//! The fresh table of a configuration.

use crate::steps::Change;
use crate::table::{Table, TASKS};

/// The fresh table of the configuration that `bytes` begin with, and that configuration's length.
pub fn fresh_from_start(bytes: &[u8]) -> Option<(Table, usize)> {
    let (granule, mut rest) = match bytes {
        [0x40, granule @ 1..=255, rest @ ..] => (*granule, rest),
        _ => return None,
    };
    let mut table = Table { granule, ..Table::default() };
    while let [0x41, own @ 0..=15, mark @ 0..=1, more @ ..] = rest {
        if table.count as usize == TASKS {
            return None;
        }
        table.count += 1;
        table.tasks[table.count as usize - 1].own = *own;
        if *mark == 1 {
            let number = table.count;
            Change::of(&mut table).start(number, *own, 0, 0);
        }
        rest = more;
    }
    match rest {
        [0x42, steps @ ..] if table.count > 0 => {
            table.levels = table.ready_levels();
            Some((table, bytes.len() - steps.len()))
        }
        _ => None,
    }
}

/// The fresh table of a configuration and nothing more; `None` is number 2.
pub fn fresh(bytes: &[u8]) -> Option<Table> {
    fresh_from_start(bytes).filter(|(_, used)| *used == bytes.len()).map(|(table, _)| table)
}
