//! What is made wrong in the model of the second engine, or in what the first one gives, to show that it is found.

use model::scan::{Fault, FAULTS};

#[derive(Clone, Copy, PartialEq, Eq)]
pub enum Wrong {
    Nothing,
    Rule(Fault),
    Check,
    Fresh,
    /// The first engine's answer.
    Queue,
}

/// Those that are no rule of the model, by name.
const WRONGS: [(&str, Wrong); 3] = [("check", Wrong::Check), ("fresh", Wrong::Fresh), ("other-engine", Wrong::Queue)];

impl Wrong {
    /// The fault in the model's rules.
    pub fn rule(self) -> Fault {
        match self {
            Wrong::Rule(fault) => fault,
            _ => Fault::None,
        }
    }
}

/// What is made wrong, by its name.
pub fn wrong_of(name: &str) -> Option<Wrong> {
    let rules = FAULTS.iter().map(|(known, fault)| (*known, Wrong::Rule(*fault)));
    rules.chain(WRONGS).find(|(known, _)| *known == name).map(|(_, wrong)| wrong)
}
