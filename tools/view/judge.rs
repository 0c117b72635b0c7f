//! Holds the rules to the board library's own check: images with the number that the check gave each.

use crate::image::read;
use crate::places::LENGTH;
use crate::rules::{broken, RULES};

/// Judges a row of images, each with a byte behind it: the check's number. What was met, in words; or what differs.
pub fn judge(bytes: &[u8]) -> Result<String, String> {
    let mut met = [0; RULES.len()];
    let mut sound = 0;
    for (i, piece) in bytes.chunks(LENGTH + 1).enumerate() {
        let (image, number) = match piece.split_last() {
            Some((number, image)) if image.len() == LENGTH => (image, *number),
            _ => return Err("the last image is cut off.".to_string()),
        };
        let found = broken(&read(image));
        if found.is_empty() != (number == 0) {
            let first = found.first().map_or("no rule is broken", |one| one.why.as_str());
            return Err(format!("image {} has {number} from the check, but: {first}.", i + 1));
        }
        sound += u64::from(found.is_empty());
        // where one rule alone is broken, it is the one that the check met
        let first = found.first().map(|one| one.rule);
        if let Some(rule) = first.filter(|rule| found.iter().all(|one| one.rule == *rule)) {
            met[rule] += 1;
        }
    }
    let alone = |rule: usize| format!("{:>8} break alone: {}\n", met[rule], RULES[rule]);
    let text = format!("{sound:>8} are well formed\n") + &(0..RULES.len()).map(alone).collect::<String>();
    match met.iter().position(|many| *many == 0) {
        None if sound > 0 => Ok(text),
        _ => Err(format!("some rule was never met alone:\n{text}")),
    }
}
