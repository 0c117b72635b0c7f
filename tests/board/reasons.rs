//! Why a task is not running, by the board library and by the model: the answer's bytes (docs/EMBEDDING.md), and the
//! question put for every number.

use crate::library::Library;
use crate::met::Met;
use crate::wrong::Wrong;
use model::image::decode;
use model::why::{why, Reason, Why};

/// The bytes of an answer, and of a step on its path.
pub const REASONS: usize = 196;
const STEP: usize = 12;
/// The board's own number: the buffer is shorter than the answer.
const NO_ROOM: u8 = 30;
/// What stands in the buffer before a question.
pub const UNASKED: [u8; REASONS + 4] = [0x5A; REASONS + 4];

/// The numbers of tasks that are asked for: all that are, and some that are none.
const NUMBERS: [u8; 19] = [0, 1, 2, 3, 4, 5, 6, 7, 8, 9, 10, 11, 12, 13, 14, 15, 16, 17, 255];

/// One step: its cause, the task that is waited on, the byte that its cause needs, and its time or flags.
fn step_of(reason: Reason) -> (u8, u8, u8, u64) {
    match reason {
        Reason::Dormant => (0, 0, 0, 0),
        Reason::Active => (1, 0, 0, 0),
        Reason::Ready(ahead) => (2, 0, ahead, 0),
        Reason::Paused(time) => (3, 0, 0, time),
        Reason::Due(time) => (4, 0, 0, time),
        Reason::AnyOf(missing) => (5, 0, 0, missing.into()),
        Reason::AllOf(missing) => (5, 0, 1, missing.into()),
        Reason::Start(place, task) => (6, task, place, 0),
        Reason::EndOfRequest(place, task) => (7, task, place, 0),
        Reason::EndOfRun(task) => (8, task, 0, 0),
        Reason::Subprogram(number, holder) => (9, holder, number, 0),
        Reason::Message(sender) => (10, 0, sender, 0),
    }
}

fn bytes_of(why: &Why) -> [u8; REASONS] {
    let mut bytes = [0; REASONS];
    bytes[..3].copy_from_slice(&[why.number, why.path.len() as u8, why.ring as u8]);
    for ((task, reason), step) in why.path.iter().zip(bytes[4..].chunks_mut(STEP)) {
        let (cause, on, detail, long) = step_of(*reason);
        step[..4].copy_from_slice(&[*task, cause, on, detail]);
        step[4..].copy_from_slice(&u64::to_be_bytes(long));
    }
    bytes
}

/// The question for every number, of an image of whatever content and length.
pub fn asked_for_all(library: &mut Library, met: &mut Met, wrong: Wrong, image: &[u8]) -> Result<(), String> {
    NUMBERS.iter().try_for_each(|task| asked(library, met, wrong, image, *task, &UNASKED))
}

/// The question for one, into a buffer of any length.
pub fn asked(
    library: &mut Library,
    met: &mut Met,
    wrong: Wrong,
    image: &[u8],
    task: u8,
    out: &[u8],
) -> Result<(), String> {
    let told = match (decode(image), wrong) {
        (None, _) => Why { number: 1, ..Why::default() },
        (Some(table), Wrong::Why(fault)) => fault.why(&table, task),
        (Some(table), _) => why(&table, task),
    };
    let mut expected = (u32::from(NO_ROOM), out.to_vec());
    if out.len() >= REASONS {
        expected.0 = told.number.into();
        expected.1[..REASONS].copy_from_slice(&bytes_of(&told));
        met.told(&told);
    } else {
        met.told(&Why { number: NO_ROOM, ..Why::default() });
    }
    let given = library.why(image, task, out);
    if given == expected {
        return Ok(());
    }
    let hex = |bytes: &[u8]| -> String { bytes.iter().map(|byte| format!("{byte:02X}")).collect() };
    Err(format!(
        "why of task {task} differs\nimage   {}\nlibrary {} {}\nmodel   {} {}",
        hex(image),
        given.0,
        hex(&given.1),
        expected.0,
        hex(&expected.1)
    ))
}
