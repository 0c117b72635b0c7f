//! Both engines, each by its three functions, on buffers with guard bytes around those that are written to. They are
//! linked; where BOARD_CALLS names a program, they are called through it.

use crate::guarded::Guarded;
use crate::piped::Program;

type Fresh = unsafe extern "C" fn(*const u8, u64, *mut u8, u64) -> u8;
type Check = unsafe extern "C" fn(*const u8, u64) -> u8;
type Step = unsafe extern "C" fn(*mut u8, u64, *const u8, u64, *mut u8, u64) -> u8;

#[link(name = "board", kind = "static")]
extern "C" {
    fn quermanic_fresh(config: *const u8, config_length: u64, image: *mut u8, image_length: u64) -> u8;
    fn quermanic_check(image: *const u8, image_length: u64) -> u8;
    fn quermanic_step(
        image: *mut u8,
        image_length: u64,
        record: *const u8,
        record_length: u64,
        answer: *mut u8,
        answer_length: u64,
    ) -> u8;
}

#[link(name = "scan_board", kind = "static")]
extern "C" {
    fn quermanic_scan_fresh(config: *const u8, config_length: u64, image: *mut u8, image_length: u64) -> u8;
    fn quermanic_scan_check(image: *const u8, image_length: u64) -> u8;
    fn quermanic_scan_step(
        image: *mut u8,
        image_length: u64,
        record: *const u8,
        record_length: u64,
        answer: *mut u8,
        answer_length: u64,
    ) -> u8;
}

/// One engine: its functions, and their letters for a program.
pub struct Engine {
    fresh: Fresh,
    check: Check,
    step: Step,
    letters: [u8; 3],
}

/// The one that keeps a queue, and the one that chooses by a scan.
pub const QUEUE: Engine =
    Engine { fresh: quermanic_fresh, check: quermanic_check, step: quermanic_step, letters: *b"fcs" };
pub const SCAN: Engine =
    Engine { fresh: quermanic_scan_fresh, check: quermanic_scan_check, step: quermanic_scan_step, letters: *b"FCS" };

/// Where they are: linked, or in a program.
pub struct Place(Option<Program>);

impl Place {
    /// As BOARD_CALLS has it; else what is wrong with its program.
    pub fn open() -> Result<Place, String> {
        let program = std::env::var_os("BOARD_CALLS").map(Program::start);
        Ok(Place(program.transpose()?))
    }

    /// A fresh table's number, and the image's bytes after it.
    pub fn fresh(&mut self, engine: &Engine, config: &[u8], image: &[u8]) -> (u32, Vec<u8>) {
        let mut image = Guarded::new(image);
        let to = image.inside();
        let number = match &mut self.0 {
            Some(program) => program.call(engine.letters[0], to, config, &mut []),
            None => {
                unsafe { (engine.fresh)(config.as_ptr(), config.len() as u64, to.as_mut_ptr(), to.len() as u64) }.into()
            }
        };
        (number, image.open())
    }

    /// The number of an image's check.
    pub fn check(&mut self, engine: &Engine, image: &[u8]) -> u32 {
        match &mut self.0 {
            Some(program) => program.look(engine.letters[1], image),
            None => unsafe { (engine.check)(image.as_ptr(), image.len() as u64) }.into(),
        }
    }

    /// A step's number, and the bytes of image and answer after it.
    pub fn step(&mut self, engine: &Engine, image: &[u8], record: &[u8], answer: &[u8]) -> (u32, Vec<u8>, Vec<u8>) {
        let (mut image, mut answer) = (Guarded::new(image), Guarded::new(answer));
        let number = self.step_in_place(engine, image.inside(), record, answer.inside());
        (number, image.open(), answer.open())
    }

    /// A step's number; image and answer are left as it left them.
    pub fn step_in_place(&mut self, engine: &Engine, image: &mut [u8], record: &[u8], answer: &mut [u8]) -> u32 {
        match &mut self.0 {
            Some(program) => program.call(engine.letters[2], image, record, answer),
            None => {
                let (i, r, a) = (image.len() as u64, record.len() as u64, answer.len() as u64);
                unsafe { (engine.step)(image.as_mut_ptr(), i, record.as_ptr(), r, answer.as_mut_ptr(), a) }.into()
            }
        }
    }
}
