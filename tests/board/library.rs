//! The board library's functions, on buffers with guard bytes around those that are written to. They are linked; where
//! BOARD_CALLS names a program, they are called through it.

use crate::guarded::Guarded;
use crate::linked;
use crate::piped::Program;

/// The library: linked, or through a program.
pub struct Library(Option<Program>);

impl Library {
    /// As BOARD_CALLS has it; else what is wrong with its program.
    pub fn open() -> Result<Library, String> {
        let program = std::env::var_os("BOARD_CALLS").map(Program::start);
        Ok(Library(program.transpose()?))
    }

    /// A fresh table's number, and the image's bytes after it.
    pub fn fresh(&mut self, config: &[u8], image: &[u8]) -> (u32, Vec<u8>) {
        let mut image = Guarded::new(image);
        let number = match &mut self.0 {
            Some(program) => program.call(b'f', image.inside(), config, &mut []),
            None => linked::fresh(config, image.inside()),
        };
        (number, image.open())
    }

    /// The number of an image's check.
    pub fn check(&mut self, image: &[u8]) -> u32 {
        match &mut self.0 {
            Some(program) => program.look(b'c', image),
            None => linked::check(image),
        }
    }

    /// What the lamp shows of an image.
    pub fn lamp(&mut self, image: &[u8]) -> u32 {
        match &mut self.0 {
            Some(program) => program.look(b'l', image),
            None => linked::lamp(image),
        }
    }

    /// The number of a question why a task is not running, and the bytes of its answer after it.
    pub fn why(&mut self, image: &[u8], task: u8, out: &[u8]) -> (u32, Vec<u8>) {
        let mut kept = Guarded::new(image);
        let mut out = Guarded::new(out);
        let number = match &mut self.0 {
            Some(program) => program.call(b'w', kept.inside(), &[task], out.inside()),
            None => linked::why(kept.inside(), task, out.inside()),
        };
        assert!(kept.open() == image, "the question wrote to the image");
        (number, out.open())
    }

    /// A step's number, and the bytes of image and answer after it.
    pub fn step(&mut self, image: &[u8], record: &[u8], answer: &[u8]) -> (u32, Vec<u8>, Vec<u8>) {
        let mut image = Guarded::new(image);
        let mut answer = Guarded::new(answer);
        let number = self.step_in_place(image.inside(), record, answer.inside());
        (number, image.open(), answer.open())
    }

    /// A step's number; image and answer are left as it left them.
    pub fn step_in_place(&mut self, image: &mut [u8], record: &[u8], answer: &mut [u8]) -> u32 {
        match &mut self.0 {
            Some(program) => program.call(b's', image, record, answer),
            None => linked::step(image, record, answer),
        }
    }

    /// The instructions of the last call; 0 where nothing counts them.
    pub fn spent(&self) -> u32 {
        self.0.as_ref().map_or(0, Program::spent)
    }
}
