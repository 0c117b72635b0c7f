//! A library's functions on another machine, called through a program of its own (`calls.c`), each by its letter.

use std::ffi::OsString;
use std::io::{Read, Write};
use std::process::{Child, ChildStdin, ChildStdout, Command, Stdio};

/// The program at work: what it reads, what it writes, and the instructions of its last call.
pub struct Program {
    _child: Child,
    into: ChildStdin,
    from: ChildStdout,
    spent: u32,
}

impl Program {
    /// Starts it; else says why it cannot be.
    pub fn start(path: OsString) -> Result<Program, String> {
        let mut command = Command::new(&path);
        command.stdin(Stdio::piped()).stdout(Stdio::piped());
        let mut child =
            command.spawn().map_err(|why| format!("{} cannot be started: {why}.", path.to_string_lossy()))?;
        let into = child.stdin.take().expect("standard input is a pipe");
        let from = child.stdout.take().expect("standard output is a pipe");
        Ok(Program { _child: child, into, from, spent: 0 })
    }

    /// The instructions of the last call; 0 where nothing counts them.
    pub fn spent(&self) -> u32 {
        self.spent
    }

    /// One call: the number that it returns; image and answer are left as it left them.
    pub fn call(&mut self, kind: u8, image: &mut [u8], given: &[u8], answer: &mut [u8]) -> u32 {
        let mut said = vec![kind];
        for part in [&*image, given, &*answer] {
            let length = u32::try_from(part.len()).expect("a buffer is short");
            said.extend(length.to_be_bytes());
        }
        for part in [&*image, given, &*answer] {
            said.extend(part);
        }
        let told = self.into.write_all(&said);
        told.expect("the program reads a call");
        let (mut number, mut instructions) = ([0; 4], [0; 4]);
        for part in [&mut number, &mut instructions, image, answer] {
            self.from.read_exact(part).expect("the program answers");
        }
        self.spent = u32::from_be_bytes(instructions);
        u32::from_be_bytes(number)
    }

    /// A call that only looks at the image.
    pub fn look(&mut self, kind: u8, image: &[u8]) -> u32 {
        let mut after = image.to_vec();
        let number = self.call(kind, &mut after, &[], &mut []);
        assert!(after == image, "the check or the lamp wrote to the image");
        number
    }
}
