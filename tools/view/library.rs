//! The board library's functions, called through a program over a pipe (tests/board/calls.c).

use crate::places::{ANSWER, LENGTH};
use std::io::{Read, Write};
use std::process::{Child, ChildStdin, ChildStdout, Command, Stdio};

/// The program at work.
pub struct Library {
    _program: Child,
    into: ChildStdin,
    from: ChildStdout,
}

impl Library {
    /// The program that BOARD_CALLS names; else says why it cannot be started.
    pub fn open() -> Result<Library, String> {
        let path = std::env::var_os("BOARD_CALLS").ok_or("BOARD_CALLS names no program.")?;
        let mut command = Command::new(&path);
        let started = command.stdin(Stdio::piped()).stdout(Stdio::piped()).spawn();
        let mut program = started.map_err(|why| format!("'{}' cannot be started: {why}.", path.to_string_lossy()))?;
        let into = program.stdin.take().ok_or("it has no standard input.")?;
        let from = program.stdout.take().ok_or("it has no standard output.")?;
        Ok(Library { _program: program, into, from })
    }

    /// One call: the number that it returns; image and answer are left as it left them.
    fn call(&mut self, letter: u8, image: &mut [u8], given: &[u8], answer: &mut [u8]) -> Result<u32, String> {
        let mut said = vec![letter];
        for part in [&*image, given, &*answer] {
            said.extend((part.len() as u32).to_be_bytes());
        }
        for part in [&*image, given, &*answer] {
            said.extend(part);
        }
        let (mut number, mut spent) = ([0; 4], [0; 4]);
        let talk = || {
            self.into.write_all(&said)?;
            self.into.flush()?;
            for part in [&mut number, &mut spent, image, answer] {
                self.from.read_exact(part)?;
            }
            Ok(u32::from_be_bytes(number))
        };
        talk().map_err(|why: std::io::Error| format!("the library's program ended early: {why}."))
    }

    /// The image of a configuration's fresh table, or its number.
    pub fn fresh(&mut self, configuration: &[u8]) -> Result<Result<Vec<u8>, u32>, String> {
        let mut image = vec![0; LENGTH];
        let number = self.call(b'f', &mut image, configuration, &mut [])?;
        Ok(if number == 0 { Ok(image) } else { Err(number) })
    }

    /// The answer of a step; the image is left as it left it.
    pub fn step(&mut self, image: &mut [u8], record: &[u8]) -> Result<[u8; ANSWER], String> {
        let mut answer = [0; ANSWER];
        self.call(b's', image, record, &mut answer)?;
        Ok(answer)
    }
}
