//! The blocks library against the second program's own blocks, question by question, every byte of the image compared.

mod met;
mod questions;

use met::Met;
use model::blocks::{self, fault_of, Fault};
use model::ending::ending;
use questions::Question;
use std::process::ExitCode;

const USAGE: &str = "usage: blocks-trial [--questions N] [--seed S] [--fault NAME]";

#[link(name = "blocks", kind = "static")]
extern "C" {
    fn quermanic_block(
        head: *const u8,
        head_length: u64,
        image: *mut u8,
        image_length: u64,
        room: *mut u8,
        room_length: u64,
    ) -> u8;
}

/// The library's answer: its number; image and room are left as it left them.
fn asked_of_library(head: &[u8], image: &mut [u8], room: &mut [u8]) -> u8 {
    let (h, i, r) = (head.len() as u64, image.len() as u64, room.len() as u64);
    unsafe { quermanic_block(head.as_ptr(), h, image.as_mut_ptr(), i, room.as_mut_ptr(), r) }
}

/// The model's answer: the number, the image and the room.
fn asked_of_model(asked: &Question, room: &[u8], fault: Fault) -> (u8, Vec<u8>, Vec<u8>) {
    let (image, mut after, mut told) = (&asked.image, asked.image.clone(), room.to_vec());
    let address = asked.address as usize;
    let number = match asked.way {
        _ if asked.cut != 0 => 3,
        0 => match blocks::read(image, address, &asked.list, asked.beside, fault) {
            Ok(record) if record.len() > told.len() => 20,
            Ok(record) => {
                told[..record.len()].copy_from_slice(&record);
                0
            }
            Err(number) => number,
        },
        1 => match blocks::write(image, address, &asked.list, &asked.record, asked.beside, fault) {
            Ok(written) => {
                after = written;
                0
            }
            Err(number) => number,
        },
        _ => 3,
    };
    (number, after, told)
}

/// Whether the two agree on the question of this number; what was met is added.
fn agrees(seed: u64, index: u64, fault: Fault, met: &mut Met) -> bool {
    let asked = Question::new(seed, index);
    let room = vec![0xEE; asked.room];
    let (number, image, told) = asked_of_model(&asked, &room, fault);
    let (mut their_image, mut their_room) = (asked.image.clone(), room);
    let theirs = asked_of_library(&asked.head(), &mut their_image, &mut their_room);
    met.add(&asked, number);
    let same = theirs == number && their_image == image && their_room == told;
    if !same {
        println!("question {index} of seed {seed}: the library answers {theirs}, the model {number}");
        println!("head {:02X?}, image of {} bytes, room {told:02X?} and {their_room:02X?}", asked.head(), image.len());
    }
    same
}

/// `--questions N`, `--seed S` and `--fault NAME`, in any order.
fn options_of(mut words: &[&str]) -> Option<(u64, u64, Fault)> {
    let (mut questions, mut seed, mut fault) = (200_000, 1, Fault::None);
    while let [name, value, rest @ ..] = words {
        match *name {
            "--questions" => questions = value.parse().ok()?,
            "--seed" => seed = value.parse().ok()?,
            "--fault" => fault = fault_of(value)?,
            _ => return None,
        }
        words = rest;
    }
    words.is_empty().then_some((questions, seed, fault))
}

fn main() -> ExitCode {
    let words: Vec<String> = std::env::args().skip(1).collect();
    let words: Vec<&str> = words.iter().map(String::as_str).collect();
    let right = options_of(&words).map(|(questions, seed, fault)| {
        let mut met = Met::default();
        let alike = (0..questions).all(|index| agrees(seed, index, fault, &mut met));
        if alike {
            println!("{questions} questions of seed {seed} agree");
        }
        alike && met.print()
    });
    ending(right, USAGE)
}
