//! The proved mend program against the second program: a process a table, the image and the words of its list.

use crate::spoilt::Walk;
use model::mend::{mend_image, told};
use std::io::{Read, Write};
use std::process::{Command, Stdio};

/// So many tables of a seed: whether the program gives each one's image and list; else why it cannot be run.
pub fn held(program: &str, tables: u64, seed: u64) -> Result<bool, String> {
    let (mut run, mut all) = (0, 0);
    while all < tables {
        for (place, given) in Walk::new(seed, run).enumerate() {
            let mended = mend_image(&given.image);
            let list = told(&given.image, &mended);
            let image = if mended.number == 0 { mended.image } else { Vec::new() };
            let (out, said) = output(program, &given.image).map_err(|why| format!("{program}: {why}"))?;
            if out != image || said != list.as_bytes() {
                let said = String::from_utf8_lossy(&said);
                println!("table {place} of run {run} of seed {seed}: the program says\n{said}and the model\n{list}");
                println!("the images are {}", if out == image { "the same" } else { "not the same" });
                return Ok(false);
            }
            all += 1;
        }
        run += 1;
    }
    println!("{all} tables of {run} runs of seed {seed}: image and words agree");
    Ok(true)
}

/// What the program writes of an image, and what it says. It reads all of its input before it writes.
fn output(program: &str, image: &[u8]) -> std::io::Result<(Vec<u8>, Vec<u8>)> {
    let mut command = Command::new(program);
    command.stdin(Stdio::piped()).stdout(Stdio::piped()).stderr(Stdio::piped());
    let mut child = command.spawn()?;
    child.stdin.take().expect("standard input is a pipe").write_all(image)?;
    let (mut out, mut said) = (Vec::new(), Vec::new());
    child.stdout.take().expect("standard output is a pipe").read_to_end(&mut out)?;
    child.stderr.take().expect("standard error is a pipe").read_to_end(&mut said)?;
    child.wait()?;
    Ok((out, said))
}
