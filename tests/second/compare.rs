//! The comparison: a bench program as a process against this program's own listing, run by run.

use crate::coverage::Coverage;
use model::bench::listing;
use model::cards::{PAPER_INPUT, PAPER_OUTPUT};
use model::configuration::fresh_from_start;
use model::faults::FAULTS;
use model::records::cut;
use model::runs::run;
use model::steps::step;
use std::io::Write;
use std::process::{Command, Stdio};
use std::sync::atomic::{AtomicBool, AtomicU64, Ordering};
use std::time::{Duration, Instant};

/// A program that reads standard input and writes standard output, with its words.
pub struct Program {
    pub path: String,
    pub words: Vec<String>,
}

impl Program {
    pub fn new(path: &str, words: &[&str]) -> Program {
        Program { path: path.to_string(), words: words.iter().map(|w| w.to_string()).collect() }
    }

    /// This program with other words.
    pub fn itself(words: &[&str]) -> Program {
        let path = std::env::current_exe().expect("this program has a path");
        Program::new(&path.to_string_lossy(), words)
    }

    /// What it writes for an input; where it cannot be started or is killed, that in words.
    pub fn output(&self, input: &[u8]) -> Result<Vec<u8>, String> {
        let mut child = Command::new(&self.path)
            .args(&self.words)
            .stdin(Stdio::piped())
            .stdout(Stdio::piped())
            .spawn()
            .map_err(|error| format!("{} cannot be started: {error}", self.path))?;
        let mut pipe = child.stdin.take().expect("standard input is a pipe");
        // A program may stop reading early; what it then writes is judged all the same.
        let mut feed = move || drop(pipe.write_all(input));
        let ended = if input.len() <= 4096 {
            feed();
            drop(feed);
            child.wait_with_output()
        } else {
            std::thread::scope(|scope| {
                scope.spawn(feed);
                child.wait_with_output()
            })
        };
        let ended = ended.map_err(|error| error.to_string())?;
        match ended.status.code() {
            Some(_) => Ok(ended.stdout),
            None => Err(format!("{} was ended by a signal", self.path)),
        }
    }

    /// Whether it says the same of an input as this program.
    fn agrees(&self, input: &[u8]) -> bool {
        self.output(input) == Ok(listing(input, step))
    }
}

/// The comparison: whether everything reachable was met; `None` where something differs.
pub fn compare(path: &str, runs: u64, seed: u64) -> Option<bool> {
    let begun = Instant::now();
    let program = Program::new(path, &[]);
    if !paper_agrees(&program) {
        return None;
    }
    println!("01's listing: agrees");
    let (coverage, differing) = compare_runs(&program, runs, seed);
    if let Some(index) = differing {
        println!("run {index} of seed {seed} differs");
        report(&program, &shortest(&program, run(seed, index)));
        return None;
    }
    let complete = coverage.print();
    println!("{runs} runs of seed {seed} agree, {:.1} s", begun.elapsed().as_secs_f64());
    Some(complete)
}

/// Document 01's input gives document 01's output, from this program and from the other.
fn paper_agrees(program: &Program) -> bool {
    if listing(&PAPER_INPUT, step) != PAPER_OUTPUT {
        println!("01's listing: the second program itself differs");
        return false;
    }
    match program.output(&PAPER_INPUT) {
        Ok(output) if output == PAPER_OUTPUT => true,
        Ok(output) => {
            println!("01's listing differs:\n{}", String::from_utf8_lossy(&output));
            false
        }
        Err(why) => {
            println!("{why}");
            false
        }
    }
}

/// Compares on two threads; what was met, and the first run found to differ.
fn compare_runs(program: &Program, runs: u64, seed: u64) -> (Coverage, Option<u64>) {
    let next = AtomicU64::new(0);
    let stop = AtomicBool::new(false);
    let work = || {
        let mut met = Coverage::default();
        while !stop.load(Ordering::Relaxed) {
            let index = next.fetch_add(1, Ordering::Relaxed);
            if index >= runs {
                break;
            }
            let input = run(seed, index);
            met.watch(&input);
            if !program.agrees(&input) {
                stop.store(true, Ordering::Relaxed);
                return (met, Some(index));
            }
        }
        (met, None)
    };
    std::thread::scope(|scope| {
        let other = scope.spawn(work);
        let (mut met, mine) = work();
        let (more, theirs) = other.join().expect("the thread ends");
        met.add(&more);
        (met, mine.into_iter().chain(theirs).min())
    })
}

/// The run cut into its records, and what cannot be cut as one last piece.
fn pieces(input: &[u8]) -> Vec<Vec<u8>> {
    let mut list = Vec::new();
    let mut rest = input;
    if let Some((_, used)) = fresh_from_start(input) {
        list.push(input[..2].to_vec());
        list.extend(input[2..used - 1].chunks(3).map(<[u8]>::to_vec));
        list.push(vec![0x42]);
        rest = &input[used..];
        while let Ok((record, more)) = cut(rest) {
            list.push(record.to_vec());
            rest = more;
        }
    }
    if !rest.is_empty() {
        list.push(rest.to_vec());
    }
    list
}

/// How long a run that differs is made shorter.
const PATIENCE: Duration = Duration::from_secs(30);

/// Drops pieces, many at first and then one by one, as long as the rest still differs.
fn shortest(program: &Program, input: Vec<u8>) -> Vec<u8> {
    let mut kept = pieces(&input);
    let mut size = ((kept.len() + 1) / 2).max(1);
    let begun = Instant::now();
    while begun.elapsed() < PATIENCE {
        let before = kept.len();
        let mut end = kept.len();
        while end > 0 && begun.elapsed() < PATIENCE {
            let from = end.saturating_sub(size);
            let less = [&kept[..from], &kept[end..]].concat();
            if !program.agrees(&less.concat()) {
                kept = less;
            }
            end = from;
        }
        if size == 1 && kept.len() == before {
            break;
        }
        size = (size / 2).max(1);
    }
    kept.concat()
}

fn report(program: &Program, input: &[u8]) {
    println!("the shortest run found that shows it, {} bytes:\n{}", input.len(), hex(input));
    let ours = listing(input, step);
    println!("expected:\n{}", String::from_utf8_lossy(&ours));
    match program.output(input) {
        Ok(output) => println!("given:\n{}", String::from_utf8_lossy(&output)),
        Err(why) => println!("given: {why}"),
    }
}

pub fn hex(bytes: &[u8]) -> String {
    bytes.iter().map(|byte| format!("{byte:02X}")).collect::<Vec<_>>().join(" ")
}

/// Shows that the comparison can fail: each fault, of the last board or of its kind, must be found.
pub fn trial() -> bool {
    const RUNS: u64 = 2_000;
    let mut right = true;
    for (name, _) in FAULTS {
        let faulty = Program::itself(&["listing", "--fault", name]);
        match compare_runs(&faulty, RUNS, 1).1 {
            Some(index) => {
                let input = shortest(&faulty, run(1, index));
                println!("{name}: found by run {index}, in short {}", hex(&input));
            }
            None => {
                println!("{name}: NOT FOUND in {RUNS} runs");
                right = false;
            }
        }
    }
    let sound = compare_runs(&Program::itself(&["listing", "--no-check"]), RUNS / 10, 1).1.is_none();
    println!("no fault: {}", if sound { "no difference" } else { "DIFFERS" });
    right && sound
}
