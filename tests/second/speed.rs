//! The speed of a bench program against this program, as processes on the same long inputs. What
//! is timed is processor time, so that other work on the machine counts little.

use crate::compare::Program;
use model::configuration::fresh_from_start;
use model::mixes::{median, mixes};
use model::records::records_of;

/// Processes timed together as one sample.
const TOGETHER: u32 = 10;

/// Prints times, steps per second and ratios for each mix; false where outputs differ.
pub fn speed(path: &str, rounds: usize) -> bool {
    let programs =
        [Program::new(path, &[]), Program::itself(&["listing"]), Program::itself(&["listing", "--no-check"])];
    let nothing = sample_all(&programs, &[], rounds);
    let idle: Vec<f64> = nothing.iter().map(|times| median(times.clone())).collect();
    println!("start-up and end (empty input), taken off the times below:");
    println!("  proved {:.2} ms, second {:.2} ms", idle[0] * 1e3, idle[1] * 1e3);
    for (name, input) in mixes() {
        let outputs: Vec<_> = programs.iter().map(|program| program.output(&input)).collect();
        if outputs[0].is_err() || outputs.iter().any(|output| *output != outputs[0]) {
            println!("{name}: the outputs differ");
            return false;
        }
        let mut times = sample_all(&programs, &input, rounds);
        for (times, idle) in times.iter_mut().zip(&idle) {
            times.iter_mut().for_each(|time| *time = (*time - idle).max(1e-9));
        }
        print_mix(name, steps_of(&input), &times);
    }
    println!("ratio: proved by second, the median of {rounds} interleaved rounds (least to most)");
    true
}

/// As the C library of Linux has it: times in seconds and microseconds, then counts.
#[repr(C)]
#[derive(Default)]
struct Usage {
    user: [i64; 2],
    system: [i64; 2],
    counts: [i64; 14],
}

extern "C" {
    fn getrusage(who: i32, usage: *mut Usage) -> i32;
}

/// The processor seconds of all processes that were started here and have ended.
fn spent() -> f64 {
    const CHILDREN: i32 = -1;
    let mut usage = Usage::default();
    // SAFETY: the structure is the C library's, and it is ours to be written.
    unsafe { getrusage(CHILDREN, &mut usage) };
    let seconds = |time: [i64; 2]| time[0] as f64 + time[1] as f64 * 1e-6;
    seconds(usage.user) + seconds(usage.system)
}

/// The seconds of each round for each program, the programs taking turns.
fn sample_all(programs: &[Program], input: &[u8], rounds: usize) -> Vec<Vec<f64>> {
    let mut times = vec![Vec::new(); programs.len()];
    for _ in 0..rounds {
        for (program, times) in programs.iter().zip(&mut times) {
            let begun = spent();
            for _ in 0..TOGETHER {
                drop(program.output(input));
            }
            times.push((spent() - begun) / f64::from(TOGETHER));
        }
    }
    times
}

fn print_mix(name: &str, steps: usize, times: &[Vec<f64>]) {
    let per_second = |times: &Vec<f64>| steps as f64 / median(times.clone());
    println!("{name}: {steps} steps");
    for (who, times) in ["proved", "second", "second, no check"].iter().zip(times) {
        let milliseconds = median(times.clone()) * 1e3;
        println!("  {who:<17} {milliseconds:>8.2} ms {:>12.0} steps/s", per_second(times));
    }
    for (what, other) in [("ratio", &times[1]), ("ratio, no check", &times[2])] {
        let mut ratios: Vec<f64> = times[0].iter().zip(other).map(|(a, b)| a / b).collect();
        ratios.sort_by(f64::total_cmp);
        let (least, most) = (ratios[0], ratios[ratios.len() - 1]);
        println!("  {what:<17} {:>8.2} ({least:.2} to {most:.2})", median(ratios));
    }
}

fn steps_of(input: &[u8]) -> usize {
    let used = fresh_from_start(input).map_or(0, |(_, used)| used);
    records_of(&input[used..]).len()
}
