//! The time of one step of each engine through its library, on the same mixes in one run.

use crate::answer::ANSWER;
use crate::engines::{Engine, Place, QUEUE, SCAN};
use model::configuration::fresh_from_start;
use model::image;
use model::mixes::{median, mixes};
use model::records::records_of;
use model::scan::Scanned;
use std::time::Instant;

/// Prints both engines' times and their ratio for the three mixes.
pub fn speed(place: &mut Place, rounds: usize) -> bool {
    println!("one step of each engine: load, check, step, store");
    for (name, input) in mixes() {
        let (table, used) = fresh_from_start(&input).expect("a mix has a configuration");
        let records = records_of(&input[used..]);
        let first = [image::encode(&table), Scanned::of(&table).encode()];
        let mut times = [Vec::new(), Vec::new()];
        for _ in 0..rounds {
            for ((engine, image), times) in [QUEUE, SCAN].iter().zip(&first).zip(&mut times) {
                times.push(seconds(place, engine, image, &records) / records.len() as f64);
            }
        }
        let mut ratios: Vec<f64> = times[1].iter().zip(&times[0]).map(|(scan, queue)| scan / queue).collect();
        ratios.sort_by(f64::total_cmp);
        let (least, most) = (ratios[0], ratios[ratios.len() - 1]);
        let [queue, scan] = times.map(|own| median(own) * 1e6);
        println!("{name}: {} steps", records.len());
        println!("  by a queue {queue:>8.3} microseconds a step, by a scan {scan:>8.3}");
        println!("  ratio {:.2} ({least:.2} to {most:.2})", median(ratios));
    }
    println!("medians of {rounds} interleaved rounds (least to most)");
    true
}

/// The time of all steps, from an image on.
fn seconds(place: &mut Place, engine: &Engine, image: &[u8], records: &[&[u8]]) -> f64 {
    let mut image = image.to_vec();
    let mut answer = [0; ANSWER];
    let begun = Instant::now();
    for record in records {
        place.step_in_place(engine, &mut image, record, &mut answer);
    }
    begun.elapsed().as_secs_f64()
}
