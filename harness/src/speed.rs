//! Times the proved machine and the model side by side.

use std::hint::black_box;
use std::time::Instant;

use model::transcript::Transcript;

use crate::images::{hits, largest, misses, outputs, ORDERS};
use crate::proved;

/// How often each side is measured; the best time counts.
const ROUNDS: usize = 400;

/// How many steps a run makes.
const STEPS: u32 = 20_000;

/// Nanoseconds for one of so many equal things, on each side.
struct Times {
    proved: f64,
    model: f64,
}

/// The best times of two functions that are told how many equal things to do, and answer the same
/// number. They are called in turn, with a count and with 0; the latter time, in which memory is
/// made and cleared, is taken off.
fn best(count: u32, proved: impl Fn(u32) -> u32, model: impl Fn(u32) -> u32) -> Times {
    assert_eq!(proved(count), model(count), "the two sides answer alike");
    let mut full = Times { proved: f64::INFINITY, model: f64::INFINITY };
    let mut empty = Times { proved: f64::INFINITY, model: f64::INFINITY };
    for _ in 0..ROUNDS {
        full.proved = full.proved.min(nanoseconds(&proved, count));
        full.model = full.model.min(nanoseconds(&model, count));
        empty.proved = empty.proved.min(nanoseconds(&proved, 0));
        empty.model = empty.model.min(nanoseconds(&model, 0));
    }
    Times {
        proved: (full.proved - empty.proved) / f64::from(count),
        model: (full.model - empty.model) / f64::from(count),
    }
}

fn nanoseconds(work: &impl Fn(u32) -> u32, count: u32) -> f64 {
    let start = Instant::now();
    black_box(work(black_box(count)));
    start.elapsed().as_nanos() as f64
}

fn print(what: &str, times: &Times) {
    let ratio = times.model / times.proved;
    println!("{what:<44} {:>10.2} {:>10.2} {ratio:>8.2}", times.proved, times.model);
}

fn time_run(what: &str, image: &[u8], engine: u8) {
    let times = best(
        STEPS,
        |steps| proved::run_image(black_box(image), engine, steps),
        |steps| model::run_image(black_box(image), engine, steps),
    );
    print(what, &times);
}

fn time_open(what: &str, image: &[u8], count: u32) {
    let times = best(
        count,
        |count| proved::open_many(black_box(image), count),
        |count| model::open_many(black_box(image), count),
    );
    print(what, &times);
}

fn time_page(what: &str, image: &[u8], count: u32) {
    let times = best(
        count,
        |count| proved::page_many(black_box(image), 1000, count),
        |count| model::page_many(black_box(image), 1000, count),
    );
    print(what, &times);
}

/// Hits and misses of the proved machine's cache in a run of an image over engine 1 or 3.
fn hits_and_misses(image: &[u8], engine: u8) -> (u32, u32) {
    let mut script = (image.len() as u16).to_be_bytes().to_vec();
    script.extend_from_slice(image);
    script.extend_from_slice(&image[4..6]);
    script.extend_from_slice(&256u16.to_be_bytes());
    script.extend_from_slice(&[engine, 0, 1]);
    script.extend_from_slice(&STEPS.to_be_bytes());
    let mut transcript = vec![0; 1 << 16];
    let length = proved::run_case(&script, &mut transcript);
    let end = Transcript::read(&script, &transcript[..length]).end;
    end.map_or((0, 0), |end| (end.hits, end.misses))
}

/// Prints the times of steps, openings and pages, in those orders whose word contains a text.
pub fn measure(chosen: &str) {
    println!("nanoseconds, best of {ROUNDS} rounds in which the two sides take turns");
    println!("ratio: the model's time by the proved machine's");
    println!("without the time in which memory is made and cleared, once in each round");
    println!();
    println!("{:<44} {:>10} {:>10} {:>8}", "one of", "proved", "model", "ratio");
    for order in ORDERS.into_iter().filter(|order| order.word.contains(chosen)) {
        let word = order.word;
        let (hits, misses) = (hits(order), misses(order));
        for (what, image) in [("hits", &hits), ("misses", &misses)] {
            let (hits, misses) = hits_and_misses(image, 1);
            println!("the loop of {what}, {word}: {hits} hits, {misses} misses");
        }
        time_run(&format!("step, cache hits, {word}"), &hits, 1);
        time_run(&format!("step, cache misses, {word}"), &misses, 1);
        time_run(&format!("step, bare flow engine, {word}"), &hits, 0);
        time_run(&format!("step, table, {word}"), &hits, 2);
        time_run(&format!("step, cached table, hits, {word}"), &hits, 3);
        time_run(&format!("step, cached table, misses, {word}"), &misses, 3);
        time_open(&format!("open, 22 instructions, 2 cells, {word}"), &hits, 5_000);
        time_open(&format!("open, 1024 instructions, 4096 cells, {word}"), &largest(order), 100);
        time_page(&format!("page, 128 of 256 outputs, {word}"), &outputs(order), 500);
    }
}
