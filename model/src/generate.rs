//! Random cases, pairs of alike cases and images, each from a seed.

mod calls;
mod damage;
mod program;
mod random;

use calls::Calls;
use damage::{damage, limits};
use program::Program;
use random::Random;

use crate::image::Header;

/// The fixed parts of a script around an image, before its calls.
fn script(image: &[u8], cells: usize, outputs: usize, engine: u8) -> Vec<u8> {
    let mut bytes = (image.len() as u16).to_be_bytes().to_vec();
    bytes.extend_from_slice(image);
    bytes.extend_from_slice(&(cells as u16).to_be_bytes());
    bytes.extend_from_slice(&(outputs as u16).to_be_bytes());
    bytes.push(engine);
    bytes
}

fn engine(random: &mut Random) -> u8 {
    if random.chance(2) {
        random.next() as u8
    } else {
        random.below(4) as u8
    }
}

/// How many output places are handed in: mostly enough for a program that ends.
fn outputs(random: &mut Random) -> usize {
    match random.below(20) {
        0 => 0,
        1..=3 => random.below(8) as usize,
        4..=12 => 256,
        _ => random.below(257) as usize,
    }
}

/// How many cells are handed in: mostly as many as the image's header says.
fn cells(random: &mut Random, image: &[u8]) -> usize {
    let wanted = Header::read(image).map_or(0, |header| header.counts.cells);
    match random.below(60) {
        0 => wanted + 1,
        1 => wanted.saturating_sub(1),
        2 => random.below(20) as usize,
        _ => wanted.min(4096),
    }
}

/// A random case.
pub fn case(seed: u64) -> Vec<u8> {
    let random = &mut Random::new(seed);
    match random.below(100) {
        0 => return random.bytes(40),
        1 => return limit_case(random),
        2..=4 => return straight_case(random),
        _ => {}
    }
    let kind = random.below(100);
    let program = match kind {
        0..=3 => Program::long(random),
        4..=54 => Program::structured(random),
        _ => Program::loose(random),
    };
    let mut image = program.bytes();
    if random.chance(20) {
        damage(random, &program, &mut image);
    }
    let cells = cells(random, &image);
    let mut bytes = script(&image, cells, outputs(random), engine(random));
    let calls = Calls::new(random, &program);
    bytes.extend(if kind <= 3 { calls.long() } else { calls.mixed() });
    if random.chance(2) {
        // Cut off at any place, mostly inside the calls.
        let from = if random.chance(80) { image.len() + 7 } else { 0 };
        let cut = random.within(from as u32, bytes.len() as u32);
        bytes.truncate(cut as usize);
    }
    bytes
}

/// A case whose image is at the limits of its counts or just outside.
fn limit_case(random: &mut Random) -> Vec<u8> {
    let image = limits(random);
    let cells = cells(random, &image);
    let mut bytes = script(&image, cells, outputs(random), engine(random));
    let program = Program::structured(random);
    bytes.extend(Calls::new(random, &program).few());
    bytes
}

/// A case with no jump, so that it ends soon whatever the budget is.
fn straight_case(random: &mut Random) -> Vec<u8> {
    let program = Program::straight(random);
    let image = program.bytes();
    let cells = cells(random, &image);
    let mut bytes = script(&image, cells, outputs(random), engine(random));
    bytes.extend(Calls::new(random, &program).unlimited());
    bytes
}

/// Two cases whose images are alike to their reader.
pub fn alike_pair(seed: u64) -> (Vec<u8>, Vec<u8>) {
    let random = &mut Random::new(seed);
    let left = Program::with_secrets(random);
    let right = left.alike(random);
    let places = outputs(random);
    let side = |random: &mut Random, program: &Program, places: usize| {
        script(&program.bytes(), program.cells.len(), places, engine(random))
    };
    let right_places = if random.chance(15) { outputs(random) } else { places };
    let mut first = side(random, &left, places);
    let mut second = side(random, &right, right_places);
    let calls = Calls::new(random, &left).until_the_end();
    second.extend(if random.chance(50) {
        calls.clone()
    } else {
        Calls::new(random, &right).until_the_end()
    });
    first.extend(calls);
    (first, second)
}

/// A mostly valid image.
pub fn image(seed: u64) -> Vec<u8> {
    let random = &mut Random::new(seed);
    if random.chance(1) {
        return limits(random);
    }
    let program = match random.below(3) {
        0 => Program::structured(random),
        1 => Program::loose(random),
        _ => Program::straight(random),
    };
    let mut image = program.bytes();
    if random.chance(10) {
        damage(random, &program, &mut image);
    }
    image
}
