//! Damaged images, and images at the limits of their counts.

use super::program::{assemble, Program};
use super::random::Random;
use crate::image::{CodeEntry, ENTRY_LENGTH, HEADER_LENGTH};
use crate::Cell;

/// Damages an image in one or two ways.
pub fn damage(random: &mut Random, program: &Program, image: &mut Vec<u8>) {
    for _ in 0..random.within(1, 2) {
        let length = image.len();
        if length < HEADER_LENGTH {
            return;
        }
        match random.below(10) {
            0 => image.truncate(random.below(length as u32) as usize),
            1 => image.truncate(random.below(10) as usize),
            2 => image.extend(random.bytes(13)),
            3 => flip(random, image, 0, HEADER_LENGTH),
            4 => flip(random, image, HEADER_LENGTH, length),
            5 => set_name(random, image),
            6 => set_count(random, image, 2, 1024),
            7 => set_count(random, image, 4, 4096),
            _ => set_tag(random, program, image),
        }
    }
}

/// Flips a bit between two places.
fn flip(random: &mut Random, image: &mut [u8], from: usize, to: usize) {
    if from < to {
        let place = from + random.below((to - from) as u32) as usize;
        image[place] ^= 1 << random.below(8);
    }
}

/// Changes the version, the kind or a parameter.
fn set_name(random: &mut Random, image: &mut [u8]) {
    let nibble = random.below(16) as u8;
    let byte = &mut image[random.below(2) as usize];
    *byte = if random.chance(50) { *byte & 0x0F | nibble << 4 } else { *byte & 0xF0 | nibble };
}

/// Changes the count at a place whose limit is known.
fn set_count(random: &mut Random, image: &mut [u8], place: usize, limit: u16) {
    let count = u16::from_be_bytes([image[place], image[place + 1]]);
    let any = random.next() as u16;
    let changed = random.pick(&[
        0,
        limit,
        limit + 1,
        u16::MAX,
        any,
        count.wrapping_add(1),
        count.wrapping_sub(1),
    ]);
    image[place..place + 2].copy_from_slice(&changed.to_be_bytes());
}

/// Changes the reader's label or the tag of an entry, mostly to one that is no label.
fn set_tag(random: &mut Random, program: &Program, image: &mut [u8]) {
    let entries = (image.len() - HEADER_LENGTH) / ENTRY_LENGTH;
    let place = match random.below(entries as u32 + 1) as usize {
        0 => 6,
        entry => HEADER_LENGTH + ENTRY_LENGTH * (entry - 1),
    };
    let any = random.next() as u16;
    let tag = random.pick(&[program.bound() as u16, u16::MAX, any]);
    image[place..place + 2].copy_from_slice(&tag.to_be_bytes());
}

/// An image with about as many entries as there may be, or one too many.
pub fn limits(random: &mut Random) -> Vec<u8> {
    let code_count = random.pick(&[1, 1, 1023, 1024, 1025]);
    let cell_count = random.pick(&[0, 0, 4095, 4096, 4097]);
    let halt = CodeEntry { tag: 0, instruction: 0xD000_0000 };
    let nop = CodeEntry { tag: 1, instruction: 0 };
    let mut code = vec![nop; code_count];
    code[code_count - 1] = halt;
    let mut cells: Vec<Cell> =
        (0..cell_count).map(|word| Cell { word, tag: (word & 1) as u16 }).collect();
    if let (Some(last), true) = (cells.last_mut(), random.chance(20)) {
        last.tag = 2;
    }
    assemble((1, 0, 0), random.below(2) as u16, &code, &cells)
}
