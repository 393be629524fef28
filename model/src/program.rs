//! The program `pump` as a function, and what measurements repeat.

use std::fmt::Write;

use crate::cell::Cell;
use crate::engines::{flow_cache, with_engine, Engine, EngineTask};
use crate::image::Header;
use crate::labels::{NamedOrder, Order};
use crate::refusal::Refusal;
use crate::sitting::{Sitting, State};

const OUTPUTS: usize = 256;
const BUDGET: u32 = 100_000;

/// As many cells as the header asks for; none if there is no header.
fn cells_for(image: &[u8]) -> Vec<Cell> {
    let count = Header::read(image).map_or(0, |header| header.counts.cells);
    vec![Cell::default(); count]
}

/// What `pump` prints for an image.
pub fn show(image: &[u8]) -> String {
    let shown = match Sitting::new().find_order(image) {
        Err(refusal) => Err(refusal),
        Ok(NamedOrder::TwoPoint(order)) => show_in(order, image),
        Ok(NamedOrder::BarredSets(order)) => show_in(order, image),
        Ok(NamedOrder::Clearances(order)) => show_in(order, image),
    };
    shown.unwrap_or_else(|refusal| match refusal.place() {
        Some(place) => format!("refused {} {place}\n", refusal.number()),
        None => format!("refused {}\n", refusal.number()),
    })
}

fn show_in<O: Order + Copy>(order: O, image: &[u8]) -> Result<String, Refusal> {
    let mut cells = cells_for(image);
    let mut outputs = [Cell::default(); OUTPUTS];
    let mut list = [Cell::default(); OUTPUTS];
    let mut cache = flow_cache(order);
    let mut sitting = Sitting::new();
    sitting.open(&order, image, &mut cells, &outputs)?;
    sitting.run(&mut cache, BUDGET, image, &mut cells, &mut outputs)?;
    let page = sitting.page(&order, image, &cells, &outputs, &mut list)?;
    let mut text = String::new();
    for output in &list[..page.visible] {
        writeln!(text, "out {} {}", output.word, output.tag).expect("a string takes all");
    }
    if page.end {
        text.push_str("end\n");
    }
    let state = match sitting.state() {
        State::Blank => "blank".to_string(),
        State::Running => "running".to_string(),
        State::Halted => "halted".to_string(),
        State::Faulted(_) => format!("fault {}", sitting.state().cause()),
        State::Violated(_) => format!("violation {}", sitting.state().cause()),
    };
    let (hits, misses) = cache.counts();
    text += &format!("{state} pc {} steps {}\n", sitting.pc(), sitting.steps());
    text += &format!("cache hits {hits} misses {misses}\n");
    Ok(text)
}

/// Opens new sittings in the order that the image names; answers how many were granted.
pub fn open_many(image: &[u8], times: u32) -> u32 {
    let mut cells = cells_for(image);
    let outputs = [Cell::default(); OUTPUTS];
    let mut granted = 0;
    for _ in 0..times {
        if Sitting::new().open_named(image, &mut cells, &outputs).is_ok() {
            granted += 1;
        }
    }
    granted
}

/// Opens an image and runs it over the engine of a number; answers the granted steps.
pub fn run_image(image: &[u8], engine: u8, budget: u32) -> u32 {
    match Sitting::new().find_order(image) {
        Err(_) => 0,
        Ok(NamedOrder::TwoPoint(order)) => run_in(order, image, engine, budget),
        Ok(NamedOrder::BarredSets(order)) => run_in(order, image, engine, budget),
        Ok(NamedOrder::Clearances(order)) => run_in(order, image, engine, budget),
    }
}

struct OneRun<'a> {
    sitting: Sitting,
    budget: u32,
    image: &'a [u8],
    cells: &'a mut [Cell],
    outputs: &'a mut [Cell],
}

impl EngineTask for OneRun<'_> {
    type Answer = Result<u32, Refusal>;

    fn run<E: Engine>(mut self, engine: &mut E) -> Self::Answer {
        self.sitting.run(engine, self.budget, self.image, self.cells, self.outputs)
    }
}

fn run_in<O: Order + Copy>(order: O, image: &[u8], engine: u8, budget: u32) -> u32 {
    let mut cells = cells_for(image);
    let mut outputs = [Cell::default(); OUTPUTS];
    let mut sitting = Sitting::new();
    if sitting.open(&order, image, &mut cells, &outputs).is_err() {
        return 0;
    }
    let task = OneRun { sitting, budget, image, cells: &mut cells, outputs: &mut outputs };
    with_engine(engine, order, task).0.unwrap_or(0)
}

/// Opens and runs an image over a cached flow engine, and then pages it so many times;
/// answers the sum of the visible outputs, modulo 2^32.
pub fn page_many(image: &[u8], budget: u32, times: u32) -> u32 {
    let sum = match Sitting::new().find_order(image) {
        Err(refusal) => Err(refusal),
        Ok(NamedOrder::TwoPoint(order)) => page_in(order, image, budget, times),
        Ok(NamedOrder::BarredSets(order)) => page_in(order, image, budget, times),
        Ok(NamedOrder::Clearances(order)) => page_in(order, image, budget, times),
    };
    sum.unwrap_or(0)
}

fn page_in<O: Order + Copy>(
    order: O,
    image: &[u8],
    budget: u32,
    times: u32,
) -> Result<u32, Refusal> {
    let mut cells = cells_for(image);
    let mut outputs = [Cell::default(); OUTPUTS];
    let mut list = [Cell::default(); OUTPUTS];
    let mut sitting = Sitting::new();
    sitting.open(&order, image, &mut cells, &outputs)?;
    sitting.run(&mut flow_cache(order), budget, image, &mut cells, &mut outputs)?;
    let mut sum: u32 = 0;
    for _ in 0..times {
        let page = sitting.page(&order, image, &cells, &outputs, &mut list)?;
        sum = sum.wrapping_add(page.visible as u32);
    }
    Ok(sum)
}
