//! Cases: runs a script of calls on one sitting and writes the transcript.

use crate::cell::Cell;
use crate::engines::{with_engine, Engine, EngineTask};
use crate::labels::{NamedOrder, Order};
use crate::refusal::Refusal;
use crate::script::{Call, Script, MOST_RECORDS, MOST_SLOT};
use crate::sitting::{Page, Sitting};

const UNTOUCHED: Cell = Cell { word: 0xAAAA_AAAA, tag: 0xBBBB };
const UNTOUCHED_RECORD: Cell = Cell { word: 0xCCCC_CCCC, tag: 0xDDDD };
const UNTOUCHED_BYTE: u8 = 0xEE;

/// Runs a case and answers how many bytes of transcript were written.
pub fn run_case(script: &[u8], transcript: &mut [u8]) -> usize {
    let mut writer = Writer { buffer: transcript, written: 0 };
    if let Some(script) = Script::read(script) {
        match Sitting::new().find_order(script.image) {
            Err(refusal) => writer.put_refusal(refusal),
            Ok(NamedOrder::TwoPoint(order)) => play(order, &script, &mut writer),
            Ok(NamedOrder::BarredSets(order)) => play(order, &script, &mut writer),
            Ok(NamedOrder::Clearances(order)) => play(order, &script, &mut writer),
        }
    }
    writer.written
}

/// Writes into a buffer, and leaves out what does not fit.
struct Writer<'a> {
    buffer: &'a mut [u8],
    written: usize,
}

impl Writer<'_> {
    fn put(&mut self, bytes: &[u8]) {
        let free = &mut self.buffer[self.written..];
        let length = free.len().min(bytes.len());
        free[..length].copy_from_slice(&bytes[..length]);
        self.written += length;
    }

    fn put_u32(&mut self, number: u32) {
        self.put(&number.to_be_bytes());
    }

    fn put_cell(&mut self, cell: &Cell) {
        self.put(&cell.word.to_be_bytes());
        self.put(&cell.tag.to_be_bytes());
    }

    fn put_refusal(&mut self, refusal: Refusal) {
        self.put(&[0xFF, refusal.number()]);
        self.put(&refusal.place().unwrap_or(0).to_be_bytes());
    }

    fn put_page(&mut self, answer: Result<Page, Refusal>, list: &[Cell]) {
        match answer {
            Err(refusal) => self.put_refusal(refusal),
            Ok(page) => {
                self.put(&[0x02]);
                self.put(&(page.visible as u16).to_be_bytes());
                self.put(&[u8::from(page.end)]);
                for record in list {
                    self.put_cell(record);
                }
            }
        }
    }

    fn put_peek(&mut self, answer: Result<Option<Cell>, Refusal>) {
        match answer {
            Err(refusal) => self.put_refusal(refusal),
            Ok(None) => self.put(&[0x03, 0x00]),
            Ok(Some(cell)) => {
                self.put(&[0x03, 0x01]);
                self.put_cell(&cell);
            }
        }
    }
}

/// The sitting of a case with the memory that its calls get.
struct Case<'a, O> {
    order: O,
    image: &'a [u8],
    sitting: Option<Sitting>,
    cells: Vec<Cell>,
    outputs: Vec<Cell>,
}

/// All calls of a script, to be made with an engine.
struct Play<'p, 'i, 'w, O> {
    case: &'p mut Case<'i, O>,
    script: &'p Script<'i>,
    writer: &'p mut Writer<'w>,
}

fn play<O: Order + Copy>(order: O, script: &Script<'_>, writer: &mut Writer<'_>) {
    let mut case = Case {
        order,
        image: script.image,
        sitting: Some(Sitting::new()),
        cells: vec![UNTOUCHED; script.cells],
        outputs: vec![UNTOUCHED; script.outputs],
    };
    writer.put(&[0x00]);
    let task = Play { case: &mut case, script, writer: &mut *writer };
    let ((), (hits, misses)) = with_engine(script.engine, order, task);
    case.put_end(hits, misses, writer);
}

impl<O: Order> EngineTask for Play<'_, '_, '_, O> {
    type Answer = ();

    fn run<E: Engine>(self, engine: &mut E) {
        for call in self.script.calls() {
            self.case.make(call, engine, self.writer);
        }
    }
}

impl<O: Order> Case<'_, O> {
    fn make<E: Engine>(&mut self, call: Call, engine: &mut E, writer: &mut Writer<'_>) {
        match call {
            Call::Open => self.open(writer),
            Call::Run { budget } => self.run(engine, budget, writer),
            Call::Page { records } => {
                self.page(&self.order, self.outputs.len(), records, writer)
            }
            Call::Peek(location) => {
                let Some(sitting) = &self.sitting else { return };
                let (cells, outputs) = (&self.cells, &self.outputs);
                writer.put_peek(sitting.peek(
                    &self.order,
                    location,
                    self.image,
                    cells,
                    outputs,
                ));
            }
            Call::Close { slot } => self.close(slot, writer),
            Call::PageIn { kind, p, q } => self.page_in(NamedOrder::new(kind, p, q), writer),
            Call::PageShort { fewer } => {
                let outputs = self.outputs.len().saturating_sub(fewer);
                self.page(&self.order, outputs, MOST_RECORDS, writer);
            }
        }
    }

    fn open(&mut self, writer: &mut Writer<'_>) {
        let Some(sitting) = &mut self.sitting else { return };
        match sitting.open(&self.order, self.image, &mut self.cells, &self.outputs) {
            Ok(()) => writer.put(&[0x00]),
            Err(refusal) => writer.put_refusal(refusal),
        }
    }

    fn run<E: Engine>(&mut self, engine: &mut E, budget: u32, writer: &mut Writer<'_>) {
        let Some(sitting) = &mut self.sitting else { return };
        match sitting.run(engine, budget, self.image, &mut self.cells, &mut self.outputs) {
            Ok(granted) => {
                writer.put(&[0x01]);
                writer.put_u32(granted);
            }
            Err(refusal) => writer.put_refusal(refusal),
        }
    }

    /// Pages with the first so many output places and a new list of so many records.
    fn page<P: Order>(
        &self,
        order: &P,
        outputs: usize,
        records: usize,
        writer: &mut Writer<'_>,
    ) {
        let Some(sitting) = &self.sitting else { return };
        let mut memory = [UNTOUCHED_RECORD; MOST_RECORDS];
        let list = &mut memory[..records];
        let outputs = &self.outputs[..outputs];
        let answer = sitting.page(order, self.image, &self.cells, outputs, list);
        writer.put_page(answer, list);
    }

    fn page_in(&self, order: Result<NamedOrder, Refusal>, writer: &mut Writer<'_>) {
        let outputs = self.outputs.len();
        match order {
            Err(refusal) => writer.put_refusal(refusal),
            Ok(NamedOrder::TwoPoint(order)) => self.page(&order, outputs, MOST_RECORDS, writer),
            Ok(NamedOrder::BarredSets(order)) => {
                self.page(&order, outputs, MOST_RECORDS, writer)
            }
            Ok(NamedOrder::Clearances(order)) => {
                self.page(&order, outputs, MOST_RECORDS, writer)
            }
        }
    }

    fn close(&mut self, length: usize, writer: &mut Writer<'_>) {
        let Some(sitting) = self.sitting.take() else { return };
        let mut memory = [UNTOUCHED_BYTE; MOST_SLOT];
        let slot = &mut memory[..length];
        let filed = match sitting.close().file(slot) {
            Ok(()) => true,
            Err((record, _)) => {
                record.strike();
                false
            }
        };
        writer.put(&[0x05, u8::from(filed)]);
        writer.put(slot);
    }

    /// What stands behind the last call; zeros for a sitting that was closed.
    fn put_end(&self, hits: u32, misses: u32, writer: &mut Writer<'_>) {
        let (state, cause, pc, steps) = match &self.sitting {
            None => (0, 0, 0, 0),
            Some(sitting) => {
                let state = sitting.state();
                (state.number(), state.cause(), sitting.pc(), sitting.steps())
            }
        };
        writer.put(&[0x09, state, cause]);
        for number in [pc, steps, hits, misses] {
            writer.put_u32(number);
        }
        for cell in self.cells.iter().chain(&self.outputs) {
            writer.put_cell(cell);
        }
    }
}
