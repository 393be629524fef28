//! Sittings: an image opened for its reader, with the machine that runs it.

use crate::cell::{Cell, Tag, Word};
use crate::engines::Engine;
use crate::image::{entries, load, Header};
use crate::labels::{NamedOrder, Order};
use crate::machine::{Fault, Machine, Outcome, Stop};
use crate::refusal::Refusal;
use crate::rules::Violation;

#[derive(Clone, Copy, Debug, Default, PartialEq, Eq)]
pub enum State {
    #[default]
    Blank,
    Running,
    Halted,
    Faulted(Fault),
    Violated(Violation),
}

impl State {
    pub fn number(self) -> u8 {
        match self {
            State::Blank => 0,
            State::Running => 1,
            State::Halted => 2,
            State::Faulted(_) => 3,
            State::Violated(_) => 4,
        }
    }

    /// The number of the fault or the cause of the violation, 0 if there is none.
    pub fn cause(self) -> u8 {
        match self {
            State::Faulted(fault) => fault as u8,
            State::Violated(violation) => violation.cause,
            _ => 0,
        }
    }
}

/// The lengths that the opening fixed.
#[derive(Clone, Copy, Debug, Default, PartialEq, Eq)]
struct Lengths {
    image: usize,
    cells: usize,
    outputs: usize,
}

#[derive(Clone, Debug, Default)]
pub struct Sitting {
    state: State,
    header: Header,
    lengths: Lengths,
    machine: Machine,
}

/// What a page answers: how many records it wrote, and the end mark.
#[derive(Clone, Copy, Debug, PartialEq, Eq)]
pub struct Page {
    pub visible: usize,
    pub end: bool,
}

/// What can be peeked at.
#[derive(Clone, Copy, Debug, PartialEq, Eq)]
pub enum Location {
    Register(u8),
    Cell(u32),
}

impl Sitting {
    pub fn new() -> Self {
        Sitting::default()
    }

    pub fn state(&self) -> State {
        self.state
    }

    pub fn header(&self) -> &Header {
        &self.header
    }

    pub fn pc(&self) -> Word {
        self.machine.pc()
    }

    pub fn steps(&self) -> u32 {
        self.machine.steps()
    }

    fn check_blank(&self) -> Result<(), Refusal> {
        match self.state {
            State::Blank => Ok(()),
            _ => Err(Refusal::WrongState),
        }
    }

    /// The order that an image's header names.
    pub fn find_order(&self, image: &[u8]) -> Result<NamedOrder, Refusal> {
        self.check_blank()?;
        let header = Header::read(image)?;
        header.check_version()?;
        header.order()
    }

    pub fn open<O: Order>(
        &mut self,
        order: &O,
        image: &[u8],
        cells: &mut [Cell],
        outputs: &[Cell],
    ) -> Result<(), Refusal> {
        self.check_blank()?;
        let header = load(order, image, cells)?;
        *self = Sitting {
            state: State::Running,
            header,
            lengths: Lengths { image: image.len(), cells: cells.len(), outputs: outputs.len() },
            machine: Machine::default(),
        };
        Ok(())
    }

    /// Opens in the order that the image's header names.
    pub fn open_named(
        &mut self,
        image: &[u8],
        cells: &mut [Cell],
        outputs: &[Cell],
    ) -> Result<(), Refusal> {
        match self.find_order(image)? {
            NamedOrder::TwoPoint(order) => self.open(&order, image, cells, outputs),
            NamedOrder::BarredSets(order) => self.open(&order, image, cells, outputs),
            NamedOrder::Clearances(order) => self.open(&order, image, cells, outputs),
        }
    }

    fn check_lengths(
        &self,
        image: &[u8],
        cells: &[Cell],
        outputs: &[Cell],
    ) -> Result<(), Refusal> {
        let lengths =
            Lengths { image: image.len(), cells: cells.len(), outputs: outputs.len() };
        if lengths == self.lengths {
            Ok(())
        } else {
            Err(Refusal::WrongLength)
        }
    }

    /// Runs for at most so many steps, and answers how many were granted.
    pub fn run<E: Engine>(
        &mut self,
        engine: &mut E,
        budget: u32,
        image: &[u8],
        cells: &mut [Cell],
        outputs: &mut [Cell],
    ) -> Result<u32, Refusal> {
        if self.state != State::Running {
            return Err(Refusal::WrongState);
        }
        self.check_lengths(image, cells, outputs)?;
        let code = &entries(image)[..self.header.counts.code];
        let (outcome, granted) = self.machine.run(code, cells, outputs, engine, budget);
        self.state = match outcome {
            Outcome::GoesOn => State::Running,
            Outcome::Halted => State::Halted,
            Outcome::Stopped(Stop::Fault(fault)) => State::Faulted(fault),
            Outcome::Stopped(Stop::Violation(violation)) => State::Violated(violation),
        };
        Ok(granted)
    }

    /// The checks that page and peek begin with.
    fn check_reading<O: Order>(
        &self,
        order: &O,
        image: &[u8],
        cells: &[Cell],
        outputs: &[Cell],
    ) -> Result<(), Refusal> {
        if self.state == State::Blank {
            return Err(Refusal::WrongState);
        }
        if !self.header.names(order) {
            return Err(Refusal::WrongOrder);
        }
        self.check_lengths(image, cells, outputs)
    }

    fn is_visible<O: Order>(&self, order: &O, tag: Tag) -> bool {
        order.flows(tag, self.header.reader)
    }

    fn end_mark<O: Order>(&self, order: &O) -> bool {
        self.state == State::Halted && self.is_visible(order, self.machine.pc_tag())
    }

    /// Writes the outputs that the reader may see to the front of the list.
    pub fn page<O: Order>(
        &self,
        order: &O,
        image: &[u8],
        cells: &[Cell],
        outputs: &[Cell],
        list: &mut [Cell],
    ) -> Result<Page, Refusal> {
        self.check_reading(order, image, cells, outputs)?;
        let so_far = &outputs[..self.machine.outputs()];
        let seen = || so_far.iter().filter(|output| self.is_visible(order, output.tag));
        let visible = seen().count();
        if list.len() < visible {
            return Err(Refusal::WrongLength);
        }
        for (record, output) in list.iter_mut().zip(seen()) {
            *record = *output;
        }
        Ok(Page { visible, end: self.end_mark(order) })
    }

    /// A register or cell after the end mark; none if it is hidden from the reader.
    pub fn peek<O: Order>(
        &self,
        order: &O,
        location: Location,
        image: &[u8],
        cells: &[Cell],
        outputs: &[Cell],
    ) -> Result<Option<Cell>, Refusal> {
        self.check_reading(order, image, cells, outputs)?;
        if !self.end_mark(order) {
            return Err(Refusal::NoEndMark);
        }
        let found = match location {
            Location::Register(number) => self.machine.register(number),
            Location::Cell(number) => cells.get(number as usize).copied(),
        };
        let cell = found.ok_or(Refusal::OutOfRange)?;
        Ok(Some(cell).filter(|cell| self.is_visible(order, cell.tag)))
    }

    pub fn close(self) -> ClosingRecord {
        let [tag0, tag1] = self.machine.pc_tag().to_be_bytes();
        let [pc0, pc1, pc2, pc3] = self.pc().to_be_bytes();
        let [steps0, steps1, steps2, steps3] = self.steps().to_be_bytes();
        let state = self.state.number() << 4 | self.state.cause();
        ClosingRecord {
            bytes: [state, 0, tag0, tag1, pc0, pc1, pc2, pc3, steps0, steps1, steps2, steps3],
        }
    }
}

/// What a closed sitting leaves; it must be filed or struck out.
#[must_use]
#[derive(Debug, PartialEq, Eq)]
pub struct ClosingRecord {
    bytes: [u8; 12],
}

impl ClosingRecord {
    /// Writes the record into a slot of twelve bytes, or gives it back.
    pub fn file(self, slot: &mut [u8]) -> Result<(), (ClosingRecord, Refusal)> {
        if slot.len() != self.bytes.len() {
            return Err((self, Refusal::WrongSlotLength));
        }
        slot.copy_from_slice(&self.bytes);
        Ok(())
    }

    pub fn strike(self) {}
}
