//! The machine: its state, one step, and a run of steps.

use crate::cell::{Cell, Tag, Word};
use crate::engines::Engine;
use crate::image::{CodeEntry, ENTRY_LENGTH};
use crate::instructions::{binary, Instruction};
use crate::rules::{Class, Grant, Query, Violation};

const MOST_FRAMES: usize = 32;

/// Where a call returns to, and the pc tag to return with.
#[derive(Clone, Copy, Debug, Default, PartialEq, Eq)]
struct Frame {
    pc: Word,
    tag: Tag,
}

/// What the machine holds besides the lent cells and output places.
#[derive(Clone, Debug, Default)]
pub struct Machine {
    registers: [Cell; 16],
    pc: Word,
    pc_tag: Tag,
    frames: [Frame; MOST_FRAMES],
    depth: usize,
    outputs: usize,
    steps: u32,
}

/// What the machine's own checks find, with its number.
#[derive(Clone, Copy, Debug, PartialEq, Eq)]
pub enum Fault {
    PcOutsideCode = 1,
    IllegalInstruction = 2,
    NoSuchCell = 3,
    TooManyFrames = 4,
    NoFrame = 5,
    OutputsFull = 6,
}

/// Why a step was not granted.
#[derive(Clone, Copy, Debug, PartialEq, Eq)]
pub enum Stop {
    Fault(Fault),
    Violation(Violation),
}

/// How a granted step leaves the machine.
#[derive(Clone, Copy, Debug, PartialEq, Eq)]
pub enum Progress {
    GoesOn,
    Halts,
}

/// How a run leaves the machine.
#[derive(Clone, Copy, Debug, PartialEq, Eq)]
pub enum Outcome {
    GoesOn,
    Halted,
    Stopped(Stop),
}

impl Machine {
    pub fn pc(&self) -> Word {
        self.pc
    }

    pub fn pc_tag(&self) -> Tag {
        self.pc_tag
    }

    pub fn steps(&self) -> u32 {
        self.steps
    }

    /// How many outputs there are so far.
    pub fn outputs(&self) -> usize {
        self.outputs
    }

    pub fn register(&self, number: u8) -> Option<Cell> {
        self.registers.get(usize::from(number)).copied()
    }

    #[inline]
    fn named(&self, field: u8) -> Cell {
        self.registers[usize::from(field)]
    }

    /// The entry at the pc, decoded.
    #[inline]
    fn fetch(&self, code: &[[u8; ENTRY_LENGTH]]) -> Result<(Tag, Instruction), Fault> {
        let bytes = code.get(self.pc as usize).ok_or(Fault::PcOutsideCode)?;
        let entry = CodeEntry::read(bytes);
        let instruction =
            Instruction::decode(entry.instruction).ok_or(Fault::IllegalInstruction)?;
        Ok((entry.tag, instruction))
    }

    /// The remaining checks, and the memory tag that they come across.
    #[inline]
    fn memory_tag(
        &self,
        instruction: Instruction,
        cells: &[Cell],
        outputs: &[Cell],
    ) -> Result<Tag, Fault> {
        match instruction.class {
            Class::Load | Class::Store => {
                let number = self.named(instruction.a).word as usize;
                cells.get(number).map(|cell| cell.tag).ok_or(Fault::NoSuchCell)
            }
            Class::Call if self.depth >= MOST_FRAMES => Err(Fault::TooManyFrames),
            Class::Ret if self.depth == 0 => Err(Fault::NoFrame),
            Class::Ret => Ok(self.frames[self.depth - 1].tag),
            Class::Out if self.outputs >= outputs.len() => Err(Fault::OutputsFull),
            _ => Ok(0),
        }
    }

    /// One step. A fault or a violation changes nothing.
    #[inline]
    pub fn step<E: Engine>(
        &mut self,
        code: &[[u8; ENTRY_LENGTH]],
        cells: &mut [Cell],
        outputs: &mut [Cell],
        engine: &mut E,
    ) -> Result<Progress, Stop> {
        let (tag, instruction) = self.fetch(code).map_err(Stop::Fault)?;
        let memory = self.memory_tag(instruction, cells, outputs).map_err(Stop::Fault)?;
        let query = Query {
            class: instruction.class.number(),
            pc: self.pc_tag,
            instruction: tag,
            d: self.named(instruction.d).tag,
            a: self.named(instruction.a).tag,
            b: self.named(instruction.b).tag,
            memory,
        };
        let grant = engine.ask(query).map_err(Stop::Violation)?;
        self.carry_out(instruction, grant, cells, outputs);
        self.pc_tag = grant.pc;
        self.steps = self.steps.saturating_add(1);
        Ok(match instruction.class {
            Class::Halt => Progress::Halts,
            _ => Progress::GoesOn,
        })
    }

    /// Keeps a frame; there are fewer than 32.
    fn push(&mut self, frame: Frame) {
        self.frames[self.depth] = frame;
        self.depth += 1;
    }

    /// Takes the latest frame off; there is one.
    fn pop(&mut self) -> Frame {
        self.depth -= 1;
        self.frames[self.depth]
    }

    /// What a granted instruction does, but for the pc tag and the step count.
    #[inline]
    fn carry_out(
        &mut self,
        instruction: Instruction,
        grant: Grant,
        cells: &mut [Cell],
        outputs: &mut [Cell],
    ) {
        let Instruction { class, d, k, .. } = instruction;
        let a = self.named(instruction.a).word;
        let b = self.named(instruction.b).word;
        let marked = |word| Cell { word, tag: grant.result };
        let target = &mut self.registers[usize::from(d)];
        let mut next = self.pc + 1;
        match class {
            Class::Nop => {}
            Class::Const => *target = marked(Word::from(k)),
            Class::Mov => *target = marked(a),
            Class::Bin => *target = marked(binary(k, a, b).unwrap_or(0)),
            Class::Load => *target = marked(cells[a as usize].word),
            Class::Store => cells[a as usize] = marked(b),
            Class::Jump => next = a,
            Class::Bnz if a == 0 => {}
            Class::Bnz | Class::Goto => next = Word::from(k),
            Class::Call => {
                self.push(Frame { pc: next, tag: grant.result });
                next = Word::from(k);
            }
            Class::Ret => next = self.pop().pc,
            Class::Out => {
                outputs[self.outputs] = marked(a);
                self.outputs += 1;
            }
            Class::Raise => target.tag = grant.result,
            Class::Halt => next = self.pc,
        }
        self.pc = next;
    }

    /// Steps until the machine halts or stops, or the budget is used. Answers the granted
    /// steps too.
    pub fn run<E: Engine>(
        &mut self,
        code: &[[u8; ENTRY_LENGTH]],
        cells: &mut [Cell],
        outputs: &mut [Cell],
        engine: &mut E,
        budget: u32,
    ) -> (Outcome, u32) {
        for granted in 0..budget {
            match self.step(code, cells, outputs, engine) {
                Ok(Progress::GoesOn) => {}
                Ok(Progress::Halts) => return (Outcome::Halted, granted + 1),
                Err(stop) => return (Outcome::Stopped(stop), granted),
            }
        }
        (Outcome::GoesOn, budget)
    }
}
