//! Random programs: mostly legal, with few labels, so that many steps are granted.

use super::random::Random;
use crate::image::{CodeEntry, VERSION};
use crate::instructions::Instruction;
use crate::labels::{NamedOrder, Order, TwoPoint};
use crate::rules::Class;
use crate::{Cell, Tag, Word};

/// A program with its memory, not yet an image.
#[derive(Clone)]
pub struct Program {
    pub name: (u8, u8, u8),
    pub reader: Tag,
    pub code: Vec<CodeEntry>,
    pub cells: Vec<Cell>,
}

/// The bytes of an image of these parts, without any check.
pub fn assemble(
    (kind, p, q): (u8, u8, u8),
    reader: Tag,
    code: &[CodeEntry],
    cells: &[Cell],
) -> Vec<u8> {
    let mut bytes = vec![VERSION << 4 | kind, p << 4 | q];
    for number in [code.len() as u16, cells.len() as u16, reader] {
        bytes.extend(number.to_be_bytes());
    }
    let code = code.iter().map(|entry| (entry.tag, entry.instruction));
    for (tag, word) in code.chain(cells.iter().map(|cell| (cell.tag, cell.word))) {
        bytes.extend(tag.to_be_bytes());
        bytes.extend(word.to_be_bytes());
    }
    bytes
}

fn order(name: (u8, u8, u8)) -> NamedOrder {
    NamedOrder::new(name.0, name.1, name.2).unwrap_or(NamedOrder::TwoPoint(TwoPoint))
}

fn bound(name: (u8, u8, u8)) -> u32 {
    match order(name) {
        NamedOrder::TwoPoint(order) => order.bound(),
        NamedOrder::BarredSets(order) => order.bound(),
        NamedOrder::Clearances(order) => order.bound(),
    }
}

fn flows(name: (u8, u8, u8), from: Tag, to: Tag) -> bool {
    match order(name) {
        NamedOrder::TwoPoint(order) => order.flows(from, to),
        NamedOrder::BarredSets(order) => order.flows(from, to),
        NamedOrder::Clearances(order) => order.flows(from, to),
    }
}

/// A name that stands for an order, mostly one of few labels.
fn some_name(random: &mut Random) -> (u8, u8, u8) {
    let large = random.chance(12);
    let p = random.below(if large { 16 } else { 4 }) as u8;
    let q = random.below(if large { 13 } else { 4 }) as u8;
    match random.below(3) {
        0 => (1, 0, 0),
        1 => (2, p, 0),
        _ => (3, p, q),
    }
}

/// The few labels that a program uses.
#[derive(Clone, Copy)]
struct Labels {
    name: (u8, u8, u8),
    reader: Tag,
    /// Invisible to the reader, where there is such a label.
    secret: Tag,
    other: Tag,
}

impl Labels {
    fn new(random: &mut Random) -> Labels {
        let name = some_name(random);
        let bound = bound(name);
        let reader = if random.chance(65) { 0 } else { random.below(bound) as Tag };
        let other = random.below(bound) as Tag;
        let secret = invisible(random, name, reader).unwrap_or(other);
        Labels { name, reader, secret, other }
    }

    /// Labels of which one is invisible to the reader.
    fn with_secret(random: &mut Random) -> Labels {
        loop {
            let labels = Labels::new(random);
            if !flows(labels.name, labels.secret, labels.reader) {
                return labels;
            }
        }
    }

    fn some(&self, random: &mut Random) -> Tag {
        match random.below(20) {
            0..=9 => 0,
            10..=16 => self.secret,
            _ => self.other,
        }
    }
}

/// A label that the reader does not see, if one is found soon.
fn invisible(random: &mut Random, name: (u8, u8, u8), reader: Tag) -> Option<Tag> {
    let bound = bound(name);
    (0..20).map(|_| random.below(bound) as Tag).find(|&tag| !flows(name, tag, reader))
}

fn some_word(random: &mut Random) -> Word {
    match random.below(10) {
        0..=5 => random.below(4),
        6 | 7 => random.below(40),
        8 => 0,
        _ => random.next() as Word,
    }
}

fn some_cells(random: &mut Random, labels: &Labels, most: u32) -> Vec<Cell> {
    let count = random.below(most + 1);
    (0..count).map(|_| Cell { word: some_word(random), tag: labels.some(random) }).collect()
}

impl Program {
    pub fn bytes(&self) -> Vec<u8> {
        assemble(self.name, self.reader, &self.code, &self.cells)
    }

    pub fn bound(&self) -> u32 {
        bound(self.name)
    }

    /// Loops, calls and branches on secrets, put together so that most of it is granted.
    pub fn structured(random: &mut Random) -> Program {
        let labels = Labels::new(random);
        let ending = random.below(30);
        Builder::new(random, labels).structured(ending)
    }

    /// A structured program with a secret that mostly halts.
    pub fn with_secrets(random: &mut Random) -> Program {
        let labels = Labels::with_secret(random);
        let ending = random.below(200);
        Builder::new(random, labels).structured(ending)
    }

    /// A loop of many steps.
    pub fn long(random: &mut Random) -> Program {
        let labels = Labels::new(random);
        let turns = random.within(500, 4_000) as u16;
        Builder::new(random, labels).long(turns)
    }

    /// Random instructions, one after the other.
    pub fn loose(random: &mut Random) -> Program {
        let labels = Labels::new(random);
        let count = random.within(1, 40);
        let cells = some_cells(random, &labels, 8);
        let code = (0..count).map(|_| loose_entry(random, &labels, count)).collect();
        Program { name: labels.name, reader: labels.reader, code, cells }
    }

    /// Instructions that go nowhere but on.
    pub fn straight(random: &mut Random) -> Program {
        let mut program = Program::loose(random);
        program.code.retain(|entry| !matches!(entry.instruction >> 28, 6..=10));
        let halt = CodeEntry { tag: 0, instruction: 0xD000_0000 };
        program.code.push(halt);
        program
    }

    /// The program with other secrets: cells that the reader does not see have another word
    /// or tag, and he does not see those either.
    pub fn alike(&self, random: &mut Random) -> Program {
        let mut program = self.clone();
        for cell in &mut program.cells {
            if flows(self.name, cell.tag, self.reader) {
                continue;
            }
            if random.chance(80) {
                cell.word = some_word(random);
            }
            if random.chance(15) {
                cell.tag = invisible(random, self.name, self.reader).unwrap_or(cell.tag);
            }
        }
        program
    }
}

fn encode(class: Class, d: u8, a: u8, b: u8, k: u16) -> u32 {
    Instruction { class, d, a, b, k }.encode()
}

/// A legal instruction, with few registers and a target inside the code; seldom any bits.
fn loose_entry(random: &mut Random, labels: &Labels, count: u32) -> CodeEntry {
    let tag = if random.chance(75) { 0 } else { labels.some(random) };
    if random.chance(1) {
        return CodeEntry { tag, instruction: random.next() as u32 };
    }
    let [d, a, b] = [0; 3].map(|_: u8| random.below(5) as u8);
    let past_the_end = u32::from(random.chance(3));
    let k = random.below(count + past_the_end) as u16;
    let instruction = match random.below(40) {
        0 => encode(Class::Nop, 0, 0, 0, 0),
        1..=8 => encode(Class::Const, d, 0, 0, k),
        9..=11 => encode(Class::Mov, d, a, 0, 0),
        12..=17 => encode(Class::Bin, d, a, b, random.below(9) as u16),
        18..=20 => encode(Class::Load, d, a, 0, 0),
        21..=23 => encode(Class::Store, 0, a, b, 0),
        24 => encode(Class::Jump, 0, a, 0, 0),
        25..=27 => encode(Class::Bnz, 0, a, 0, k),
        28 => encode(Class::Goto, 0, 0, 0, k),
        29..=31 => encode(Class::Call, 0, 0, 0, k),
        32 | 33 => encode(Class::Ret, 0, 0, 0, 0),
        34..=36 => encode(Class::Out, 0, a, 0, 0),
        37 | 38 => encode(Class::Raise, d, 0, 0, 0),
        _ => encode(Class::Halt, 0, 0, 0, 0),
    };
    CodeEntry { tag, instruction }
}

// The registers of structured programs. General ones are 3 to 6, and 0 stays as it is.
const ADDRESS: u8 = 1;
const SECRET: u8 = 2;
const ONE: u8 = 7;
const COUNTER: u8 = 8;
const INNER_COUNTER: u8 = 9;
const RAISED: [u8; 3] = [10, 11, 12];
const TARGET: u8 = 13;

/// Puts a structured program together. Subroutines stand before the main part.
struct Builder<'a> {
    random: &'a mut Random,
    labels: Labels,
    code: Vec<CodeEntry>,
    cells: Vec<Cell>,
    subroutines: Vec<u16>,
}

impl<'a> Builder<'a> {
    fn new(random: &'a mut Random, labels: Labels) -> Self {
        let mut cells = some_cells(random, &labels, 6);
        // A secret stands first, mostly a small number.
        cells.insert(0, Cell { word: some_word(random), tag: labels.secret });
        Builder { random, labels, code: Vec::new(), cells, subroutines: Vec::new() }
    }

    fn here(&self) -> u16 {
        self.code.len() as u16
    }

    fn emit(&mut self, class: Class, d: u8, a: u8, b: u8, k: u16) {
        let tag = if self.random.chance(95) { 0 } else { self.labels.some(self.random) };
        self.code.push(CodeEntry { tag, instruction: encode(class, d, a, b, k) });
    }

    fn general(&mut self) -> u8 {
        self.random.within(3, 6) as u8
    }

    fn raised(&mut self) -> u8 {
        self.random.pick(&RAISED)
    }

    fn function(&mut self) -> u16 {
        self.random.below(9) as u16
    }

    /// Puts the number of a cell into the address register.
    fn address(&mut self) {
        let cell = self.random.below(self.cells.len() as u32) as u16;
        self.emit(Class::Const, ADDRESS, 0, 0, cell);
    }

    /// Something to do under a pc tag that everyone sees.
    fn statement(&mut self) {
        let [d, a, b] = [0; 3].map(|_: u8| self.general());
        let k = self.function();
        match self.random.below(24) {
            0..=2 => self.emit(Class::Const, d, 0, 0, k),
            3 => self.emit(Class::Mov, d, a, 0, 0),
            4..=6 => self.emit(Class::Bin, d, a, b, k),
            7 | 8 => {
                self.address();
                self.emit(Class::Load, d, ADDRESS, 0, 0);
            }
            9 | 10 => {
                self.address();
                self.emit(Class::Store, 0, ADDRESS, b, 0);
            }
            11..=13 => self.emit(Class::Out, 0, a, 0, 0),
            14 => self.emit(Class::Raise, d, 0, 0, 0),
            15..=19 => self.call(),
            20 => self.skip(ONE),
            21 => self.skip(0),
            22 => self.jump(),
            _ => self.emit(Class::Nop, 0, 0, 0, 0),
        }
        if self.random.chance(1) {
            self.rare();
        }
    }

    /// What often ends a program.
    fn rare(&mut self) {
        let any = self.random.next() as u32;
        match self.random.below(4) {
            0 => self.emit(Class::Store, 0, SECRET, ONE, 0),
            1 => self.skip(SECRET),
            2 => self.emit(Class::Load, SECRET, SECRET, 0, 0),
            _ => self.code.push(CodeEntry { tag: 0, instruction: any }),
        }
    }

    fn call(&mut self) {
        if !self.subroutines.is_empty() {
            let target = self.random.pick(&self.subroutines);
            self.emit(Class::Call, 0, 0, 0, target);
        }
    }

    /// A branch over one write.
    fn skip(&mut self, register: u8) {
        let after = self.here() + 2;
        self.emit(Class::Bnz, 0, register, 0, after);
        let d = self.general();
        self.emit(Class::Mov, d, ONE, 0, 0);
    }

    /// A jump by a register, or a plain one, to the next instruction but one.
    fn jump(&mut self) {
        let after = self.here() + 3;
        if self.random.chance(50) {
            self.emit(Class::Const, TARGET, 0, 0, after);
            self.emit(Class::Jump, 0, TARGET, 0, 0);
        } else {
            self.emit(Class::Nop, 0, 0, 0, 0);
            self.emit(Class::Goto, 0, 0, 0, after);
        }
        self.emit(Class::Halt, 0, 0, 0, 0);
    }

    fn turns(&mut self, counter: u8, turns: u16, statements: u32) {
        self.emit(Class::Const, counter, 0, 0, turns);
        let start = self.here();
        for _ in 0..statements {
            self.statement();
        }
        self.emit(Class::Bin, counter, counter, ONE, 1);
        self.emit(Class::Bnz, 0, counter, 0, start);
    }

    /// Something to do under a secret pc tag, mostly with raised registers.
    fn secret_statement(&mut self) {
        let [d, a, b] = [0; 3].map(|_: u8| self.raised());
        let k = self.function();
        match self.random.below(40) {
            0..=8 => self.emit(Class::Const, d, 0, 0, k),
            9..=15 => self.emit(Class::Bin, d, a, b, k),
            16..=20 => self.emit(Class::Mov, d, a, 0, 0),
            21..=25 => self.emit(Class::Out, 0, a, 0, 0),
            26..=28 => self.emit(Class::Load, d, 0, 0, 0),
            29..=31 => self.emit(Class::Store, 0, 0, b, 0),
            32..=34 => self.emit(Class::Raise, d, 0, 0, 0),
            35..=37 => self.rare_secret_statement(),
            _ => self.emit(Class::Nop, 0, 0, 0, 0),
        }
    }

    /// What the flow rules forbid, or what ends the program without a mark.
    fn rare_secret_statement(&mut self) {
        let d = self.general();
        match self.random.below(4) {
            0 => self.emit(Class::Halt, 0, 0, 0, 0),
            1 => self.emit(Class::Const, d, 0, 0, 0),
            2 => self.emit(Class::Load, ADDRESS, SECRET, 0, 0),
            _ => self.emit(Class::Store, 0, SECRET, SECRET, 0),
        }
    }

    fn subroutine(&mut self) {
        let start = self.here();
        match self.random.below(8) {
            0 | 1 => {
                for _ in 0..self.random.within(1, 4) {
                    self.statement();
                }
            }
            2 => self.turns(INNER_COUNTER, 3, 2),
            3 => self.secret_loop(),
            4 => self.recursion(),
            _ => self.secret_branch(),
        }
        self.emit(Class::Ret, 0, 0, 0, 0);
        self.subroutines.push(start);
    }

    /// Writes that are skipped or not, as the secret says.
    fn secret_branch(&mut self) {
        let branch = self.code.len();
        self.emit(Class::Nop, 0, 0, 0, 0);
        for _ in 0..self.random.within(1, 4) {
            self.secret_statement();
        }
        let after = self.here();
        self.code[branch].instruction = encode(Class::Bnz, 0, SECRET, 0, after);
    }

    /// As many turns as the secret's lowest bits say, and one more.
    fn secret_loop(&mut self) {
        let [counter, mask, step] = RAISED;
        self.emit(Class::Const, mask, 0, 0, 3);
        self.emit(Class::Const, step, 0, 0, 1);
        self.emit(Class::Bin, counter, SECRET, mask, 2);
        self.emit(Class::Bin, counter, counter, step, 0);
        let start = self.here();
        self.emit(Class::Bin, counter, counter, step, 1);
        self.emit(Class::Bnz, 0, counter, 0, start);
    }

    /// Calls itself some times, seldom more than there are frames.
    fn recursion(&mut self) {
        let depth = if self.random.chance(85) { self.random.within(1, 12) } else { 33 } as u16;
        let start = self.here();
        self.emit(Class::Const, INNER_COUNTER, 0, 0, depth);
        self.emit(Class::Call, 0, 0, 0, start + 4);
        self.emit(Class::Ret, 0, 0, 0, 0);
        self.emit(Class::Nop, 0, 0, 0, 0);
        self.emit(Class::Bin, INNER_COUNTER, INNER_COUNTER, ONE, 1);
        self.emit(Class::Bnz, 0, INNER_COUNTER, 0, start + 7);
        self.emit(Class::Ret, 0, 0, 0, 0);
        self.emit(Class::Call, 0, 0, 0, start + 4);
    }

    /// The start of the main part: constants, the secret, and raised registers.
    fn prologue(&mut self) {
        let main = self.here();
        self.code[0].instruction = encode(Class::Goto, 0, 0, 0, main);
        self.emit(Class::Const, ONE, 0, 0, 1);
        self.emit(Class::Load, SECRET, 0, 0, 0);
        for register in RAISED {
            if self.random.chance(95) {
                let raise = encode(Class::Raise, register, 0, 0, 0);
                self.code.push(CodeEntry { tag: self.labels.secret, instruction: raise });
            }
        }
    }

    /// How a program ends: with HALT but for the first few numbers.
    fn epilogue(&mut self, ending: u32) {
        let here = self.here();
        match ending {
            0 => {}
            1 => self.emit(Class::Ret, 0, 0, 0, 0),
            2 => self.emit(Class::Goto, 0, 0, 0, here),
            3 => self.emit(Class::Call, 0, 0, 0, here),
            4 => {
                self.emit(Class::Out, 0, ONE, 0, 0);
                self.emit(Class::Goto, 0, 0, 0, here);
            }
            5 => {
                self.emit(Class::Const, ADDRESS, 0, 0, u16::MAX);
                self.emit(Class::Jump, 0, ADDRESS, 0, 0);
            }
            6 => {
                let cells = self.cells.len() as u16;
                self.emit(Class::Const, ADDRESS, 0, 0, cells);
                self.emit(Class::Store, 0, ADDRESS, ONE, 0);
            }
            7 => self.emit(Class::Store, 0, SECRET, ONE, 0),
            8 => self.skip(SECRET),
            9 => self.emit(Class::Goto, 0, 0, 0, 0),
            _ => self.emit(Class::Halt, 0, 0, 0, 0),
        }
    }

    fn finish(self) -> Program {
        let Labels { name, reader, .. } = self.labels;
        Program { name, reader, code: self.code, cells: self.cells }
    }

    fn structured(mut self, ending: u32) -> Program {
        self.emit(Class::Nop, 0, 0, 0, 0);
        for _ in 0..self.random.below(5) {
            self.subroutine();
        }
        self.prologue();
        for _ in 0..self.random.below(8) {
            if self.random.chance(20) {
                let turns = self.random.within(1, 12) as u16;
                let statements = self.random.within(1, 3);
                self.turns(COUNTER, turns, statements);
            } else {
                self.statement();
            }
        }
        self.epilogue(ending);
        self.finish()
    }

    /// A loop with a body that does no output.
    fn long(mut self, turns: u16) -> Program {
        self.emit(Class::Nop, 0, 0, 0, 0);
        let start = self.here();
        self.secret_loop();
        self.emit(Class::Ret, 0, 0, 0, 0);
        self.prologue();
        self.emit(Class::Const, COUNTER, 0, 0, turns);
        let turn = self.here();
        for _ in 0..self.random.within(1, 5) {
            let [d, a, b] = [0; 3].map(|_: u8| self.general());
            let k = self.function();
            match self.random.below(8) {
                0 => self.emit(Class::Call, 0, 0, 0, start),
                1 => self.emit(Class::Load, d, ONE, 0, 0),
                2 => self.emit(Class::Store, 0, 0, b, 0),
                3 => self.emit(Class::Mov, d, a, 0, 0),
                _ => self.emit(Class::Bin, d, a, b, k),
            }
        }
        self.emit(Class::Bin, COUNTER, COUNTER, ONE, 1);
        self.emit(Class::Bnz, 0, COUNTER, 0, turn);
        let ending = self.random.below(20);
        self.epilogue(ending);
        self.finish()
    }
}
