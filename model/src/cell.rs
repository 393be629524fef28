//! Words, tags and cells: what registers, memory and outputs are made of.

/// What the machine computes with.
pub type Word = u32;

/// What marks a word, the pc or an instruction.
pub type Tag = u16;

/// A word with its tag: a register, a memory cell or an output.
#[derive(Clone, Copy, Debug, Default, PartialEq, Eq)]
pub struct Cell {
    pub word: Word,
    pub tag: Tag,
}
