//! Instructions: decoding of their 32 bits, and the functions of BIN.

use crate::cell::Word;
use crate::rules::Class;

/// A legal instruction: its class and its fields, 0 where its class names none.
#[derive(Clone, Copy, Debug, PartialEq, Eq)]
pub struct Instruction {
    pub class: Class,
    pub d: u8,
    pub a: u8,
    pub b: u8,
    pub k: u16,
}

const D: u32 = 0x0F00_0000;
const A: u32 = 0x00F0_0000;
const B: u32 = 0x000F_0000;
const K: u32 = 0x0000_FFFF;

/// The greatest number of a function of BIN.
const LAST_FUNCTION: u16 = 8;

/// The bits of the fields that a class names.
#[inline]
fn named_fields(class: Class) -> u32 {
    match class {
        Class::Nop | Class::Ret | Class::Halt => 0,
        Class::Const => D | K,
        Class::Mov | Class::Load => D | A,
        Class::Bin => D | A | B | K,
        Class::Store => A | B,
        Class::Jump | Class::Out => A,
        Class::Bnz => A | K,
        Class::Goto | Class::Call => K,
        Class::Raise => D,
    }
}

impl Instruction {
    /// The instruction of these bits, or none where they are illegal.
    #[inline]
    pub fn decode(bits: u32) -> Option<Instruction> {
        let class = Class::from_number((bits >> 28) as u8)?;
        let k = (bits & K) as u16;
        if bits & (D | A | B | K) & !named_fields(class) != 0 {
            return None;
        }
        if class == Class::Bin && k > LAST_FUNCTION {
            return None;
        }
        let field = |shift: u32| (bits >> shift & 15) as u8;
        Some(Instruction { class, d: field(24), a: field(20), b: field(16), k })
    }

    /// The bits of the instruction; fields above 15 are cut.
    pub fn encode(self) -> u32 {
        let field = |value: u8, shift: u32| u32::from(value & 15) << shift;
        field(self.class.number(), 28)
            | field(self.d, 24)
            | field(self.a, 20)
            | field(self.b, 16)
            | u32::from(self.k)
    }
}

/// Function k of BIN, modulo 2^32; none above 8.
#[inline]
pub fn binary(k: u16, a: Word, b: Word) -> Option<Word> {
    Some(match k {
        0 => a.wrapping_add(b),
        1 => a.wrapping_sub(b),
        2 => a & b,
        3 => a | b,
        4 => a ^ b,
        5 => a.checked_shl(b).unwrap_or(0),
        6 => a.checked_shr(b).unwrap_or(0),
        7 => Word::from(a < b),
        8 => Word::from(a == b),
        _ => return None,
    })
}
