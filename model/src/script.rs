//! Scripts of cases: their fixed parts and their calls, read from bytes.

use crate::image::MOST_CELLS;
use crate::sitting::Location;

pub const MOST_OUTPUTS: usize = 256;
pub const MOST_RECORDS: usize = 256;
pub const MOST_SLOT: usize = 16;

/// A script, taken apart into its fixed parts and the bytes of its calls.
#[derive(Clone, Copy, Debug)]
pub struct Script<'a> {
    pub image: &'a [u8],
    pub cells: usize,
    pub outputs: usize,
    pub engine: u8,
    calls: &'a [u8],
}

#[derive(Clone, Copy, Debug, PartialEq, Eq)]
pub enum Call {
    Open,
    Run { budget: u32 },
    Page { records: usize },
    Peek(Location),
    Close { slot: usize },
    PageIn { kind: u8, p: u8, q: u8 },
    PageShort { fewer: usize },
}

/// Takes so many bytes off the front.
fn take<'a, const N: usize>(bytes: &mut &'a [u8]) -> Option<&'a [u8; N]> {
    let (first, rest) = bytes.split_first_chunk()?;
    *bytes = rest;
    Some(first)
}

fn take_u8(bytes: &mut &[u8]) -> Option<u8> {
    take(bytes).copied().map(u8::from_be_bytes)
}

fn take_u16(bytes: &mut &[u8]) -> Option<usize> {
    take(bytes).copied().map(|number| usize::from(u16::from_be_bytes(number)))
}

fn take_u32(bytes: &mut &[u8]) -> Option<u32> {
    take(bytes).copied().map(u32::from_be_bytes)
}

impl<'a> Script<'a> {
    /// The script of these bytes, or none where its transcript is empty.
    pub fn read(mut bytes: &'a [u8]) -> Option<Script<'a>> {
        let length = take_u16(&mut bytes)?;
        let (image, mut bytes) = bytes.split_at_checked(length)?;
        let cells = take_u16(&mut bytes)?;
        let outputs = take_u16(&mut bytes)?;
        let engine = take_u8(&mut bytes)?;
        if cells > MOST_CELLS || outputs > MOST_OUTPUTS {
            return None;
        }
        Some(Script { image, cells, outputs, engine, calls: bytes })
    }

    pub fn calls(&self) -> Calls<'a> {
        Calls { rest: self.calls }
    }
}

/// The calls of a script up to its end, which a close makes too.
#[derive(Clone, Debug)]
pub struct Calls<'a> {
    rest: &'a [u8],
}

impl Calls<'_> {
    fn read(&mut self) -> Option<Call> {
        let rest = &mut self.rest;
        Some(match take_u8(rest)? {
            0 => Call::Open,
            1 => Call::Run { budget: take_u32(rest)? },
            2 => Call::Page { records: take_u16(rest)?.min(MOST_RECORDS) },
            3 => Call::Peek(Location::Register(take_u8(rest)?)),
            4 => Call::Peek(Location::Cell(take_u32(rest)?)),
            5 => Call::Close { slot: usize::from(take_u8(rest)?).min(MOST_SLOT) },
            6 => {
                let &[kind, p, q] = take(rest)?;
                Call::PageIn { kind, p, q }
            }
            7 => Call::PageShort { fewer: take_u16(rest)? },
            _ => return None,
        })
    }
}

impl Iterator for Calls<'_> {
    type Item = Call;

    fn next(&mut self) -> Option<Call> {
        let call = self.read();
        if matches!(call, None | Some(Call::Close { .. })) {
            self.rest = &[];
        }
        call
    }
}
