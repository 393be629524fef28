//! Transcripts of cases, taken apart again: the answer to each call, and the end.

use crate::cell::Cell;
use crate::script::{Call, Script, MOST_RECORDS};

#[derive(Clone, Debug, PartialEq, Eq)]
pub enum Answer {
    Refused { number: u8, place: u16 },
    Opened,
    Ran { granted: u32 },
    Page { outputs: Vec<Cell>, end: bool },
    Peeked(Option<Cell>),
    Closed { filed: bool, slot: Vec<u8> },
}

/// What stands behind the last call.
#[derive(Clone, Copy, Debug, PartialEq, Eq)]
pub struct End {
    pub state: u8,
    pub cause: u8,
    pub pc: u32,
    pub steps: u32,
    pub hits: u32,
    pub misses: u32,
}

/// A transcript as far as it goes: each call with its answer, and the end if it is there.
#[derive(Clone, Debug, Default, PartialEq, Eq)]
pub struct Transcript {
    /// The refusal of find_order, where there was one.
    pub no_order: Option<u8>,
    pub answers: Vec<(Call, Answer)>,
    pub end: Option<End>,
}

struct Reader<'a> {
    rest: &'a [u8],
}

impl<'a> Reader<'a> {
    fn bytes(&mut self, length: usize) -> Option<&'a [u8]> {
        let (first, rest) = self.rest.split_at_checked(length)?;
        self.rest = rest;
        Some(first)
    }

    fn u8(&mut self) -> Option<u8> {
        self.bytes(1).map(|bytes| bytes[0])
    }

    fn u16(&mut self) -> Option<u16> {
        Some(u16::from(self.u8()?) << 8 | u16::from(self.u8()?))
    }

    fn u32(&mut self) -> Option<u32> {
        Some(u32::from(self.u16()?) << 16 | u32::from(self.u16()?))
    }

    fn cell(&mut self) -> Option<Cell> {
        Some(Cell { word: self.u32()?, tag: self.u16()? })
    }

    fn page(&mut self, records: usize) -> Option<Answer> {
        let visible = usize::from(self.u16()?);
        let end = self.u8()? == 1;
        let mut outputs = Vec::with_capacity(records);
        for _ in 0..records {
            outputs.push(self.cell()?);
        }
        outputs.truncate(visible);
        Some(Answer::Page { outputs, end })
    }

    fn peeked(&mut self) -> Option<Answer> {
        match self.u8()? {
            0 => Some(Answer::Peeked(None)),
            _ => Some(Answer::Peeked(Some(self.cell()?))),
        }
    }

    /// The answer to a call, or none where it is cut off or of another call.
    fn answer(&mut self, call: Call) -> Option<Answer> {
        match (self.u8()?, call) {
            (0xFF, _) => Some(Answer::Refused { number: self.u8()?, place: self.u16()? }),
            (0x00, Call::Open) => Some(Answer::Opened),
            (0x01, Call::Run { .. }) => Some(Answer::Ran { granted: self.u32()? }),
            (0x02, Call::Page { records }) => self.page(records),
            (0x02, Call::PageIn { .. } | Call::PageShort { .. }) => self.page(MOST_RECORDS),
            (0x03, Call::Peek(_)) => self.peeked(),
            (0x05, Call::Close { slot }) => {
                let filed = self.u8()? == 1;
                Some(Answer::Closed { filed, slot: self.bytes(slot)?.to_vec() })
            }
            _ => None,
        }
    }

    fn end(&mut self) -> Option<End> {
        match self.u8()? {
            0x09 => Some(End {
                state: self.u8()?,
                cause: self.u8()?,
                pc: self.u32()?,
                steps: self.u32()?,
                hits: self.u32()?,
                misses: self.u32()?,
            }),
            _ => None,
        }
    }
}

impl Transcript {
    /// Reads the transcript of a script, up to where it is cut off.
    pub fn read(script: &[u8], transcript: &[u8]) -> Transcript {
        let mut read = Transcript::default();
        let mut reader = Reader { rest: transcript };
        let Some(script) = Script::read(script) else {
            return read;
        };
        if reader.u8() != Some(0x00) {
            read.no_order = reader.u8();
            return read;
        }
        for call in script.calls() {
            match reader.answer(call) {
                Some(answer) => read.answers.push((call, answer)),
                None => return read,
            }
        }
        read.end = reader.end();
        read
    }
}
