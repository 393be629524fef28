//! Images: the header, loading with its checks, and writing with its checks.

use crate::cell::{Cell, Tag};
use crate::labels::{NamedOrder, Order};
use crate::refusal::Refusal;

pub const HEADER_LENGTH: usize = 8;
pub const ENTRY_LENGTH: usize = 6;
pub const VERSION: u8 = 1;
pub const MOST_CODE: usize = 1_024;
pub const MOST_CELLS: usize = 4_096;

/// How many code entries and cells an image has.
#[derive(Clone, Copy, Debug, Default, PartialEq, Eq)]
pub struct Counts {
    pub code: usize,
    pub cells: usize,
}

impl Counts {
    /// Whether both counts are within their limits.
    pub fn fit(self) -> bool {
        (1..=MOST_CODE).contains(&self.code) && self.cells <= MOST_CELLS
    }

    /// How many bytes an image of these counts has.
    pub fn image_length(self) -> usize {
        HEADER_LENGTH + ENTRY_LENGTH * (self.code + self.cells)
    }
}

#[derive(Clone, Copy, Debug, Default, PartialEq, Eq)]
pub struct Header {
    pub version: u8,
    pub kind: u8,
    pub p: u8,
    pub q: u8,
    pub counts: Counts,
    pub reader: Tag,
}

impl Header {
    #[inline]
    pub fn read(image: &[u8]) -> Result<Header, Refusal> {
        let bytes: &[u8; HEADER_LENGTH] = image.first_chunk().ok_or(Refusal::ImageTooShort)?;
        let number = |at: usize| u16::from_be_bytes([bytes[at], bytes[at + 1]]);
        Ok(Header {
            version: bytes[0] >> 4,
            kind: bytes[0] & 15,
            p: bytes[1] >> 4,
            q: bytes[1] & 15,
            counts: Counts { code: usize::from(number(2)), cells: usize::from(number(4)) },
            reader: number(6),
        })
    }

    pub fn check_version(&self) -> Result<(), Refusal> {
        if self.version == VERSION {
            Ok(())
        } else {
            Err(Refusal::UnknownVersion)
        }
    }

    pub fn names<O: Order>(&self, order: &O) -> bool {
        order.has_name(self.kind, self.p, self.q)
    }

    /// The order that the header names.
    pub fn order(&self) -> Result<NamedOrder, Refusal> {
        NamedOrder::new(self.kind, self.p, self.q)
    }
}

/// A code entry: its tag and the bits of its instruction, legal or not.
#[derive(Clone, Copy, Debug, PartialEq, Eq)]
pub struct CodeEntry {
    pub tag: Tag,
    pub instruction: u32,
}

#[inline]
fn split(bytes: &[u8; ENTRY_LENGTH]) -> (Tag, u32) {
    let [t0, t1, w0, w1, w2, w3] = *bytes;
    (Tag::from_be_bytes([t0, t1]), u32::from_be_bytes([w0, w1, w2, w3]))
}

fn unite(tag: Tag, word: u32) -> [u8; ENTRY_LENGTH] {
    let [t0, t1] = tag.to_be_bytes();
    let [w0, w1, w2, w3] = word.to_be_bytes();
    [t0, t1, w0, w1, w2, w3]
}

impl CodeEntry {
    #[inline]
    pub fn read(bytes: &[u8; ENTRY_LENGTH]) -> CodeEntry {
        let (tag, instruction) = split(bytes);
        CodeEntry { tag, instruction }
    }
}

/// The whole entries behind the header, code and then cells.
pub fn entries(image: &[u8]) -> &[[u8; ENTRY_LENGTH]] {
    image.get(HEADER_LENGTH..).unwrap_or(&[]).as_chunks().0
}

/// The entry of a number as code, or none where the image does not have all six bytes of it.
pub fn read_code(image: &[u8], number: usize) -> Option<CodeEntry> {
    entries(image).get(number).map(CodeEntry::read)
}

/// Checks the reader's label and then the tags of the entries, from place 1 on.
fn check_labels<O: Order>(
    order: &O,
    reader: Tag,
    tags: impl Iterator<Item = Tag>,
) -> Result<(), Refusal> {
    match std::iter::once(reader).chain(tags).position(|tag| !order.is_label(tag)) {
        // At most 5,120 entries fit, so the place does too.
        Some(place) => Err(Refusal::NotALabel { place: place as u16 }),
        None => Ok(()),
    }
}

/// Checks an image and copies its cells into the list.
pub fn load<O: Order>(order: &O, image: &[u8], cells: &mut [Cell]) -> Result<Header, Refusal> {
    let header = Header::read(image)?;
    header.check_version()?;
    if !header.names(order) {
        return Err(Refusal::WrongOrder);
    }
    if !header.counts.fit() {
        return Err(Refusal::CountOutsideLimits);
    }
    if image.len() != header.counts.image_length() {
        return Err(Refusal::WrongImageLength);
    }
    if cells.len() != header.counts.cells {
        return Err(Refusal::WrongLength);
    }
    let entries = entries(image);
    check_labels(order, header.reader, entries.iter().map(|entry| split(entry).0))?;
    for (cell, entry) in cells.iter_mut().zip(&entries[header.counts.code..]) {
        let (tag, word) = split(entry);
        *cell = Cell { word, tag };
    }
    Ok(header)
}

/// Writes an image of these parts; the buffer must have just its length.
pub fn write<O: Order>(
    order: &O,
    reader: Tag,
    code: &[CodeEntry],
    cells: &[Cell],
    buffer: &mut [u8],
) -> Result<(), Refusal> {
    let counts = Counts { code: code.len(), cells: cells.len() };
    if !counts.fit() {
        return Err(Refusal::CountOutsideLimits);
    }
    if buffer.len() != counts.image_length() {
        return Err(Refusal::WrongLength);
    }
    let tags = code.iter().map(|entry| entry.tag).chain(cells.iter().map(|cell| cell.tag));
    check_labels(order, reader, tags)?;
    let (header, rest) = buffer.split_at_mut(HEADER_LENGTH);
    header.copy_from_slice(&header_bytes(order, counts, reader));
    let (code_bytes, cell_bytes) = rest.split_at_mut(ENTRY_LENGTH * code.len());
    for (bytes, entry) in code_bytes.chunks_exact_mut(ENTRY_LENGTH).zip(code) {
        bytes.copy_from_slice(&unite(entry.tag, entry.instruction));
    }
    for (bytes, cell) in cell_bytes.chunks_exact_mut(ENTRY_LENGTH).zip(cells) {
        bytes.copy_from_slice(&unite(cell.tag, cell.word));
    }
    Ok(())
}

fn header_bytes<O: Order>(order: &O, counts: Counts, reader: Tag) -> [u8; HEADER_LENGTH] {
    let (p, q) = order.parameters();
    let [code0, code1] = (counts.code as u16).to_be_bytes();
    let [cells0, cells1] = (counts.cells as u16).to_be_bytes();
    let [reader0, reader1] = reader.to_be_bytes();
    let name = VERSION << 4 | O::KIND;
    [name, p << 4 | q, code0, code1, cells0, cells1, reader0, reader1]
}
