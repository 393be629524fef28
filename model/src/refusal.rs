//! Refusals: why a call was not carried out, with their numbers and places.

#[derive(Clone, Copy, Debug, PartialEq, Eq)]
pub enum Refusal {
    ImageTooShort,
    UnknownVersion,
    WrongOrder,
    CountOutsideLimits,
    WrongImageLength,
    NotALabel { place: u16 },
    WrongLength,
    WrongState,
    NoEndMark,
    OutOfRange,
    WrongTableSize,
    WrongSlotLength,
}

impl Refusal {
    /// The number that users are told.
    pub fn number(self) -> u8 {
        match self {
            Refusal::ImageTooShort => 1,
            Refusal::UnknownVersion => 2,
            Refusal::WrongOrder => 3,
            Refusal::CountOutsideLimits => 4,
            Refusal::WrongImageLength => 5,
            Refusal::NotALabel { .. } => 6,
            Refusal::WrongLength => 7,
            Refusal::WrongState => 8,
            Refusal::NoEndMark => 9,
            Refusal::OutOfRange => 10,
            Refusal::WrongTableSize => 11,
            Refusal::WrongSlotLength => 12,
        }
    }

    /// The place of the tag that is no label; other refusals have none.
    pub fn place(self) -> Option<u16> {
        match self {
            Refusal::NotALabel { place } => Some(place),
            _ => None,
        }
    }
}
