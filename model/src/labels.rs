//! Orders of labels: which tags are labels, which flows to which, and joins.

use crate::cell::Tag;
use crate::refusal::Refusal;

/// An order of labels. Every call takes any tag.
pub trait Order {
    const KIND: u8;

    /// The parameters p and q of the order's name.
    fn parameters(&self) -> (u8, u8);

    /// A number from 1 to 65,536 that every label is below.
    fn bound(&self) -> u32;

    fn is_label(&self, tag: Tag) -> bool;

    /// Whether a tag flows to another; no, where either is no label.
    fn flows(&self, from: Tag, to: Tag) -> bool;

    /// The join of two tags; 0, where either is no label.
    fn join(&self, left: Tag, right: Tag) -> Tag;

    fn has_name(&self, kind: u8, p: u8, q: u8) -> bool {
        Self::KIND == kind && self.parameters() == (p, q)
    }
}

/// The labels 0 and 1; only 1 does not flow to 0.
#[derive(Clone, Copy, Debug, PartialEq, Eq)]
pub struct TwoPoint;

impl TwoPoint {
    pub fn new(p: u8, q: u8) -> Result<Self, Refusal> {
        if p == 0 && q == 0 {
            Ok(TwoPoint)
        } else {
            Err(Refusal::WrongOrder)
        }
    }
}

impl Order for TwoPoint {
    const KIND: u8 = 1;

    fn parameters(&self) -> (u8, u8) {
        (0, 0)
    }

    fn bound(&self) -> u32 {
        2
    }

    fn is_label(&self, tag: Tag) -> bool {
        tag < 2
    }

    fn flows(&self, from: Tag, to: Tag) -> bool {
        from <= to && to < 2
    }

    fn join(&self, left: Tag, right: Tag) -> Tag {
        if self.is_label(left) && self.is_label(right) {
            left.max(right)
        } else {
            0
        }
    }
}

/// Sets of readers from whom something is kept: bit i bars reader i.
#[derive(Clone, Copy, Debug, PartialEq, Eq)]
pub struct BarredSets {
    p: u8,
}

impl BarredSets {
    pub fn new(p: u8, q: u8) -> Result<Self, Refusal> {
        if p < 16 && q == 0 {
            Ok(BarredSets { p })
        } else {
            Err(Refusal::WrongOrder)
        }
    }
}

impl Order for BarredSets {
    const KIND: u8 = 2;

    fn parameters(&self) -> (u8, u8) {
        (self.p, 0)
    }

    fn bound(&self) -> u32 {
        2 << self.p
    }

    fn is_label(&self, tag: Tag) -> bool {
        u32::from(tag) < self.bound()
    }

    fn flows(&self, from: Tag, to: Tag) -> bool {
        self.is_label(from) && self.is_label(to) && from & !to == 0
    }

    fn join(&self, left: Tag, right: Tag) -> Tag {
        if self.is_label(left) && self.is_label(right) {
            left | right
        } else {
            0
        }
    }
}

/// Levels with sets of compartments: a label is level·2^q + set.
#[derive(Clone, Copy, Debug, PartialEq, Eq)]
pub struct Clearances {
    p: u8,
    q: u8,
}

impl Clearances {
    pub fn new(p: u8, q: u8) -> Result<Self, Refusal> {
        if p < 16 && q <= 12 {
            Ok(Clearances { p, q })
        } else {
            Err(Refusal::WrongOrder)
        }
    }

    fn level(&self, label: Tag) -> Tag {
        label >> self.q
    }

    fn set(&self, label: Tag) -> Tag {
        label & ((1 << self.q) - 1)
    }
}

impl Order for Clearances {
    const KIND: u8 = 3;

    fn parameters(&self) -> (u8, u8) {
        (self.p, self.q)
    }

    fn bound(&self) -> u32 {
        (u32::from(self.p) + 1) << self.q
    }

    fn is_label(&self, tag: Tag) -> bool {
        u32::from(tag) < self.bound()
    }

    fn flows(&self, from: Tag, to: Tag) -> bool {
        self.is_label(from)
            && self.is_label(to)
            && self.level(from) <= self.level(to)
            && self.set(from) & !self.set(to) == 0
    }

    fn join(&self, left: Tag, right: Tag) -> Tag {
        if self.is_label(left) && self.is_label(right) {
            let level = self.level(left).max(self.level(right));
            (level << self.q) | self.set(left) | self.set(right)
        } else {
            0
        }
    }
}

/// The order that a name stands for.
#[derive(Clone, Copy, Debug, PartialEq, Eq)]
pub enum NamedOrder {
    TwoPoint(TwoPoint),
    BarredSets(BarredSets),
    Clearances(Clearances),
}

impl NamedOrder {
    pub fn new(kind: u8, p: u8, q: u8) -> Result<Self, Refusal> {
        match kind {
            TwoPoint::KIND => TwoPoint::new(p, q).map(NamedOrder::TwoPoint),
            BarredSets::KIND => BarredSets::new(p, q).map(NamedOrder::BarredSets),
            Clearances::KIND => Clearances::new(p, q).map(NamedOrder::Clearances),
            _ => Err(Refusal::WrongOrder),
        }
    }
}
