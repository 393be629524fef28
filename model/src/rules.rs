//! Rules: what an engine is asked and answers, masks, and the flow rules.

use crate::cell::Tag;
use crate::labels::Order;

/// The classes of instructions that have a rule.
#[derive(Clone, Copy, Debug, PartialEq, Eq)]
pub enum Class {
    Nop,
    Const,
    Mov,
    Bin,
    Load,
    Store,
    Jump,
    Bnz,
    Goto,
    Call,
    Ret,
    Out,
    Raise,
    Halt,
}

/// How many classes have a rule.
pub const CLASSES: usize = 14;

const ALL: [Class; CLASSES] = [
    Class::Nop,
    Class::Const,
    Class::Mov,
    Class::Bin,
    Class::Load,
    Class::Store,
    Class::Jump,
    Class::Bnz,
    Class::Goto,
    Class::Call,
    Class::Ret,
    Class::Out,
    Class::Raise,
    Class::Halt,
];

const MASKS: [u8; CLASSES] = [32, 56, 44, 46, 45, 39, 36, 36, 32, 32, 1, 36, 56, 32];

impl Class {
    #[inline]
    pub fn from_number(number: u8) -> Option<Class> {
        ALL.get(usize::from(number)).copied()
    }

    pub fn number(self) -> u8 {
        self as u8
    }
}

/// The class of an instruction and the tags that its rule may use.
#[derive(Clone, Copy, Debug, Default, PartialEq, Eq)]
pub struct Query {
    pub class: u8,
    pub pc: Tag,
    pub instruction: Tag,
    pub d: Tag,
    pub a: Tag,
    pub b: Tag,
    pub memory: Tag,
}

impl Query {
    /// The six tags from the greatest weight to the least: P I D A B M.
    #[inline]
    pub fn tags(&self) -> [Tag; 6] {
        [self.pc, self.instruction, self.d, self.a, self.b, self.memory]
    }

    pub fn from_tags(class: u8, tags: [Tag; 6]) -> Query {
        let [pc, instruction, d, a, b, memory] = tags;
        Query { class, pc, instruction, d, a, b, memory }
    }
}

#[derive(Clone, Copy, Debug, Default, PartialEq, Eq)]
pub struct Grant {
    pub pc: Tag,
    pub result: Tag,
}

/// A violation with its cause, from 1 to 15.
#[derive(Clone, Copy, Debug, PartialEq, Eq)]
pub struct Violation {
    pub cause: u8,
}

pub type Verdict = Result<Grant, Violation>;

pub const NOT_A_LABEL: Violation = Violation { cause: 1 };
pub const NO_FLOW_TO_REGISTER: Violation = Violation { cause: 2 };
pub const NO_FLOW_TO_CELL: Violation = Violation { cause: 3 };
pub const NO_SUCH_CLASS: Violation = Violation { cause: 4 };

/// Which tags the rule of a class uses, as the sum of their weights.
#[inline]
pub fn mask_of(class: u8) -> Option<u8> {
    MASKS.get(usize::from(class)).copied()
}

/// Whether the tag at this place of P I D A B M is in the mask.
#[inline]
pub fn is_used(mask: u8, place: usize) -> bool {
    mask & (32 >> place) != 0
}

/// The query with 0 for each tag that its rule does not use.
pub fn cleared(query: Query) -> Query {
    let Some(mask) = mask_of(query.class) else {
        return query;
    };
    let mut tags = query.tags();
    for (place, tag) in tags.iter_mut().enumerate() {
        if !is_used(mask, place) {
            *tag = 0;
        }
    }
    Query::from_tags(query.class, tags)
}

#[inline]
fn used_tags_are_labels<O: Order>(order: &O, mask: u8, query: &Query) -> bool {
    let tags = query.tags();
    tags.iter().enumerate().all(|(place, &tag)| !is_used(mask, place) || order.is_label(tag))
}

fn grant(pc: Tag, result: Tag) -> Verdict {
    Ok(Grant { pc, result })
}

/// The verdict of the flow rules of an order.
#[inline]
pub fn judge<O: Order>(order: &O, query: &Query) -> Verdict {
    let Some(class) = Class::from_number(query.class) else {
        return Err(NO_SUCH_CLASS);
    };
    if !used_tags_are_labels(order, MASKS[class as usize], query) {
        return Err(NOT_A_LABEL);
    }
    let &Query { pc: p, instruction: i, d, a, b, memory: m, .. } = query;
    let join = |left, right| order.join(left, right);
    match class {
        Class::Nop | Class::Goto | Class::Halt => grant(p, 0),
        Class::Jump | Class::Bnz => grant(join(p, a), 0),
        Class::Call => grant(p, p),
        Class::Ret => grant(m, 0),
        Class::Out => grant(p, join(a, p)),
        Class::Store if !order.flows(join(a, p), m) => Err(NO_FLOW_TO_CELL),
        Class::Store => grant(p, join(join(a, b), p)),
        // The other classes write a register.
        _ if !order.flows(p, d) => Err(NO_FLOW_TO_REGISTER),
        Class::Const => grant(p, join(i, p)),
        Class::Mov => grant(p, join(a, p)),
        Class::Bin => grant(p, join(join(a, b), p)),
        Class::Load => grant(p, join(join(a, m), p)),
        Class::Raise => grant(p, join(join(d, i), p)),
    }
}
