//! The guarantee: that two transcripts of alike images do not contradict each other.

use crate::cell::Cell;
use crate::script::Call;
use crate::sitting::Location;
use crate::transcript::{Answer, Transcript};

/// A granted page: its outputs and its end mark.
#[derive(Clone, Debug, PartialEq, Eq)]
pub struct SeenPage {
    pub outputs: Vec<Cell>,
    pub end: bool,
}

/// A peek that was made when the sitting was halted.
#[derive(Clone, Debug, PartialEq, Eq)]
pub struct SeenPeek {
    pub location: Location,
    pub answer: Answer,
}

/// What was seen of one side.
#[derive(Clone, Debug, Default, PartialEq, Eq)]
pub struct Seen {
    pub pages: Vec<SeenPage>,
    pub peeks: Vec<SeenPeek>,
}

/// The refusal of a peek out of range, which comes only after the end mark was found.
const OUT_OF_RANGE: u8 = 10;

impl Seen {
    /// What a transcript shows. A peek counts as made when halted if its own answer or a
    /// call before it shows the end mark.
    pub fn of(transcript: &Transcript) -> Seen {
        let mut seen = Seen::default();
        let mut marked = false;
        for (call, answer) in &transcript.answers {
            match (call, answer) {
                (_, Answer::Page { outputs, end }) => {
                    marked |= end;
                    seen.pages.push(SeenPage { outputs: outputs.clone(), end: *end });
                }
                (Call::Peek(location), answer) => {
                    marked |= match answer {
                        Answer::Peeked(_) => true,
                        Answer::Refused { number, .. } => *number == OUT_OF_RANGE,
                        _ => false,
                    };
                    if marked {
                        seen.peeks
                            .push(SeenPeek { location: *location, answer: answer.clone() });
                    }
                }
                _ => {}
            }
        }
        seen
    }

    pub fn has_marked_page(&self) -> bool {
        self.pages.iter().any(|page| page.end)
    }
}

/// Clauses 1 and 2, and that marked pages are equal.
fn pages_agree(one: &SeenPage, other: &SeenPage) -> bool {
    let (short, long) =
        if one.outputs.len() <= other.outputs.len() { (one, other) } else { (other, one) };
    let no_more = short.outputs.len() == long.outputs.len();
    long.outputs.starts_with(&short.outputs) && (!short.end || no_more)
}

/// Clause 3: peeks at one place, one on each side, have the same answer.
fn peeks_agree(left: &Seen, right: &Seen) -> bool {
    left.peeks.iter().all(|one| {
        let same_place = |other: &&SeenPeek| other.location == one.location;
        right.peeks.iter().filter(same_place).all(|other| other.answer == one.answer)
    })
}

/// Whether what was seen of two sides fits the guarantee.
pub fn agree(left: &Seen, right: &Seen) -> bool {
    let pages: Vec<&SeenPage> = left.pages.iter().chain(&right.pages).collect();
    let pages_fit = pages
        .iter()
        .enumerate()
        .all(|(place, one)| pages[..place].iter().all(|other| pages_agree(one, other)));
    let both_marked = left.has_marked_page() && right.has_marked_page();
    pages_fit && (!both_marked || peeks_agree(left, right))
}

/// Whether the transcripts of two scripts with alike images fit the guarantee. The scripts
/// are needed to tell how long each page list is and where each peek looks.
pub fn guarantee_holds(
    left_script: &[u8],
    left_transcript: &[u8],
    right_script: &[u8],
    right_transcript: &[u8],
) -> bool {
    let left = Transcript::read(left_script, left_transcript);
    let right = Transcript::read(right_script, right_transcript);
    agree(&Seen::of(&left), &Seen::of(&right))
}
