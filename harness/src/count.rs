//! What occurred in the transcripts of many cases.

use std::collections::BTreeMap;
use std::fmt;

use model::transcript::{Answer, Transcript};

/// How often each thing occurred.
#[derive(Default)]
pub struct Counts {
    calls: BTreeMap<&'static str, u64>,
    refusals: BTreeMap<u8, u64>,
    faults: BTreeMap<u8, u64>,
    violations: BTreeMap<u8, u64>,
    halted: u64,
    hits: u64,
    misses: u64,
    end_marks: u64,
}

impl Counts {
    /// Counts what a transcript says of its script.
    pub fn add(&mut self, script: &[u8], transcript: &[u8]) {
        let read = Transcript::read(script, transcript);
        if let Some(number) = read.no_order {
            *self.refusals.entry(number).or_default() += 1;
        }
        for (_, answer) in &read.answers {
            *self.calls.entry(name(answer)).or_default() += 1;
            match answer {
                Answer::Refused { number, .. } => {
                    *self.refusals.entry(*number).or_default() += 1;
                }
                Answer::Page { end: true, .. } => self.end_marks += 1,
                _ => {}
            }
        }
        let Some(end) = read.end else { return };
        match end.state {
            2 => self.halted += 1,
            3 => *self.faults.entry(end.cause).or_default() += 1,
            4 => *self.violations.entry(end.cause).or_default() += 1,
            _ => {}
        }
        self.hits += u64::from(end.hits);
        self.misses += u64::from(end.misses);
    }
}

fn name(answer: &Answer) -> &'static str {
    match answer {
        Answer::Refused { .. } => "refused",
        Answer::Opened => "open",
        Answer::Ran { .. } => "run",
        Answer::Page { .. } => "page",
        Answer::Peeked(_) => "peek",
        Answer::Closed { filed: true, .. } => "close and file",
        Answer::Closed { filed: false, .. } => "close, filing refused",
    }
}

fn list<K: fmt::Display>(counts: &BTreeMap<K, u64>) -> String {
    let parts: Vec<String> = counts.iter().map(|(key, n)| format!("{key}: {n}")).collect();
    parts.join(", ")
}

impl fmt::Display for Counts {
    fn fmt(&self, f: &mut fmt::Formatter<'_>) -> fmt::Result {
        writeln!(f, "answers     {}", list(&self.calls))?;
        writeln!(f, "refusals    {}", list(&self.refusals))?;
        writeln!(f, "faults      {}", list(&self.faults))?;
        writeln!(f, "violations  {}", list(&self.violations))?;
        writeln!(f, "halted      {}, pages with the end mark {}", self.halted, self.end_marks)?;
        write!(f, "cache       hits {}, misses {}", self.hits, self.misses)
    }
}
