//! Generated cases cover all answers, and alike pairs fit the guarantee.

use std::collections::BTreeMap;

use model::generate::{alike_pair, case};
use model::guarantee::Seen;
use model::image::{read_code, Header};
use model::labels::{NamedOrder, Order};
use model::script::{Call, Script};
use model::transcript::{Answer, Transcript};
use model::{guarantee_holds, run_case, Cell};

const CASES: u64 = 20_000;
const PAIRS: u64 = 5_000;
const BUFFER: usize = 1 << 16;

#[derive(Default)]
struct Coverage {
    counts: BTreeMap<String, u64>,
}

impl Coverage {
    fn add(&mut self, what: String, count: u64) {
        *self.counts.entry(what).or_default() += count;
    }

    fn note(&mut self, transcript: &Transcript) {
        if let Some(number) = transcript.no_order {
            self.add(format!("refusal {number}"), 1);
        }
        for (call, answer) in &transcript.answers {
            let name = format!("{call:?}");
            let name = name.split([' ', '(']).next().unwrap();
            match answer {
                Answer::Refused { number, .. } => {
                    self.add(format!("refusal {number}"), 1);
                    self.add(format!("{name} refused {number}"), 1);
                }
                Answer::Closed { filed: false, .. } => self.add("refusal 12".into(), 1),
                Answer::Page { end: true, .. } => self.add("end mark".into(), 1),
                Answer::Peeked(Some(_)) => self.add("peek shown".into(), 1),
                Answer::Peeked(None) => self.add("peek hidden".into(), 1),
                Answer::Ran { granted } => self.add("granted steps".into(), (*granted).into()),
                _ => self.add(format!("{name} granted"), 1),
            }
        }
        self.note_end(transcript);
    }

    fn note_end(&mut self, transcript: &Transcript) {
        let closed = transcript.answers.iter().find_map(|(_, answer)| match answer {
            Answer::Closed { filed: true, slot } => Some((slot[0] >> 4, slot[0] & 15)),
            _ => None,
        });
        let end = transcript.end.map(|end| (end.state, end.cause));
        if let Some((state, cause)) = closed.or(end) {
            self.add(format!("state {state} cause {cause}"), 1);
        }
        if let Some(end) = transcript.end {
            self.add("cache hits".into(), end.hits.into());
            self.add("cache misses".into(), end.misses.into());
            self.add(format!("over 10000 steps {}", end.steps > 10_000), 1);
        }
    }
}

#[test]
fn cases_cover_all_answers() {
    let mut coverage = Coverage::default();
    let mut buffer = vec![0; BUFFER];
    let mut longest = 0;
    for seed in 0..CASES {
        let script = case(seed);
        let length = run_case(&script, &mut buffer);
        assert!(length < BUFFER, "the transcript of case {seed} is cut off");
        longest = longest.max(length);
        let transcript = Transcript::read(&script, &buffer[..length]);
        let whole = Script::read(&script).is_none() || transcript.no_order.is_some();
        assert!(whole || transcript.end.is_some(), "case {seed} cannot be read");
        coverage.note(&transcript);
    }
    println!("longest transcript: {longest}");
    for (what, count) in &coverage.counts {
        println!("{what}: {count}");
    }
    let refusals = (1..=10).chain([12]).map(|number| format!("refusal {number}"));
    let faults = (1..=6).map(|number| format!("state 3 cause {number}"));
    // Cause 1 cannot come: an opened image has labels alone, and joins keep it so.
    let violations = (2..=3).map(|number| format!("state 4 cause {number}"));
    let states = (0..=2).map(|state| format!("state {state} cause 0"));
    for what in refusals.chain(faults).chain(violations).chain(states) {
        assert!(coverage.counts.contains_key(&what), "{what} never came");
    }
    for impossible in ["state 4 cause 1", "state 4 cause 4", "refusal 11"] {
        assert!(!coverage.counts.contains_key(impossible), "{impossible} came");
    }
}

#[test]
fn transcripts_are_cut_off_at_the_end_of_the_buffer() {
    for seed in 0..200 {
        let script = case(seed);
        let mut whole = vec![0; BUFFER];
        let length = run_case(&script, &mut whole);
        for cut in [0, 1, 3, 7, length / 2, length.saturating_sub(1)] {
            let mut part = vec![0; cut];
            assert_eq!(run_case(&script, &mut part), cut.min(length));
            assert!(whole.starts_with(&part[..cut.min(length)]));
        }
    }
}

/// Whether two images are alike to the reader of the left one.
fn alike<O: Order>(order: &O, left: &[u8], right: &[u8]) -> bool {
    let (one, other) = (Header::read(left).unwrap(), Header::read(right).unwrap());
    let cell = |image: &[u8], number| {
        read_code(image, number).map(|entry| Cell { word: entry.instruction, tag: entry.tag })
    };
    let entries = one.counts.code + one.counts.cells;
    one == other
        && (0..entries).all(|number| {
            let (left, right) = (cell(left, number).unwrap(), cell(right, number).unwrap());
            let hidden =
                |cell: Cell| order.is_label(cell.tag) && !order.flows(cell.tag, one.reader);
            left == right || number >= one.counts.code && hidden(left) && hidden(right)
        })
}

fn images_alike(left: &[u8], right: &[u8]) -> bool {
    match Header::read(left).unwrap().order().unwrap() {
        NamedOrder::TwoPoint(order) => alike(&order, left, right),
        NamedOrder::BarredSets(order) => alike(&order, left, right),
        NamedOrder::Clearances(order) => alike(&order, left, right),
    }
}

#[test]
fn alike_pairs_fit_the_guarantee() {
    let mut buffers = [vec![0; BUFFER], vec![0; BUFFER]];
    let (mut different, mut marked, mut compared, mut apart) = (0, 0, 0, 0);
    for seed in 0..PAIRS {
        let (left, right) = alike_pair(seed);
        let images = [Script::read(&left).unwrap().image, Script::read(&right).unwrap().image];
        assert!(images_alike(images[0], images[1]), "pair {seed} is not alike");
        different += u32::from(images[0] != images[1]);
        let lengths = [run_case(&left, &mut buffers[0]), run_case(&right, &mut buffers[1])];
        let (one, other) = (&buffers[0][..lengths[0]], &buffers[1][..lengths[1]]);
        assert!(guarantee_holds(&left, one, &right, other), "pair {seed}");
        let read = [Transcript::read(&left, one), Transcript::read(&right, other)];
        let seen = [Seen::of(&read[0]), Seen::of(&read[1])];
        let both = seen[0].has_marked_page() && seen[1].has_marked_page();
        marked += u32::from(both && images[0] != images[1]);
        compared += u32::from(both && seen.iter().all(|side| !side.peeks.is_empty()));
        apart += u32::from(
            both && read[0].end.map(|end| end.steps) != read[1].end.map(|end| end.steps),
        );
    }
    println!("pairs {PAIRS}: different images {different}, of these both marked {marked}");
    println!("both marked with peeks {compared}, with other step counts {apart}");
    assert!(marked > PAIRS as u32 / 5 && apart > 0);
}

/// Pages and peeks that contradict each other are found.
#[test]
fn contradictions_are_found() {
    let mut found = 0;
    let mut buffer = vec![0; BUFFER];
    for seed in 0..500 {
        let (left, _) = alike_pair(seed);
        let length = run_case(&left, &mut buffer);
        let transcript = Transcript::read(&left, &buffer[..length]);
        let mut changed = transcript.clone();
        let page = changed.answers.iter_mut().find_map(|(call, answer)| match (call, answer) {
            (Call::Page { .. }, Answer::Page { outputs, .. }) => outputs.first_mut(),
            _ => None,
        });
        if let Some(output) = page {
            output.word ^= 1;
            let (left, right) = (Seen::of(&transcript), Seen::of(&changed));
            assert!(!model::guarantee::agree(&left, &right), "seed {seed}");
            found += 1;
        }
    }
    assert!(found > 50);
}
