//! Compares the transcripts of the proved machine and the model.

use model::{generate, guarantee_holds};

use crate::count::Counts;
use crate::proved;

/// Longer than any transcript of a generated case that is not cut off on purpose.
const TRANSCRIPT_LENGTH: usize = 1 << 20;

struct Comparison {
    proved: Vec<u8>,
    model: Vec<u8>,
    counts: Counts,
    cases: u64,
    different: u64,
}

impl Comparison {
    fn new() -> Comparison {
        Comparison {
            proved: vec![0; TRANSCRIPT_LENGTH],
            model: vec![0; TRANSCRIPT_LENGTH],
            counts: Counts::default(),
            cases: 0,
            different: 0,
        }
    }

    /// Runs a script on both; answers the proved machine's transcript.
    fn run(&mut self, seed: u64, script: &[u8]) -> Vec<u8> {
        // Some buffers are too short for the whole transcript.
        let room = if seed % 16 == 15 { (seed % 4096) as usize } else { TRANSCRIPT_LENGTH };
        let proved_length = proved::run_case(script, &mut self.proved[..room]);
        let model_length = model::run_case(script, &mut self.model[..room]);
        let (proved, model) = (&self.proved[..proved_length], &self.model[..model_length]);
        self.cases += 1;
        if proved != model {
            self.different += 1;
            if self.different == 1 {
                println!("first difference: seed {seed}");
                println!("script  {}", hexadecimal(script));
                println!("proved  {}", hexadecimal(proved));
                println!("model   {}", hexadecimal(model));
            }
        }
        self.counts.add(script, proved);
        proved.to_vec()
    }
}

fn hexadecimal(bytes: &[u8]) -> String {
    bytes.iter().map(|byte| format!("{byte:02X}")).collect()
}

/// Compares so many cases and a tenth as many pairs of alike cases, and prints what occurred.
/// Answers whether all transcripts were equal and the guarantee held for each pair.
pub fn compare(cases: u64, first: u64) -> bool {
    let mut comparison = Comparison::new();
    for seed in first..first + cases {
        comparison.run(seed, &generate::case(seed));
    }
    let pairs = cases / 10;
    let mut broken = 0;
    for seed in first..first + pairs {
        let (left, right) = generate::alike_pair(seed);
        let left_seen = comparison.run(seed * 16, &left);
        let right_seen = comparison.run(seed * 16, &right);
        if !guarantee_holds(&left, &left_seen, &right, &right_seen) {
            broken += 1;
            println!("the guarantee fails for the pair of seed {seed}");
        }
    }
    println!("cases       {} ({} of them in {pairs} alike pairs)", comparison.cases, 2 * pairs);
    println!("different   {}", comparison.different);
    println!("guarantee   fails for {broken} pairs");
    println!("{}", comparison.counts);
    comparison.different == 0 && broken == 0
}
