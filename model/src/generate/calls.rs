//! Random calls of a script, as bytes.

use super::program::Program;
use super::random::Random;

/// The calls of one script as they are made up.
pub struct Calls<'a> {
    random: &'a mut Random,
    program: &'a Program,
    bytes: Vec<u8>,
}

/// No run that could go on for ever gets more steps than this.
const MOST_STEPS: u32 = 20_000;

impl<'a> Calls<'a> {
    pub fn new(random: &'a mut Random, program: &'a Program) -> Self {
        Calls { random, program, bytes: Vec::new() }
    }

    fn open(&mut self) {
        self.bytes.push(0);
    }

    fn run(&mut self, budget: u32) {
        self.bytes.push(1);
        self.bytes.extend(budget.to_be_bytes());
    }

    fn page(&mut self, records: u16) {
        self.bytes.push(2);
        self.bytes.extend(records.to_be_bytes());
    }

    fn peek(&mut self) {
        if self.random.chance(50) {
            let beyond = self.random.chance(8);
            let number =
                if beyond { self.random.next() as u8 } else { self.random.below(16) as u8 };
            self.bytes.extend([3, number]);
        } else {
            let count = self.program.cells.len() as u32;
            let any = self.random.next() as u32;
            let near = self.random.below(count + 1);
            let number = if self.random.chance(5) { any } else { near };
            self.bytes.push(4);
            self.bytes.extend(number.to_be_bytes());
        }
    }

    fn close(&mut self) {
        let other = self.random.next() as u8;
        let near = self.random.within(11, 17) as u8;
        let length = self.random.pick(&[12, 12, 12, 12, 0, near, other]);
        self.bytes.extend([5, length]);
    }

    /// A page in an order by name, mostly the image's.
    fn page_in(&mut self) {
        let (kind, p, q) = self.program.name;
        let any = self.random.next().to_be_bytes();
        let (kind, p, q) = match self.random.below(10) {
            0 => (any[0], any[1], any[2]),
            1 => (any[0] % 5, any[1] % 16, any[2] % 16),
            2 => (kind, any[1] % 16, q),
            3 => (any[0] % 4, p, q),
            _ => (kind, p, q),
        };
        self.bytes.extend([6, kind, p, q]);
    }

    fn page_short(&mut self) {
        let any = self.random.next() as u16;
        let fewer = self.random.pick(&[0, 0, 1, 2, 256, any]);
        self.bytes.push(7);
        self.bytes.extend(fewer.to_be_bytes());
    }

    fn some_page(&mut self) {
        let any = self.random.below(300) as u16;
        let short = self.random.below(6) as u16;
        let records = self.random.pick(&[256, 256, any, short, short]);
        match self.random.below(10) {
            0 => self.page_in(),
            1 => self.page_short(),
            _ => self.page(records),
        }
    }

    fn some_budget(&mut self) -> u32 {
        match self.random.below(20) {
            0 | 1 => 0,
            2..=7 => self.random.within(1, 5),
            8..=13 => self.random.within(1, 100),
            14..=18 => self.random.within(100, 1_000),
            _ => self.random.within(1_000, 5_000),
        }
    }

    fn some_call(&mut self) {
        match self.random.below(20) {
            0 => self.open(),
            1..=10 => {
                let budget = self.some_budget();
                self.run(budget);
            }
            11..=14 => self.some_page(),
            _ => self.peek(),
        }
    }

    fn some_calls(&mut self, most: u32) {
        for _ in 0..self.random.below(most + 1) {
            self.some_call();
        }
    }

    /// A page with a list that is long enough, and peeks.
    fn look(&mut self, peeks: u32) {
        self.page(256);
        for _ in 0..self.random.below(peeks + 1) {
            self.peek();
        }
    }

    /// A close, and bytes behind the last call, now and then.
    fn finish(mut self) -> Vec<u8> {
        if self.random.chance(40) {
            self.close();
        }
        if self.random.chance(5) {
            let first = self.random.within(8, 255) as u8;
            self.bytes.push(first);
            self.bytes.extend(self.random.bytes(10));
        }
        self.bytes
    }

    /// Calls in any order, mostly with an open first and a longer run last.
    pub fn mixed(mut self) -> Vec<u8> {
        if self.random.chance(12) {
            self.some_calls(3);
        }
        if self.random.chance(96) {
            self.open();
        }
        self.some_calls(9);
        if self.random.chance(60) {
            let budget = self.random.within(200, 3_000);
            self.run(budget);
            self.look(5);
        }
        self.some_calls(2);
        self.finish()
    }

    /// Runs of many steps.
    pub fn long(mut self) -> Vec<u8> {
        self.open();
        let first = self.random.within(1, MOST_STEPS);
        self.run(first);
        self.some_page();
        self.run(MOST_STEPS);
        self.look(4);
        self.finish()
    }

    /// One open, run and page.
    pub fn few(mut self) -> Vec<u8> {
        self.open();
        self.run(2_000);
        self.look(2);
        self.finish()
    }

    /// Runs with the greatest budgets, for programs that end soon.
    pub fn unlimited(mut self) -> Vec<u8> {
        self.open();
        if self.random.chance(50) {
            let budget = self.random.within(0, 4);
            self.run(budget);
        }
        let greatest = self.random.pick(&[u32::MAX, u32::MAX - 1, 1 << 31]);
        self.run(greatest);
        self.look(6);
        self.some_calls(3);
        self.finish()
    }

    /// Calls that come to the end of the program where it has one.
    pub fn until_the_end(mut self) -> Vec<u8> {
        self.open();
        self.some_calls(6);
        self.run(10_000);
        self.look(10);
        self.some_calls(2);
        self.finish()
    }
}
