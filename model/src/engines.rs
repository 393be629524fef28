//! Engines: the flow engine, the compiled table, the rule cache, and choosing one by number.

use crate::labels::Order;
use crate::refusal::Refusal;
use crate::rules::{
    is_used, judge, mask_of, Grant, Query, Verdict, Violation, CLASSES, NOT_A_LABEL,
    NO_SUCH_CLASS,
};

pub trait Engine {
    fn ask(&mut self, query: Query) -> Verdict;
}

/// Answers by the flow rules of its order.
#[derive(Clone, Debug)]
pub struct FlowEngine<O> {
    order: O,
}

impl<O: Order> FlowEngine<O> {
    pub fn new(order: O) -> Self {
        FlowEngine { order }
    }

    pub fn into_order(self) -> O {
        self.order
    }
}

impl<O: Order> Engine for FlowEngine<O> {
    #[inline]
    fn ask(&mut self, query: Query) -> Verdict {
        judge(&self.order, &query)
    }
}

/// The most labels that a table can have.
pub const MOST_TABLE_LABELS: u32 = 8;

/// The first row of each class, and how many rows there are.
fn layout(labels: u32) -> ([u32; CLASSES], u32) {
    let mut starts = [0; CLASSES];
    let mut next = 0;
    for (class, start) in starts.iter_mut().enumerate() {
        *start = next;
        let used = mask_of(class as u8).map_or(0, u8::count_ones);
        next += labels.pow(used);
    }
    (starts, next)
}

/// How many rows a table for so many labels has.
pub fn row_count(labels: u32) -> Result<usize, Refusal> {
    if (1..=MOST_TABLE_LABELS).contains(&labels) {
        Ok(layout(labels).1 as usize)
    } else {
        Err(Refusal::WrongTableSize)
    }
}

fn pack(verdict: Verdict) -> u32 {
    match verdict {
        Ok(grant) => u32::from(grant.pc) << 14 | u32::from(grant.result),
        Err(violation) => u32::from(violation.cause) << 28,
    }
}

#[inline]
fn unpack(row: u32) -> Verdict {
    match (row >> 28) as u8 {
        0 => Ok(Grant { pc: (row >> 14 & 0x3FFF) as u16, result: (row & 0x3FFF) as u16 }),
        cause => Err(Violation { cause }),
    }
}

/// Answers by lent rows, one for each class and choice of used tags.
#[derive(Clone, Debug)]
pub struct Table<'a> {
    labels: u32,
    starts: [u32; CLASSES],
    rows: &'a [u32],
}

impl<'a> Table<'a> {
    pub fn new(labels: u32, rows: &'a [u32]) -> Result<Self, Refusal> {
        if row_count(labels)? != rows.len() {
            return Err(Refusal::WrongTableSize);
        }
        let (starts, _) = layout(labels);
        Ok(Table { labels, starts, rows })
    }

    /// The row of a query, or the violation of one that has no row.
    #[inline]
    pub fn row_of(&self, query: &Query) -> Result<usize, Violation> {
        let mask = mask_of(query.class).ok_or(NO_SUCH_CLASS)?;
        let mut number = 0;
        for (place, tag) in query.tags().into_iter().enumerate() {
            if is_used(mask, place) {
                let digit = u32::from(tag);
                if digit >= self.labels {
                    return Err(NOT_A_LABEL);
                }
                number = number * self.labels + digit;
            }
        }
        Ok((self.starts[usize::from(query.class)] + number) as usize)
    }
}

impl Engine for Table<'_> {
    #[inline]
    fn ask(&mut self, query: Query) -> Verdict {
        let row = self.row_of(&query)?;
        unpack(self.rows[row])
    }
}

/// The query whose used tags are the digits of a number, the others 0.
fn query_of_row(class: u8, labels: u32, mut number: u32) -> Query {
    let mask = mask_of(class).unwrap_or(0);
    let mut tags = [0; 6];
    for place in (0..6).rev() {
        if is_used(mask, place) {
            tags[place] = (number % labels) as u16;
            number /= labels;
        }
    }
    Query::from_tags(class, tags)
}

/// Fills the rows with the verdicts of an order's flow rules.
pub fn compile<O: Order>(order: &O, rows: &mut [u32]) -> Result<(), Refusal> {
    let labels = order.bound();
    if row_count(labels)? != rows.len() {
        return Err(Refusal::WrongTableSize);
    }
    let (starts, total) = layout(labels);
    for class in 0..CLASSES {
        let start = starts[class];
        let end = starts.get(class + 1).copied().unwrap_or(total);
        for number in 0..end - start {
            let query = query_of_row(class as u8, labels, number);
            rows[(start + number) as usize] = pack(judge(order, &query));
        }
    }
    Ok(())
}

pub fn compiled_table<'a, O: Order>(
    order: &O,
    rows: &'a mut [u32],
) -> Result<Table<'a>, Refusal> {
    compile(order, rows)?;
    Table::new(order.bound(), rows)
}

const LINES: usize = 64;

/// Remembers the grants of an engine below, one for each line.
#[derive(Clone, Debug)]
pub struct RuleCache<E> {
    below: E,
    lines: [Option<(Query, Grant)>; LINES],
    hits: u32,
    misses: u32,
}

/// The line that a query may stand in.
#[inline]
pub fn line_of(query: &Query) -> usize {
    let sum = u32::from(query.class)
        + 3 * u32::from(query.pc)
        + 5 * u32::from(query.instruction)
        + 7 * u32::from(query.d)
        + 11 * u32::from(query.a)
        + 13 * u32::from(query.b)
        + 17 * u32::from(query.memory);
    sum as usize % LINES
}

impl<E: Engine> RuleCache<E> {
    pub fn new(below: E) -> Self {
        RuleCache { below, lines: [None; LINES], hits: 0, misses: 0 }
    }

    /// Hits and misses.
    pub fn counts(&self) -> (u32, u32) {
        (self.hits, self.misses)
    }

    pub fn into_engine(self) -> E {
        self.below
    }
}

impl<E: Engine> Engine for RuleCache<E> {
    #[inline]
    fn ask(&mut self, query: Query) -> Verdict {
        let line = &mut self.lines[line_of(&query)];
        if let Some((held, grant)) = line {
            if *held == query {
                self.hits = self.hits.saturating_add(1);
                return Ok(*grant);
            }
        }
        self.misses = self.misses.saturating_add(1);
        let grant = self.below.ask(query)?;
        *line = Some((query, grant));
        Ok(grant)
    }
}

/// A cache over the flow engine of an order.
pub fn flow_cache<O: Order>(order: O) -> RuleCache<FlowEngine<O>> {
    RuleCache::new(FlowEngine::new(order))
}

/// Something to be done with an engine of whatever type was chosen.
pub trait EngineTask {
    type Answer;

    fn run<E: Engine>(self, engine: &mut E) -> Self::Answer;
}

/// Makes the engine of a number (0 flow, 1 cached flow, 2 table, 3 cached table) over an
/// order, and does the task with it. A table is replaced by the flow engine where the bound
/// is above 8, and any other number stands for 0. Answers the cache's counts too.
pub fn with_engine<O: Order, T: EngineTask>(
    number: u8,
    order: O,
    task: T,
) -> (T::Answer, (u32, u32)) {
    let cached = matches!(number, 1 | 3);
    let mut rows = match row_count(order.bound()) {
        Ok(count) if matches!(number, 2 | 3) => vec![0; count],
        _ => Vec::new(),
    };
    // No rows, no table: compiling is refused then.
    match compiled_table(&order, &mut rows) {
        Ok(table) if cached => with_cache(table, task),
        Ok(mut table) => (task.run(&mut table), (0, 0)),
        Err(_) if cached => with_cache(FlowEngine::new(order), task),
        Err(_) => (task.run(&mut FlowEngine::new(order)), (0, 0)),
    }
}

fn with_cache<E: Engine, T: EngineTask>(below: E, task: T) -> (T::Answer, (u32, u32)) {
    let mut cache = RuleCache::new(below);
    let answer = task.run(&mut cache);
    (answer, cache.counts())
}
