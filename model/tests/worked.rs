//! The worked values of the documentation.

use std::fs;

use model::engines::{
    compile, flow_cache, line_of, row_count, Engine, FlowEngine, RuleCache, Table,
};
use model::image::{Header, ENTRY_LENGTH};
use model::instructions::{binary, Instruction};
use model::labels::{BarredSets, Clearances, NamedOrder, Order, TwoPoint};
use model::machine::{Machine, Outcome, Stop};
use model::refusal::Refusal;
use model::rules::{cleared, judge, Grant, Query, Violation};
use model::sitting::{Location, Page, Sitting, State};
use model::{show, Cell};

fn query(class: u8, tags: [u16; 6]) -> Query {
    Query::from_tags(class, tags)
}

#[test]
fn orders() {
    let readers = BarredSets::new(2, 0).unwrap();
    assert_eq!(readers.join(1, 4), 5);
    assert!(readers.flows(5, 7) && !readers.flows(5, 6));
    let clearances = Clearances::new(3, 3).unwrap();
    assert_eq!(clearances.join(9, 20), 21);
    assert!(!clearances.flows(20, 9));
    assert_eq!(BarredSets::new(15, 0).unwrap().bound(), 65_536);
    assert_eq!(Clearances::new(15, 12).unwrap().bound(), 65_536);
    for (kind, p, q) in
        [(0, 0, 0), (4, 0, 0), (1, 1, 0), (1, 0, 1), (2, 0, 1), (3, 0, 13), (2, 16, 0)]
    {
        assert_eq!(NamedOrder::new(kind, p, q), Err(Refusal::WrongOrder));
    }
}

fn obeys_laws<O: Order>(order: &O) {
    let labels: Vec<u16> =
        (0..order.bound() as u16 + 1).filter(|&tag| order.is_label(tag)).collect();
    let outside = order.bound() as u16;
    assert!(!order.is_label(outside) && !order.flows(outside, outside));
    assert_eq!((order.join(outside, 0), order.join(0, outside)), (0, 0));
    for &a in &labels {
        assert!(order.flows(a, a) && order.flows(0, a));
        for &b in &labels {
            let join = order.join(a, b);
            assert!(order.is_label(join) && order.flows(a, join) && order.flows(b, join));
            assert!(a == b || !(order.flows(a, b) && order.flows(b, a)));
            for &c in &labels {
                assert!(!(order.flows(a, b) && order.flows(b, c)) || order.flows(a, c));
                assert!(!(order.flows(a, c) && order.flows(b, c)) || order.flows(join, c));
            }
        }
    }
}

#[test]
fn laws_of_orders() {
    obeys_laws(&TwoPoint::new(0, 0).unwrap());
    for p in 0..5 {
        obeys_laws(&BarredSets::new(p, 0).unwrap());
        for q in 0..4 {
            obeys_laws(&Clearances::new(p, q).unwrap());
        }
    }
}

#[test]
fn table_rows() {
    let counts: Vec<usize> = (1..=8).map(|labels| row_count(labels).unwrap()).collect();
    assert_eq!(counts, [14, 94, 366, 1_028, 2_350, 4_674, 8_414, 14_056]);
    for labels in [0, 9] {
        assert_eq!(row_count(labels), Err(Refusal::WrongTableSize));
    }
    let mut rows = [7; 94];
    assert_eq!(compile(&TwoPoint, &mut rows[..93]), Err(Refusal::WrongTableSize));
    assert_eq!(rows, [7; 94]);
    compile(&TwoPoint, &mut rows).unwrap();
    let table = Table::new(2, &rows).unwrap();
    // MOV starts at row 10; P 0, D 1, A 1 are the digits 011.
    assert_eq!(table.row_of(&query(2, [0, 9, 1, 1, 9, 9])), Ok(13));
    assert_eq!(rows[13], 1);
    assert!(rows.contains(&536_870_912) && rows.contains(&16_384));
}

/// Every query of small tags, with a tag above the bound and classes without a rule.
fn engines_agree<O: Order + Copy>(order: O) {
    let labels = order.bound();
    let mut rows = vec![0; row_count(labels).unwrap()];
    compile(&order, &mut rows).unwrap();
    let mut table = Table::new(labels, &rows).unwrap();
    let mut cache = flow_cache(order);
    let mut upper = RuleCache::new(RuleCache::new(table.clone()));
    let base = labels + 1;
    for number in 0..16 * base.pow(6) {
        let mut rest = number / 16;
        let tags = [0; 6].map(|_: u16| {
            let tag = (rest % base) as u16;
            rest /= base;
            tag
        });
        let asked = query((number % 16) as u8, tags);
        let verdict = judge(&order, &asked);
        assert_eq!(judge(&order, &cleared(asked)), verdict);
        assert_eq!(FlowEngine::new(order).ask(asked), verdict);
        assert_eq!(table.ask(asked), verdict);
        for _ in 0..2 {
            assert_eq!(cache.ask(asked), verdict);
            assert_eq!(upper.ask(asked), verdict);
        }
    }
}

#[test]
fn all_engines_answer_alike() {
    engines_agree(TwoPoint);
    engines_agree(BarredSets::new(1, 0).unwrap());
    engines_agree(Clearances::new(2, 0).unwrap());
    engines_agree(Clearances::new(2, 1).unwrap());
}

#[test]
fn cache_counts_and_lines() {
    let mut cache = flow_cache(TwoPoint);
    let secret = query(1, [0, 1, 0, 0, 0, 0]);
    assert_eq!(cache.ask(query(1, [0; 6])), Ok(Grant { pc: 0, result: 0 }));
    assert_eq!(cache.ask(secret), Ok(Grant { pc: 0, result: 1 }));
    assert_eq!(cache.ask(secret), Ok(Grant { pc: 0, result: 1 }));
    assert_eq!(cache.ask(query(1, [1, 0, 0, 0, 0, 0])), Err(Violation { cause: 2 }));
    assert_eq!(cache.counts(), (1, 3));
    assert_eq!(line_of(&query(1, [0, 64, 0, 0, 0, 0])), 1);
    assert_eq!(line_of(&query(255, [u16::MAX; 6])), (255 + 56 * 65_535) % 64);
}

#[test]
fn causes() {
    assert_eq!(judge(&TwoPoint, &query(14, [9; 6])), Err(Violation { cause: 4 }));
    assert_eq!(judge(&TwoPoint, &query(0, [2, 0, 0, 0, 0, 0])), Err(Violation { cause: 1 }));
    assert_eq!(judge(&TwoPoint, &query(0, [0, 2, 2, 2, 2, 2])), Ok(Grant { pc: 0, result: 0 }));
    assert_eq!(judge(&TwoPoint, &query(5, [0, 0, 0, 1, 0, 0])), Err(Violation { cause: 3 }));
}

#[test]
fn functions_and_decoding() {
    assert_eq!(binary(5, 1, 31), Some(2_147_483_648));
    assert_eq!(
        (binary(5, 1, 32), binary(6, 1, 32), binary(5, 1, u32::MAX)),
        (Some(0), Some(0), Some(0))
    );
    assert_eq!(
        (binary(1, 0, 1), binary(7, 1, 2), binary(8, 1, 2)),
        (Some(u32::MAX), Some(1), Some(0))
    );
    assert_eq!(binary(9, 0, 0), None);
    assert!(Instruction::decode(0x3123_0008).is_some());
    for bits in
        [0x3123_0009, 0xE000_0000, 0xF000_0000, 1, 0x1010_0000, 0xA100_0000, 0xD000_0001]
    {
        assert_eq!(Instruction::decode(bits), None);
    }
}

#[test]
fn worked_image() {
    let image = fs::read("../examples/worked.image").unwrap();
    assert_eq!(show(&image), "out 5 0\nend\nhalted pc 6 steps 9\ncache hits 1 misses 8\n");
    let zero = fs::read("../examples/worked-zero.image").unwrap();
    assert!(show(&zero).contains("halted pc 6 steps 10"));
    let unlabelled = fs::read("../examples/unlabelled-cell.image").unwrap();
    assert_eq!(show(&unlabelled), "refused 6 11\n");
    assert_eq!(model::run_image(&image, 3, 100), 9);
    assert_eq!(model::open_many(&image, 10), 10);
    assert_eq!(model::page_many(&image, 100, 10), 10);
}

#[test]
fn worked_sitting() {
    let image = fs::read("../examples/worked.image").unwrap();
    let (mut cells, mut outputs) = ([Cell::default()], [Cell::default(); 4]);
    let mut list = [Cell::default(); 4];
    let mut sitting = Sitting::new();
    assert_eq!(*sitting.header(), Header::default());
    sitting.open(&TwoPoint, &image, &mut cells, &outputs).unwrap();
    let mut engine = flow_cache(TwoPoint);
    assert_eq!(sitting.run(&mut engine, 4, &image, &mut cells, &mut outputs), Ok(4));
    assert_eq!(sitting.state(), State::Running);
    assert_eq!(sitting.run(&mut engine, 100, &image, &mut cells, &mut outputs), Ok(5));
    let page = sitting.page(&TwoPoint, &image, &cells, &outputs, &mut list);
    assert_eq!(page, Ok(Page { visible: 1, end: true }));
    assert_eq!(list[0], Cell { word: 5, tag: 0 });
    let peek = |location| sitting.peek(&TwoPoint, location, &image, &cells, &outputs);
    assert_eq!(peek(Location::Register(4)), Ok(Some(Cell { word: 5, tag: 0 })));
    assert_eq!(peek(Location::Cell(0)), Ok(None));
    assert_eq!(peek(Location::Cell(1)), Err(Refusal::OutOfRange));
    assert_eq!(peek(Location::Register(16)), Err(Refusal::OutOfRange));
    let mut slot = [0; 12];
    sitting.close().file(&mut slot).unwrap();
    assert_eq!(slot, [0x20, 0, 0, 0, 0, 0, 0, 6, 0, 0, 0, 9]);
}

/// No image has a cell whose tag is no label, so this cause needs cells from elsewhere.
#[test]
fn machine_meets_a_tag_that_is_no_label() {
    let code: [[u8; ENTRY_LENGTH]; 1] = [[0, 0, 0x42, 0x10, 0, 0]];
    let mut cells = [Cell { word: 0, tag: 2 }];
    let mut machine = Machine::default();
    let mut engine = FlowEngine::new(TwoPoint);
    let (outcome, granted) = machine.run(&code, &mut cells, &mut [], &mut engine, 9);
    let violation = Violation { cause: 1 };
    assert_eq!((outcome, granted), (Outcome::Stopped(Stop::Violation(violation)), 0));
}

/// An image in hexadecimal, with xx for a byte of the secret.
fn image(hex: &str, secret: u8) -> Vec<u8> {
    let whole = hex.replace("xx", &format!("{secret:02X}"));
    let digits: Vec<u8> = whole.bytes().filter(|byte| !byte.is_ascii_whitespace()).collect();
    let pair =
        |pair: &[u8]| u8::from_str_radix(std::str::from_utf8(pair).unwrap(), 16).unwrap();
    digits.chunks(2).map(pair).collect()
}

#[test]
fn images_of_the_guarantee_that_differ() {
    let raised =
        "1100000900010000 000011000000 000042100000 000013000001 000090000006 0000B0300000
        0000D0000000 000070200008 000013000000 0000A0000000 0001000000xx";
    assert!(show(&image(raised, 0)).starts_with("violation 2 pc 7"));
    assert!(show(&image(raised, 1)).starts_with("out 1 0\nend\nhalted"));
    let store =
        "1100000700030000 000011000000 000042100000 000050230000 000014000001 000045400000
        0000B0500000 0000D0000000 0001000000xx 000000000007 000000000007";
    assert!(show(&image(store, 1)).starts_with("violation 3 pc 2"));
    assert!(show(&image(store, 2)).starts_with("violation 3 pc 2"));
    let mark =
        "1100000900010000 000011000000 000042100000 000090000006 000013000005 0000B0300000
        0000D0000000 000070200008 0000D0000000 0000A0000000 0001000000xx";
    assert!(show(&image(mark, 0)).starts_with("halted pc 7"));
    assert!(show(&image(mark, 1)).starts_with("out 5 0\nend\nhalted pc 5"));
}

#[test]
fn images_of_the_guarantee_that_look_the_same() {
    let cached =
        "1260000900010000 000011000000 000042100000 000090000006 004014000009 0000B0400000
        0000D0000000 000070200008 000012000000 0000A0000000 0040000000xx";
    let lines = "1100000B00010000 000011000000 000040100000 000045100000 000013000005 000090000008
        000114000009 0000B0400000 0000D0000000 00007050000A 000025600000 0000A0000000 0001000000xx";
    let hidden =
        "1100000400010000 000011000000 000042100000 0000B0200000 0000D0000000 0001000000xx";
    for hex in [cached, lines, hidden] {
        for secret in [0, 1, 0x2A] {
            assert!(show(&image(hex, secret)).starts_with("end\nhalted"));
        }
    }
}
