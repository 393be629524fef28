//! Writing and loading fit together, and both make their checks in their order.

use model::generate;
use model::image::{load, read_code, write, CodeEntry, Header};
use model::labels::{NamedOrder, Order, TwoPoint};
use model::refusal::Refusal;
use model::Cell;

/// Loads and writes an image again; answers whether it was granted.
fn survives<O: Order>(order: &O, header: &Header, image: &[u8]) -> bool {
    let untouched = Cell { word: 7, tag: 7 };
    let mut cells = vec![untouched; header.counts.cells];
    if load(order, image, &mut cells).is_err() {
        assert!(cells.iter().all(|cell| *cell == untouched));
        return false;
    }
    let code: Vec<CodeEntry> =
        (0..header.counts.code).map(|number| read_code(image, number).unwrap()).collect();
    let mut written = vec![0; image.len()];
    write(order, header.reader, &code, &cells, &mut written).unwrap();
    assert_eq!(written, image);
    let mut again = vec![untouched; cells.len()];
    assert_eq!(load(order, &written, &mut again), Ok(*header));
    assert_eq!(again, cells);
    true
}

#[test]
fn load_then_write_gives_the_same_bytes() {
    let mut granted = 0;
    for seed in 0..3_000 {
        let image = generate::image(seed);
        let Ok(header) = Header::read(&image) else { continue };
        granted += u32::from(match header.order() {
            Ok(NamedOrder::TwoPoint(order)) => survives(&order, &header, &image),
            Ok(NamedOrder::BarredSets(order)) => survives(&order, &header, &image),
            Ok(NamedOrder::Clearances(order)) => survives(&order, &header, &image),
            Err(_) => false,
        });
    }
    assert!(granted > 2_400, "only {granted} images were valid");
}

#[test]
fn checks_of_writing() {
    let halt = CodeEntry { tag: 0, instruction: 0xD000_0000 };
    let bad = CodeEntry { tag: 2, ..halt };
    let cell = Cell { word: 1, tag: 1 };
    let mut buffer = [9; 20];
    let mut refused = |reader, code: &[CodeEntry], cells: &[Cell], length: usize| {
        let answer = write(&TwoPoint, reader, code, cells, &mut buffer[..length]);
        assert_eq!(buffer, [9; 20]);
        answer.unwrap_err()
    };
    assert_eq!(refused(2, &[], &[], 3), Refusal::CountOutsideLimits);
    assert_eq!(refused(2, &vec![halt; 1_025], &[], 3), Refusal::CountOutsideLimits);
    assert_eq!(refused(2, &[halt], &vec![cell; 4_097], 3), Refusal::CountOutsideLimits);
    assert_eq!(refused(2, &[bad], &[cell], 19), Refusal::WrongLength);
    assert_eq!(refused(2, &[bad], &[cell], 20), Refusal::NotALabel { place: 0 });
    assert_eq!(
        refused(1, &[bad], &[Cell { word: 0, tag: 9 }], 20),
        Refusal::NotALabel { place: 1 }
    );
    assert_eq!(
        refused(1, &[halt], &[Cell { word: 0, tag: 9 }], 20),
        Refusal::NotALabel { place: 2 }
    );
    write(&TwoPoint, 1, &[halt], &[cell], &mut buffer).unwrap();
    assert_eq!(buffer, [0x11, 0, 0, 1, 0, 1, 0, 1, 0, 0, 0xD0, 0, 0, 0, 0, 1, 0, 0, 0, 1]);
}

#[test]
fn order_of_the_checks_of_loading() {
    let refused = |image: &[u8], cells: usize| {
        load(&TwoPoint, image, &mut vec![Cell::default(); cells]).unwrap_err().number()
    };
    assert_eq!(refused(&[0x21, 0, 0, 0, 0, 0, 0], 9), 1);
    assert_eq!(refused(&[0x22, 0, 0, 0, 0, 0, 0, 9], 9), 2);
    assert_eq!(refused(&[0x12, 0, 0, 0, 0, 0, 0, 9], 9), 3);
    assert_eq!(refused(&[0x11, 0, 0, 0, 0, 0, 0, 9], 9), 4);
    assert_eq!(refused(&[0x11, 0, 0, 1, 0, 0, 0, 9], 9), 5);
    assert_eq!(refused(&[0x11, 0, 0, 1, 0, 0, 0, 9, 0, 9, 0, 0, 0, 0], 9), 7);
    assert_eq!(refused(&[0x11, 0, 0, 1, 0, 0, 0, 9, 0, 9, 0, 0, 0, 0], 0), 6);
}
