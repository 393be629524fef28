//! Images whose run, opening or pages are measured, built from instruction words.

/// An order by its name, with a word for the printed table.
#[derive(Clone, Copy)]
pub struct Order {
    pub word: &'static str,
    name: u16,
}

/// Orders of 2, 8 and 8 labels.
pub const ORDERS: [Order; 3] = [
    Order { word: "two-point", name: 0x100 },
    Order { word: "barred sets", name: 0x220 },
    Order { word: "clearances", name: 0x331 },
];

/// A tag with the 32 bits of an instruction or a word.
type Entry = (u16, u32);

fn image(order: Order, reader: u16, code: &[Entry], cells: &[Entry]) -> Vec<u8> {
    let mut bytes = Vec::new();
    for number in [0x1000 | order.name, code.len() as u16, cells.len() as u16, reader] {
        bytes.extend(number.to_be_bytes());
    }
    for (tag, bits) in code.iter().chain(cells) {
        bytes.extend(tag.to_be_bytes());
        bytes.extend(bits.to_be_bytes());
    }
    bytes
}

/// A loop without end of eighteen instructions of ten classes, over registers and a cell with tags
/// 0 and 1. After its first turns the tags stay, and each query finds its line.
pub fn hits(order: Order) -> Vec<u8> {
    let code = [
        (0, 0x1100_0000), // 0   CONST 1 0
        (0, 0x1200_0001), // 1   CONST 2 1
        (1, 0x1300_0007), // 2   CONST 3 7, a constant of tag 1
        (0, 0x3412_0000), // 3   BIN 4 1 2, add
        (0, 0x4510_0000), // 4   LOAD 5 1
        (0, 0x3554_0004), // 5   BIN 5 5 4, exclusive or
        (0, 0x5015_0000), // 6   STORE 1 5
        (0, 0x2650_0000), // 7   MOV 6 5
        (0, 0x9000_0012), // 8   CALL 18
        (0, 0x3763_0000), // 9   BIN 7 6 3, add
        (0, 0x1800_000A), // 10  CONST 8 10
        (0, 0x3978_0007), // 11  BIN 9 7 8, less
        (0, 0x3A79_0005), // 12  BIN 10 7 9, shift left
        (0, 0x3B76_0001), // 13  BIN 11 7 6, subtract
        (0, 0x2C20_0000), // 14  MOV 12 2
        (0, 0x0000_0000), // 15  NOP
        (0, 0x70C0_0003), // 16  BNZ 12 3
        (0, 0xD000_0000), // 17  HALT
        (0, 0x3D64_0002), // 18  BIN 13 6 4, and
        (0, 0xCD00_0000), // 19  RAISE 13
        (0, 0x3ED3_0008), // 20  BIN 14 13 3, equal
        (0, 0xA000_0000), // 21  RET
    ];
    image(order, 1, &code, &[(1, 42), (1, 7)])
}

/// A loop without end in which each query is asked on the line of another query, which was asked
/// there since: the two differ in class and in the tag of the instruction. All tags but those of
/// instructions are 0.
pub fn misses(order: Order) -> Vec<u8> {
    let code = [
        (0, 0x1200_0000), // 0   CONST 2 0, an address
        (0, 0x1300_0001), // 1   CONST 3 1
        (1, 0x0000_0000), // 2   NOP, line 5
        (1, 0x3112_0000), // 3   BIN 1 1 2, line 8
        (1, 0x2430_0000), // 4   MOV 4 3, line 7
        (1, 0x4520_0000), // 5   LOAD 5 2, line 9
        (0, 0x5025_0000), // 6   STORE 2 5, line 5
        (0, 0x8000_0008), // 7   GOTO 8, line 8
        (0, 0x9000_000A), // 8   CALL 10, line 9
        (0, 0x7030_0002), // 9   BNZ 3 2, line 7
        (1, 0x5025_0000), // 10  STORE 2 5, line 10
        (0, 0xA000_0000), // 11  RET, line 10
    ];
    image(order, 0, &code, &[(0, 42)])
}

/// The most code entries and cells, with a run that halts at once.
pub fn largest(order: Order) -> Vec<u8> {
    let code = vec![(1, 0xD000_0000); 1024];
    let cells: Vec<Entry> = (0..4096).map(|number| (number % 2, u32::from(number))).collect();
    image(order, 1, &code, &cells)
}

/// Makes 256 outputs, every second one of tag 1, and halts; the reader's label is 0.
pub fn outputs(order: Order) -> Vec<u8> {
    let mut code = vec![(0, 0x1100_0005), (1, 0x1200_0006)];
    for _ in 0..128 {
        code.extend([(0, 0xB010_0000), (0, 0xB020_0000)]);
    }
    code.push((0, 0xD000_0000));
    image(order, 0, &code, &[])
}
