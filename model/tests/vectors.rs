//! The table of images gives exactly what is expected of it.

use std::fs;

/// The bytes of an image line: words in hexadecimal, with *N for N times.
fn image(line: &str) -> Vec<u8> {
    let mut bytes = Vec::new();
    for word in line.split_whitespace() {
        let (digits, times) = match word.split_once('*') {
            Some((digits, times)) => (digits, times.parse().unwrap()),
            None => (word, 1),
        };
        for _ in 0..times {
            for at in (0..digits.len()).step_by(2) {
                bytes.push(u8::from_str_radix(&digits[at..at + 2], 16).unwrap());
            }
        }
    }
    bytes
}

#[test]
fn table_gives_expected_screens() {
    let table = fs::read_to_string("../crates/vectors/stdin").unwrap();
    let expected = fs::read_to_string("../crates/vectors/stdout").unwrap();
    let mut printed = String::new();
    for line in table.lines() {
        match line.strip_prefix("image") {
            Some(rest) => printed += &(model::show(&image(rest)) + "\n"),
            None => printed += &(line.to_string() + "\n"),
        }
    }
    for (number, (ours, theirs)) in printed.lines().zip(expected.lines()).enumerate() {
        assert_eq!(ours, theirs, "line {}", number + 1);
    }
    assert_eq!(printed, expected);
}
