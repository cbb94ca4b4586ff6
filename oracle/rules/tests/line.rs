//! The lines of the program `sheet`, by the requirements.

use std::collections::HashSet;

use rules::{LinePuzzle, line_puzzle};

fn refused(line: impl AsRef<[u8]>) -> Option<u8> {
    line_puzzle(line.as_ref()).err()
}

/// What a line of one decimal is refused by: 2 or 1 if it is a decimal.
fn is_decimal(text: &[u8]) -> bool {
    refused(text) != Some(11)
}

#[test]
fn the_sample_lines() {
    let accepted = |rows: [u8; 3], columns: [u8; 3]| {
        Ok(LinePuzzle {
            size: 3,
            rows: rows.to_vec(),
            columns: columns.to_vec(),
        })
    };
    assert_eq!(
        line_puzzle(b"3 1 0 0 1 0 0"),
        accepted([1, 0, 0], [1, 0, 0])
    );
    assert_eq!(
        line_puzzle(b"3 1 1 0 0 1 0"),
        accepted([1, 1, 0], [0, 1, 0])
    );
    assert_eq!(refused("3 2 0 0 0 0 0"), Some(3));
}

#[test]
fn a_decimal_is_how_its_number_is_written() {
    let written: HashSet<Vec<u8>> = (0..=255).map(|n: u8| n.to_string().into_bytes()).collect();
    let is_right = |text: &[u8]| assert_eq!(is_decimal(text), written.contains(text), "{text:?}");
    is_right(&[]);
    for first in 0..=255 {
        is_right(&[first]);
        // A space between two digits makes two decimals of them.
        for second in (0..=255).filter(|&byte| byte != b' ') {
            if first != b' ' {
                is_right(&[first, second]);
            }
        }
    }
    for number in 0..=70_000u32 {
        let text = number.to_string();
        is_right(text.as_bytes());
        for before in ["0", "00", "+", "-"] {
            is_right(format!("{before}{text}").as_bytes());
        }
    }
    for large in ["4294967299", "18446744073709551619", "1e1", "3.0", "0x3"] {
        is_right(large.as_bytes());
    }
}

#[test]
fn one_space_stands_between_decimals_and_nothing_else() {
    assert_eq!(refused("2 0 0 0 0"), None);
    for line in [
        "",
        " ",
        " 2 0 0 0 0",
        "2 0 0 0 0 ",
        "2  0 0 0 0",
        "2\t0 0 0 0",
        "2 0 0 0 0\r",
        "2 0 0 0 0\n",
        "2 0 0\n0 0",
        "2 0 0 0 0\0",
        "2,0,0,0,0",
        "2 0 0 0 00",
        "02 0 0 0 0",
        "2 0 0 0 256",
        "2 0 0 0 -0",
    ] {
        assert_eq!(refused(line), Some(11), "{line:?}");
    }
    assert_eq!(refused(b"2 0 0 0 0\xff"), Some(11));
    assert_eq!(refused("2\u{a0}0 0 0 0"), Some(11));
}

#[test]
fn eighty_bytes_are_let_by_and_no_more() {
    // A one-digit size and targets of one digit: an odd number of bytes.
    let of_length = |length: usize| ["2", &" 0".repeat((length - 1) / 2)].concat();
    assert_eq!(of_length(79).len(), 79);
    assert_eq!(refused(of_length(79)), Some(2));
    assert_eq!(refused(of_length(79) + "0"), Some(11), "a leading zero");
    assert_eq!(refused(of_length(77) + " 10"), Some(2), "80 bytes");
    assert_eq!(refused(of_length(81)), Some(11));
    assert_eq!(refused(of_length(79) + " 10"), Some(11), "82 bytes");
    assert_eq!(refused(of_length(256 + 9)), Some(11));
    assert_eq!(refused(of_length(65_536 + 9)), Some(11));
}

#[test]
fn the_numbers_come_in_their_order() {
    // Each line has all later faults as well.
    assert_eq!(refused("10 29 256"), Some(11));
    for size in [0, 1, 10, 255] {
        assert_eq!(refused(format!("{size}")), Some(1));
        assert_eq!(refused(format!("{size} 29")), Some(1));
    }
    for size in 2..=9 {
        let line = |targets: usize, target: usize| {
            [size.to_string(), format!(" {target}").repeat(targets)].concat()
        };
        let greatest = rules::greatest_target(size);
        for targets in (0..30).filter(|&targets| targets != 2 * size) {
            let line = line(targets, greatest + 1);
            let number = if line.len() > 80 { 11 } else { 2 };
            assert_eq!(refused(&line), Some(number), "{line}");
        }
        assert_eq!(refused(line(2 * size, greatest + 1)), Some(3));
        assert_eq!(refused(line(2 * size, greatest)), None);
    }
}

#[test]
fn rows_come_before_columns() {
    let puzzle = line_puzzle(b"4 0 1 2 3 3 2 1 0").expect("accepted");
    assert_eq!(puzzle.rows, [0, 1, 2, 3]);
    assert_eq!(puzzle.columns, [3, 2, 1, 0]);
}
