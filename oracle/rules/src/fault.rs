use crate::BLACK;

/// What is wrong with a line: the step of its check that fails.
#[derive(Clone, Copy, Debug, PartialEq, Eq)]
pub enum LineFault {
    Digits,
    Blacks,
    Sum,
}

/// The first step that fails, in the sequence of the printed rules: every digit
/// once, two blacks, the target between them. The sum is looked at last, where
/// the line has nothing but its digits and two blacks.
pub fn line_fault(line: &[u8], target: u8) -> Option<LineFault> {
    let times = |value: u8| line.iter().filter(|&&cell| cell == value).count();
    let digits = line.len() as u8 - 2;
    if (1..=digits).any(|digit| times(digit) != 1) {
        Some(LineFault::Digits)
    } else if times(BLACK) != 2 {
        Some(LineFault::Blacks)
    } else if sum_between(line) != target {
        Some(LineFault::Sum)
    } else {
        None
    }
}

fn sum_between(line: &[u8]) -> u8 {
    let behind_first = line.iter().skip_while(|&&cell| cell != BLACK).skip(1);
    behind_first.take_while(|&&cell| cell != BLACK).sum()
}
