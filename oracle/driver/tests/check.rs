//! Which answers to lines are right.

const LINES: &str = "3 1 0 0 1 0 0\n3 0 1 0 0 1 0\n3 1 1 0 0 1 0\n3 2 0 0 0 0 0\n";
const ANSWERS: [&str; 4] = [
    "unique #1#/1##/##1\n",
    "multiple 1##/#1#/##1\n",
    "unsolvable\n",
    "refused 3\n",
];

/// The number of lines, or that of the first line whose answer is wrong.
fn checked(lines: &str, answers: &str) -> Result<usize, usize> {
    let mut by_rust = Vec::new();
    driver::answer_lines(lines.as_bytes(), &mut by_rust).expect("memory can be written");
    let checked = driver::check(lines.as_bytes(), &by_rust, answers.as_bytes());
    checked.map_err(|wrong| wrong.number)
}

/// The sample with another answer to one of its lines.
fn with(number: usize, answer: &str) -> Result<usize, usize> {
    let mut answers = ANSWERS;
    answers[number - 1] = answer;
    checked(LINES, &answers.concat())
}

#[test]
fn the_rust_s_answers_are_right() {
    assert_eq!(checked(LINES, &ANSWERS.concat()), Ok(4));
    assert_eq!(checked(LINES.trim_end(), &ANSWERS.concat()), Ok(4));
    assert_eq!(checked("", ""), Ok(0));
    assert_eq!(checked("\n", "refused 11\n"), Ok(1));
}

#[test]
fn the_first_grid_of_several_is_right_and_no_other() {
    assert_eq!(with(2, "multiple ##1/#1#/1##\n"), Err(2));
    // Here it is the other one that the Rust shows.
    let line = "4 3 0 0 0 3 0 0 0\n";
    assert_eq!(checked(line, "multiple #12#/12##/2##1/##12\n"), Ok(1));
    assert_eq!(checked(line, "multiple #21#/21##/1##2/##21\n"), Err(1));
}

#[test]
fn a_wrong_grid_is_refused() {
    // Of other targets, of no puzzle, of another size, and none.
    assert_eq!(with(2, "multiple #1#/1##/##1\n"), Err(2));
    assert_eq!(with(2, "multiple 1##/1##/##1\n"), Err(2));
    assert_eq!(with(2, "multiple ##/##\n"), Err(2));
    assert_eq!(with(2, "multiple \n"), Err(2));
    // The only grid of the first puzzle is another one.
    assert_eq!(with(1, "unique 1##/#1#/##1\n"), Err(1));
}

#[test]
fn a_right_grid_in_another_form_is_refused() {
    let forms = [
        "multiple 1##/#1#/##1/\n",
        "multiple 1###1###1\n",
        "multiple 1##/#1#/##1 \n",
        "multiple  1##/#1#/##1\n",
        "multiple 1## #1# ##1\n",
        "multiple 1##/#1#/##1\r\n",
        "multiple 1#/##1#/##1\n",
        "Multiple 1##/#1#/##1\n",
        "1##/#1#/##1\n",
    ];
    for form in forms {
        assert_eq!(with(2, form), Err(2), "{form}");
    }
}

#[test]
fn a_wrong_verdict_is_refused() {
    assert_eq!(with(1, "multiple #1#/1##/##1\n"), Err(1));
    assert_eq!(with(1, "unsolvable\n"), Err(1));
    assert_eq!(with(2, "unique 1##/#1#/##1\n"), Err(2));
    assert_eq!(with(2, "unsolvable\n"), Err(2));
    assert_eq!(with(3, "unique 1##/#1#/##1\n"), Err(3));
    assert_eq!(with(3, "multiple 1##/#1#/##1\n"), Err(3));
    assert_eq!(with(3, "refused 3\n"), Err(3));
    assert_eq!(with(4, "refused 2\n"), Err(4));
    assert_eq!(with(4, "unsolvable\n"), Err(4));
}

#[test]
fn missing_and_additional_lines_are_refused() {
    assert_eq!(with(1, ""), Err(1));
    assert_eq!(with(4, ""), Err(4));
    assert_eq!(with(4, "refused 3\nrefused 3\n"), Err(5));
    assert_eq!(with(4, "refused 3\n\n"), Err(5));
    assert_eq!(checked("", "unsolvable\n"), Err(1));
    assert_eq!(checked(LINES, ""), Err(1));
}

#[test]
fn a_missing_line_end_is_refused() {
    assert_eq!(with(4, "refused 3"), Err(4));
    assert_eq!(with(3, "unsolvable"), Err(3));
    assert_eq!(checked("3 0 1 0 0 1 0", "multiple 1##/#1#/##1"), Err(1));
    assert_eq!(checked("3 0 1 0 0 1 0", "multiple 1##/#1#/##1\n"), Ok(1));
}

#[test]
fn swapped_lines_are_refused() {
    for number in 0..3 {
        let mut answers = ANSWERS;
        answers.swap(number, number + 1);
        assert_eq!(checked(LINES, &answers.concat()), Err(number + 1));
    }
}

#[test]
fn the_first_wrong_line_is_shown_with_its_answer() {
    let wrong = driver::check(b"2 0 0 0 0\n", b"unique ##/##\n", b"unsolvable\n");
    let shown = wrong.expect_err("there is a grid").to_string();
    assert_eq!(shown, "line 1: 2 0 0 0 0\\n\nanswer: unsolvable\\n");
}
