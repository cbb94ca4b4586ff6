//! What goes in and what comes out, as whole streams.

fn answers(input: impl AsRef<[u8]>) -> String {
    let mut output = Vec::new();
    driver::answer_lines(input.as_ref(), &mut output).expect("memory can be written");
    String::from_utf8(output).expect("plain signs")
}

const SAMPLE: &str = "3 1 0 0 1 0 0\n3 0 1 0 0 1 0\n3 1 1 0 0 1 0\n3 2 0 0 0 0 0\n";
const ANSWERS: &str = "unique #1#/1##/##1\nmultiple 1##/#1#/##1\nunsolvable\nrefused 3\n";

#[test]
fn the_sample_of_document_01() {
    assert_eq!(answers(SAMPLE), ANSWERS);
}

#[test]
fn the_last_line_may_lack_its_line_end() {
    assert_eq!(answers(SAMPLE.trim_end()), ANSWERS);
    assert_eq!(answers("2 0 0 0 0"), "unique ##/##\n");
    assert_eq!(answers("\n2 0 0 0 0"), "refused 11\nunique ##/##\n");
}

#[test]
fn empty_input_gives_no_output_and_an_empty_line_is_refused() {
    assert_eq!(answers(""), "");
    assert_eq!(answers("\n"), "refused 11\n");
    assert_eq!(answers("\n\n"), "refused 11\nrefused 11\n");
}

#[test]
fn lines_have_any_bytes_and_any_length() {
    let every_byte: Vec<u8> = (0..=255).filter(|&byte| byte != b'\n').collect();
    let long = vec![b'0'; 1 << 20];
    let input = [&every_byte[..], &long, b"2 1 0 0 0"].join(&b'\n');
    assert_eq!(answers(input), "refused 11\nrefused 11\nrefused 3\n");
    assert_eq!(answers("3 1 0 0 1 0 0\r\n"), "refused 11\n");
}

#[test]
fn refusals_have_their_numbers() {
    let input = "10\n1 0 0\n9 28\n4 4 0 0 0 0 0 0 0\n4  3 0 0 0 0 0 0 0\n";
    assert_eq!(
        answers(input),
        "refused 1\nrefused 1\nrefused 2\nrefused 3\nrefused 11\n"
    );
}
