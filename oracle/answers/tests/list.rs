//! The list is always the same, can be read back, and has every answer.

use std::collections::{BTreeMap, HashSet};

use answers::{Call, Record, read};

fn list(call: Call) -> Vec<u8> {
    let records = call.records();
    records.iter().flat_map(Record::bytes).copied().collect()
}

/// The fields of every record, and nothing left over.
fn fields(call: Call, mut list: &[u8]) -> Vec<Vec<&[u8]>> {
    let mut records = Vec::new();
    while !list.is_empty() {
        let record = read(&mut list).expect("a whole record");
        assert_eq!(record.call, call);
        records.push(record.fields);
    }
    records
}

/// How often each size has each answer.
fn answers(records: &[Vec<&[u8]>], answer: usize) -> BTreeMap<(u8, u8), usize> {
    let mut times = BTreeMap::new();
    for fields in records {
        *times.entry((fields[0][0], fields[answer][0])).or_default() += 1;
    }
    times
}

#[test]
fn the_list_is_always_the_same_and_has_no_record_twice() {
    for call in Call::ALL {
        assert_eq!(list(call), list(call));
        let records = call.records();
        let different: HashSet<&Record> = records.iter().collect();
        let repeats = records.len() - different.len();
        // Sizes 2 and 3 have few grids.
        assert!(repeats < 20, "{call:?}: {repeats} repeats");
    }
}

#[test]
fn target_sums_have_every_answer_of_every_size() {
    let list = list(Call::TargetSums);
    let records = fields(Call::TargetSums, &list);
    let times = answers(&records, 4);
    for size in 2..=9 {
        for number in [0, 2, 7, 8, 9, 10] {
            // Size 2 has no cell between blacks, size 3 at most one.
            let never = size == 2 && number >= 9 || size == 3 && number == 10;
            let is_there = times.contains_key(&(size, number));
            assert_eq!(is_there, !never, "{size}: {number}");
        }
    }
    for size in [0, 1, 10, 255] {
        assert_eq!(times.get(&(size, 1)), Some(&1));
    }
}

#[test]
fn target_sums_leave_what_they_refuse() {
    let list = list(Call::TargetSums);
    for fields in fields(Call::TargetSums, &list) {
        let [
            size,
            cells,
            rows,
            columns,
            answer,
            rows_after,
            columns_after,
        ] = fields[..]
        else {
            panic!("seven fields");
        };
        if answer == [0] {
            let sums = reference::target_sums(size[0].into(), cells);
            assert_eq!(sums, Ok((rows_after.to_vec(), columns_after.to_vec())));
        } else {
            assert_eq!((rows, columns), (rows_after, columns_after));
        }
    }
}

#[test]
fn marking_has_every_answer() {
    let list = list(Call::MarkSheet);
    let records = fields(Call::MarkSheet, &list);
    let times = answers(&records, 4);
    for size in 2..=9 {
        for number in [2, 3, 7, 100, 101] {
            assert!(times.contains_key(&(size, number)), "{size}: {number}");
        }
    }
}

#[test]
fn lines_have_every_answer_of_every_size() {
    let list = list(Call::LineCheck);
    let times = answers(&fields(Call::LineCheck, &list), 3);
    for size in 2..=9 {
        for step in 0..=3 {
            // Size 2 has no digits.
            let never = size == 2 && step == 1;
            let is_there = times.contains_key(&(size, step));
            assert_eq!(is_there, !never, "{size}: {step}");
        }
    }
}

/// Each call with the place of its answer among the fields.
#[test]
fn searching_calls_have_every_answer_of_every_size() {
    let calls = [
        (Call::Candidates, 5, vec![0, 2, 3, 4, 5, 6, 7, 100]),
        (Call::Count, 6, vec![0, 2, 3, 4, 5, 6]),
        (Call::Solve, 5, vec![2, 3, 4, 5, 6, 7, 100, 101, 102]),
    ];
    for (call, answer, numbers) in calls {
        let list = list(call);
        let records = fields(call, &list);
        assert!((100..=170).contains(&records.len()), "{call:?}");
        let times = answers(&records, answer);
        for size in 2..=9 {
            for &number in &numbers {
                // Size 2 has only one grid.
                let never = size == 2 && number == 102;
                let is_there = times.contains_key(&(size, number));
                assert_eq!(is_there, !never, "{call:?}, {size}: {number}");
            }
        }
        for size in [0, 1, 10, 255] {
            assert_eq!(times.get(&(size, 1)), Some(&1));
        }
    }
}

/// Before and after stand around the answer.
#[test]
fn searching_calls_write_only_with_their_answer() {
    for (call, answer, writing) in [
        (Call::Candidates, 5, vec![0]),
        (Call::Count, 6, vec![0]),
        (Call::Solve, 5, vec![101, 102]),
    ] {
        let list = list(call);
        for fields in fields(call, &list) {
            let [before, [number], after] = fields[answer - 1..] else {
                panic!("the answer is one byte, and one field follows");
            };
            assert_eq!(before.len(), after.len());
            assert_eq!(before != after, writing.contains(number), "{fields:02x?}");
        }
    }
}

/// Among the tables are some of which the Rust keeps more, and among the contradictions
/// one that it does not see.
#[test]
fn tables_are_those_of_the_rules() {
    let list = list(Call::Candidates);
    let (mut kept_more, mut seen_only_here) = (0, 0);
    for fields in fields(Call::Candidates, &list) {
        let (size, rows, columns) = (fields[0][0].into(), fields[1], fields[2]);
        let (marks, after) = (rules::marks_of(fields[3]), rules::marks_of(fields[6]));
        let rust = || reference::candidates(size, rows, columns, &marks);
        match fields[5][0] {
            0 => {
                assert!(
                    rules::is_closed(size, rows, columns, &after),
                    "{fields:02x?}"
                );
                assert!(
                    marks
                        .iter()
                        .all(|&mark| rules::shows_mark(size, &after, mark))
                );
                kept_more += usize::from(rust() != Some(after));
            }
            100 => seen_only_here += usize::from(rust().is_some()),
            _ => {}
        }
    }
    assert!(kept_more >= 2 && seen_only_here >= 1);
}

#[test]
fn grids_keep_puzzle_and_marks() {
    let list = list(Call::Solve);
    for fields in fields(Call::Solve, &list) {
        if fields[5][0] > 100 {
            let marks = rules::marks_of(fields[3]);
            let (size, after) = (fields[0][0].into(), fields[6]);
            let is_grid = rules::satisfies(size, fields[1], fields[2], &marks, after);
            assert!(is_grid, "{fields:02x?}");
        }
    }
}

/// By the list of grids; where there is none, the Rust counts no grid before it.
#[test]
fn the_first_grid_of_several_is_shown() {
    let list = list(Call::Solve);
    for fields in fields(Call::Solve, &list) {
        if fields[5] == [102] {
            let (size, rows, columns) = (fields[0][0].into(), fields[1], fields[2]);
            let (marks, after) = (rules::marks_of(fields[3]), fields[6]);
            match rules::every_grid(size, rows, columns, &marks) {
                Some(grids) => assert_eq!(grids[0], after),
                None => rules::marks_before(size, after).iter().for_each(|more| {
                    let marks = [&marks[..], more].concat();
                    assert_eq!(reference::count(size, rows, columns, &marks, 1), 0);
                }),
            }
        }
    }
}

#[test]
fn counts_reach_their_cap_and_stay_below_it() {
    let list = list(Call::Count);
    let number = |bytes: &[u8]| u64::from_be_bytes(bytes.try_into().expect("eight bytes"));
    let mut kinds = HashSet::new();
    for fields in fields(Call::Count, &list) {
        if fields[6] == [0] {
            let (cap, count) = (number(fields[4]), number(fields[7]));
            assert!(count <= cap);
            kinds.insert((cap.min(4), count.min(4)));
        }
    }
    let every = [
        (0, 0),
        (1, 0),
        (1, 1),
        (2, 0),
        (2, 1),
        (2, 2),
        (3, 2),
        (3, 3),
        (4, 1),
        (4, 4),
    ];
    assert!(every.iter().all(|kind| kinds.contains(kind)), "{kinds:?}");
}

/// The replay has room for 131,072 bytes.
#[test]
fn the_whole_list_has_room() {
    let lengths = Call::ALL.map(|call| list(call).len());
    assert!(lengths.iter().sum::<usize>() < 131_072, "{lengths:?}");
}
