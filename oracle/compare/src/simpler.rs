//! Steps towards a smaller input, and how cells are printed.

/// The cells without one row and one column.
pub fn without(size: usize, cells: &[u8], row: usize, column: usize) -> Vec<u8> {
    (0..size * size)
        .filter(|i| i / size != row && i % size != column)
        .map(|i| cells[i])
        .collect()
}

/// The targets without one of them.
pub fn line_without(targets: &[u8], place: usize) -> Vec<u8> {
    let mut targets = targets.to_vec();
    targets.remove(place);
    targets
}

/// One of the lists in an input.
pub type List<I> = fn(&mut I) -> &mut Vec<u8>;

/// The input with the last entry of one of its lists gone.
pub fn cut<I: Clone, const L: usize>(input: &I, lists: [List<I>; L]) -> Vec<I> {
    let mut simpler = Vec::new();
    for list in lists {
        let mut input = input.clone();
        if list(&mut input).pop().is_some() {
            simpler.push(input);
        }
    }
    simpler
}

/// The input with one entry of one of its lists smaller.
pub fn lowered_in<I: Clone, const L: usize>(input: &I, lists: [List<I>; L]) -> Vec<I> {
    let mut simpler = Vec::new();
    for list in lists {
        for lower in lowered(list(&mut input.clone())) {
            let mut input = input.clone();
            *list(&mut input) = lower;
            simpler.push(input);
        }
    }
    simpler
}

/// The same list with one entry smaller, in all ways that are tried.
pub fn lowered(list: &[u8]) -> impl Iterator<Item = Vec<u8>> + '_ {
    (0..list.len()).flat_map(move |place| {
        let entry = list[place];
        [0, 1, entry / 2, entry.saturating_sub(1)]
            .into_iter()
            .filter(move |&lower| lower < entry)
            .map(move |lower| {
                let mut list = list.to_vec();
                list[place] = lower;
                list
            })
    })
}

/// Cells in hex, rows apart where there is a whole number of them.
pub fn shown(size: usize, cells: &[u8]) -> String {
    let hex = |bytes: &[u8]| {
        let pairs: Vec<String> = bytes.iter().map(|byte| format!("{byte:02x}")).collect();
        pairs.join(" ")
    };
    if (1..=10).contains(&size) && cells.len() == size * size {
        let rows: Vec<String> = cells.chunks_exact(size).map(hex).collect();
        rows.join(" / ")
    } else {
        hex(cells)
    }
}
