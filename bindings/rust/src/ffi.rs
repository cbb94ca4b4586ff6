//! The boundary to the library: one declaration for each export, and one safe
//! function for the hall's export and the classrooms' together, which have the
//! same signature. A slice passes as its pointer and its length. Nothing but this
//! file and the C header repeats the engine's signatures.

#![allow(unsafe_code)]

use crate::Unit;

unsafe extern "C" {
    fn doppelblock_target_sums(
        size: usize,
        cells: *const u8,
        cells_len: usize,
        rows: *mut u8,
        rows_len: usize,
        columns: *mut u8,
        columns_len: usize,
    ) -> u8;

    fn doppelblock_mark_sheet(
        size: usize,
        rows: *const u8,
        rows_len: usize,
        columns: *const u8,
        columns_len: usize,
        cells: *const u8,
        cells_len: usize,
    ) -> u8;

    fn doppelblock_count(
        size: usize,
        rows: *const u8,
        rows_len: usize,
        columns: *const u8,
        columns_len: usize,
        marks: *const u8,
        marks_len: usize,
        cap: u64,
        count: *mut u64,
    ) -> u8;

    fn doppelblock_solve(
        size: usize,
        rows: *const u8,
        rows_len: usize,
        columns: *const u8,
        columns_len: usize,
        marks: *const u8,
        marks_len: usize,
        cells: *mut u8,
        cells_len: usize,
    ) -> u8;

    fn doppelblock_candidates(
        size: usize,
        rows: *const u8,
        rows_len: usize,
        columns: *const u8,
        columns_len: usize,
        marks: *const u8,
        marks_len: usize,
        table: *mut u8,
        table_len: usize,
    ) -> u8;

    // Without arguments there is nothing that a caller has to keep.
    safe fn doppelblock_size_limit() -> usize;
    safe fn doppelblock_list_limit() -> usize;

    fn doppelblock_classroom_target_sums(
        size: usize,
        cells: *const u8,
        cells_len: usize,
        rows: *mut u8,
        rows_len: usize,
        columns: *mut u8,
        columns_len: usize,
    ) -> u8;

    fn doppelblock_classroom_mark_sheet(
        size: usize,
        rows: *const u8,
        rows_len: usize,
        columns: *const u8,
        columns_len: usize,
        cells: *const u8,
        cells_len: usize,
    ) -> u8;

    fn doppelblock_classroom_count(
        size: usize,
        rows: *const u8,
        rows_len: usize,
        columns: *const u8,
        columns_len: usize,
        marks: *const u8,
        marks_len: usize,
        cap: u64,
        count: *mut u64,
    ) -> u8;

    fn doppelblock_classroom_solve(
        size: usize,
        rows: *const u8,
        rows_len: usize,
        columns: *const u8,
        columns_len: usize,
        marks: *const u8,
        marks_len: usize,
        cells: *mut u8,
        cells_len: usize,
    ) -> u8;

    fn doppelblock_classroom_candidates(
        size: usize,
        rows: *const u8,
        rows_len: usize,
        columns: *const u8,
        columns_len: usize,
        marks: *const u8,
        marks_len: usize,
        table: *mut u8,
        table_len: usize,
    ) -> u8;

    safe fn doppelblock_classroom_size_limit() -> usize;
    safe fn doppelblock_classroom_list_limit() -> usize;
}

pub fn size_limit(unit: Unit) -> usize {
    match unit {
        Unit::Hall => doppelblock_size_limit(),
        Unit::Classroom => doppelblock_classroom_size_limit(),
    }
}

pub fn list_limit(unit: Unit) -> usize {
    match unit {
        Unit::Hall => doppelblock_list_limit(),
        Unit::Classroom => doppelblock_classroom_list_limit(),
    }
}

pub fn target_sums(
    unit: Unit,
    size: usize,
    cells: &[u8],
    rows: &mut [u8],
    columns: &mut [u8],
) -> u8 {
    let call = match unit {
        Unit::Hall => doppelblock_target_sums,
        Unit::Classroom => doppelblock_classroom_target_sums,
    };
    // SAFETY: the engine stays within each slice, keeps no pointer and demands
    // nothing of its arguments; the borrows rule out overlap.
    unsafe {
        call(
            size,
            cells.as_ptr(),
            cells.len(),
            rows.as_mut_ptr(),
            rows.len(),
            columns.as_mut_ptr(),
            columns.len(),
        )
    }
}

pub fn mark_sheet(unit: Unit, size: usize, rows: &[u8], columns: &[u8], cells: &[u8]) -> u8 {
    let call = match unit {
        Unit::Hall => doppelblock_mark_sheet,
        Unit::Classroom => doppelblock_classroom_mark_sheet,
    };
    // SAFETY: as above, and the engine only reads.
    unsafe {
        call(
            size,
            rows.as_ptr(),
            rows.len(),
            columns.as_ptr(),
            columns.len(),
            cells.as_ptr(),
            cells.len(),
        )
    }
}

pub fn count(
    unit: Unit,
    size: usize,
    rows: &[u8],
    columns: &[u8],
    marks: &[u8],
    cap: u64,
    count: &mut u64,
) -> u8 {
    let call = match unit {
        Unit::Hall => doppelblock_count,
        Unit::Classroom => doppelblock_classroom_count,
    };
    // SAFETY: as for the target sums; the count is one number that may be written.
    unsafe {
        call(
            size,
            rows.as_ptr(),
            rows.len(),
            columns.as_ptr(),
            columns.len(),
            marks.as_ptr(),
            marks.len(),
            cap,
            count,
        )
    }
}

pub fn solve(
    unit: Unit,
    size: usize,
    rows: &[u8],
    columns: &[u8],
    marks: &[u8],
    cells: &mut [u8],
) -> u8 {
    let call = match unit {
        Unit::Hall => doppelblock_solve,
        Unit::Classroom => doppelblock_classroom_solve,
    };
    into_bytes(call, size, rows, columns, marks, cells)
}

pub fn candidates(
    unit: Unit,
    size: usize,
    rows: &[u8],
    columns: &[u8],
    marks: &[u8],
    table: &mut [u8],
) -> u8 {
    let call = match unit {
        Unit::Hall => doppelblock_candidates,
        Unit::Classroom => doppelblock_classroom_candidates,
    };
    into_bytes(call, size, rows, columns, marks, table)
}

/// Puzzle and marks in, bytes out: the signature of solve and of candidates.
type IntoBytes = unsafe extern "C" fn(
    usize,
    *const u8,
    usize,
    *const u8,
    usize,
    *const u8,
    usize,
    *mut u8,
    usize,
) -> u8;

fn into_bytes(
    call: IntoBytes,
    size: usize,
    rows: &[u8],
    columns: &[u8],
    marks: &[u8],
    bytes: &mut [u8],
) -> u8 {
    // SAFETY: as for the target sums.
    unsafe {
        call(
            size,
            rows.as_ptr(),
            rows.len(),
            columns.as_ptr(),
            columns.len(),
            marks.as_ptr(),
            marks.len(),
            bytes.as_mut_ptr(),
            bytes.len(),
        )
    }
}
