/*
 * Doppelblock key engine: the functions of libdoppelblock.a and, those with
 * `classroom` in their names, of libdoppelblock_classroom.a.
 *
 * Build them with `bindings/build`; they are then in target/staticlib, for x86-64
 * Linux.
 * Link one or both. They need nothing beyond the C library, hold no state
 * between calls and may be called from any thread.
 * Count and solve call themselves; a thread with a stack of 2 MiB has room.
 *
 * Slices. A pointer and the length after it are one slice of bytes. The pointer
 * must not be null and must be valid for that many bytes. For a length of 0
 * pass the address of any object; nothing is read or written there. A slice
 * that a call writes must not overlap another slice of the same call.
 *
 * Lengths. A slice may have any length, and the size may be any number: what a
 * call cannot use, it refuses.
 *
 * Cells. One byte for each cell, row by row: DOPPELBLOCK_EMPTY, a number from 1
 * to 254, or DOPPELBLOCK_BLACK.
 *
 * Marks. A list of marks is a slice with two bytes for each mark, the more
 * significant first. Bits from the most significant: kind 1 (0 takes the value,
 * 1 rejects it), row 4, column 4, value 4, spare 3 (zero). Rows and columns count
 * from 0. A value is a digit from 1 to size - 2 or one of the four blacks below.
 * The list may be empty, repeat a mark and contradict itself. A byte left over
 * at its end is half a mark and is refused by 4 in its turn.
 *
 * Units. There are two: the hall takes sizes up to 9 and any list of marks, the
 * classrooms take sizes up to 6 and lists of at most 40 marks, where half a mark
 * counts as a mark. Each function is there once for each; those of the classrooms
 * have `classroom_` behind `doppelblock_`. Within the classrooms' limits both give
 * the same answers and leave the same bytes.
 *
 * Refusals. The first fault in the order given at each function decides the
 * number, and no byte of any slice changes. 18 and 19 are about the unit's limits;
 * in the hall they are never due.
 */
#ifndef DOPPELBLOCK_H
#define DOPPELBLOCK_H

#include <stddef.h>
#include <stdint.h>

#ifdef __cplusplus
extern "C" {
#endif

/* Cell bytes. */
#define DOPPELBLOCK_EMPTY 0
#define DOPPELBLOCK_BLACK 255

/* Values of a mark beside the digits: the black cells of the cell's row and of
   its column. */
#define DOPPELBLOCK_LEFT_BLACK 8
#define DOPPELBLOCK_RIGHT_BLACK 9
#define DOPPELBLOCK_UPPER_BLACK 10
#define DOPPELBLOCK_LOWER_BLACK 11

/* The two bytes of a mark, for the initialiser of a byte array. Each of the
   three must be 0 to 15. */
#define DOPPELBLOCK_TAKE(row, column, value) \
    (row) << 3 | (column) >> 1, ((column) & 1) << 7 | (value) << 3
#define DOPPELBLOCK_REJECT(row, column, value) \
    0x80 | DOPPELBLOCK_TAKE(row, column, value)

/* Answers. 1 to 99 are refusals. */
enum {
    /* The call wrote its result. */
    DOPPELBLOCK_DONE = 0,
    /* The size is not 2 to 9. */
    DOPPELBLOCK_REFUSED_SIZE = 1,
    /* There is not exactly one row target for each row and one column target
       for each column. */
    DOPPELBLOCK_REFUSED_TARGET_LENGTHS = 2,
    /* A target is above (size - 2) * (size - 1) / 2. */
    DOPPELBLOCK_REFUSED_TARGET = 3,
    /* The spare bits of a mark are not zero, or half of it is missing. */
    DOPPELBLOCK_REFUSED_MARK_SPARE = 4,
    /* The row or the column of a mark is not below the size. */
    DOPPELBLOCK_REFUSED_MARK_PLACE = 5,
    /* The value of a mark is neither a digit of this size nor a black. */
    DOPPELBLOCK_REFUSED_MARK_VALUE = 6,
    /* There is not exactly one byte for each of the size * size cells; for a
       candidate table, not exactly two. */
    DOPPELBLOCK_REFUSED_CELLS_LENGTH = 7,
    /* A line does not have exactly two black cells. */
    DOPPELBLOCK_REFUSED_BLACKS = 8,
    /* A cell between the two black cells of a line is empty. */
    DOPPELBLOCK_REFUSED_EMPTY_CELL = 9,
    /* The numbers between the two black cells of a line add up to more than
       255. */
    DOPPELBLOCK_REFUSED_SUM = 10,
    /* The size is 2 to 9, but above the unit's limit. Classrooms only. */
    DOPPELBLOCK_REFUSED_UNIT_SIZE = 18,
    /* The list of marks is longer than the unit's limit. Classrooms only. */
    DOPPELBLOCK_REFUSED_UNIT_LIST = 19,
    /* The sheet does not keep the rules of the puzzle. */
    DOPPELBLOCK_SHEET_WRONG = 100,
    /* It does: every digit once in each line, two blacks, all sums. */
    DOPPELBLOCK_SHEET_RIGHT = 101,
    /* No grid keeps the puzzle and the marks. */
    DOPPELBLOCK_UNSOLVABLE = 100,
    /* Exactly one grid does. */
    DOPPELBLOCK_UNIQUE = 101,
    /* Two or more grids do. */
    DOPPELBLOCK_MULTIPLE = 102,
    /* Propagation left a cell without a candidate: no grid keeps the puzzle and
       the marks. */
    DOPPELBLOCK_CONTRADICTED = 100
};

/*
 * Writes the sum between the two black cells of each row into `rows` and of
 * each column into `columns`; 0 where the blacks touch. Cells that do not stand
 * between blacks are not looked at further.
 *
 * Returns DOPPELBLOCK_DONE or a refusal, checked in this order: 1, 18 (never due
 * in the hall), 7, 2, then for each row from the first and each column from the
 * first 8, 9, 10.
 */
uint8_t doppelblock_target_sums(size_t size,
                                const uint8_t *cells, size_t cells_len,
                                uint8_t *rows, size_t rows_len,
                                uint8_t *columns, size_t columns_len);

/*
 * Whether `cells` is a right sheet for the puzzle with these targets: right
 * exactly when it keeps the puzzle rules, every digit once in each line, two
 * blacks, all sums. A cell may be any byte: what is neither black nor a digit of
 * this size makes the sheet wrong.
 *
 * If the puzzle is unique without marks, only the grid that doppelblock_solve
 * writes is right.
 *
 * Returns DOPPELBLOCK_SHEET_RIGHT, DOPPELBLOCK_SHEET_WRONG or a refusal, checked
 * in this order: 1, 18 (never due in the hall), 2, 3, 7. Writes nothing.
 */
uint8_t doppelblock_mark_sheet(size_t size,
                               const uint8_t *rows, size_t rows_len,
                               const uint8_t *columns, size_t columns_len,
                               const uint8_t *cells, size_t cells_len);

/*
 * Writes into `count` the number of grids that keep the puzzle and every mark,
 * or `cap` if there are more. The pointer must not be null, must be valid for
 * one aligned number and must not point into a slice of the same call.
 *
 * The search may take long on a puzzle of size 7 or more without marks.
 *
 * Returns DOPPELBLOCK_DONE or a refusal, checked in this order: 1, 18, 2, 3, 19
 * (18 and 19 never due in the hall), then 4, 5, 6 mark by mark. Where it refuses,
 * `count` stays as it was.
 */
uint8_t doppelblock_count(size_t size,
                          const uint8_t *rows, size_t rows_len,
                          const uint8_t *columns, size_t columns_len,
                          const uint8_t *marks, size_t marks_len,
                          uint64_t cap, uint64_t *count);

/*
 * Whether no grid, one or more keep the puzzle and every mark. If there is one,
 * the first is written into `cells`: going over the right and the left black of
 * each row from the top, then over the digits from the greatest down, each in
 * the rows from the top, that which stands further right where grids differ.
 *
 * Returns DOPPELBLOCK_UNSOLVABLE, DOPPELBLOCK_UNIQUE, DOPPELBLOCK_MULTIPLE or a
 * refusal, checked in this order: 1, 18, 2, 3, 19 (18 and 19 never due in the
 * hall), then 4, 5, 6 mark by mark, then 7. Only UNIQUE and MULTIPLE write.
 */
uint8_t doppelblock_solve(size_t size,
                          const uint8_t *rows, size_t rows_len,
                          const uint8_t *columns, size_t columns_len,
                          const uint8_t *marks, size_t marks_len,
                          uint8_t *cells, size_t cells_len);

/*
 * Writes into `table` what each cell can still be after the marks and one
 * propagation: an entry of two bytes for each cell, row by row, the more
 * significant byte first. Digit d is bit d of the entry; the left, right, upper
 * and lower black are the bits size - 1 to size + 2. `table_len` counts bytes,
 * so it is 2 * size * size.
 *
 * Returns DOPPELBLOCK_DONE, DOPPELBLOCK_CONTRADICTED or a refusal, checked in
 * this order: 1, 18, 2, 3, 19 (18 and 19 never due in the hall), then 4, 5, 6
 * mark by mark, then 7. Only DONE writes, and then each cell has a candidate.
 * Where a grid is left, the table is written and the rules determine it. One can
 * be written although no grid is left.
 */
uint8_t doppelblock_candidates(size_t size,
                               const uint8_t *rows, size_t rows_len,
                               const uint8_t *columns, size_t columns_len,
                               const uint8_t *marks, size_t marks_len,
                               uint8_t *table, size_t table_len);

/*
 * The greatest size that the hall takes: 9.
 */
size_t doppelblock_size_limit(void);

/*
 * The greatest number of marks in a list that the hall takes. It has no such
 * limit, so this is SIZE_MAX, which no list reaches.
 */
size_t doppelblock_list_limit(void);

/*
 * The calls of the classrooms: as the functions of the same name without
 * `classroom`, with the classrooms' limits.
 */
uint8_t doppelblock_classroom_target_sums(size_t size,
                                          const uint8_t *cells, size_t cells_len,
                                          uint8_t *rows, size_t rows_len,
                                          uint8_t *columns, size_t columns_len);

uint8_t doppelblock_classroom_mark_sheet(size_t size,
                                         const uint8_t *rows, size_t rows_len,
                                         const uint8_t *columns, size_t columns_len,
                                         const uint8_t *cells, size_t cells_len);

uint8_t doppelblock_classroom_count(size_t size,
                                    const uint8_t *rows, size_t rows_len,
                                    const uint8_t *columns, size_t columns_len,
                                    const uint8_t *marks, size_t marks_len,
                                    uint64_t cap, uint64_t *count);

uint8_t doppelblock_classroom_solve(size_t size,
                                    const uint8_t *rows, size_t rows_len,
                                    const uint8_t *columns, size_t columns_len,
                                    const uint8_t *marks, size_t marks_len,
                                    uint8_t *cells, size_t cells_len);

uint8_t doppelblock_classroom_candidates(size_t size,
                                         const uint8_t *rows, size_t rows_len,
                                         const uint8_t *columns, size_t columns_len,
                                         const uint8_t *marks, size_t marks_len,
                                         uint8_t *table, size_t table_len);

/*
 * The greatest size that a classroom takes: 6.
 */
size_t doppelblock_classroom_size_limit(void);

/*
 * The greatest number of marks in a list that a classroom takes: 40.
 */
size_t doppelblock_classroom_list_limit(void);

#ifdef __cplusplus
}
#endif

#endif
