/* Target sums, marking, counting, solving, candidates and a classroom's limits
   from C. It prints the same lines as the Rust example and exits with 1 if the engine
   answers anything unexpected. */
#include "doppelblock.h"

#include <inttypes.h>
#include <stdio.h>
#include <stdlib.h>

enum { SIZE = 3, CELLS = SIZE * SIZE, B = DOPPELBLOCK_BLACK };

static void expect(const char *what, uint8_t answer, uint8_t expected)
{
    if (answer != expected) {
        fprintf(stderr, "%s: answer %d, expected %d\n", what, answer, expected);
        exit(1);
    }
}

static void print_line(const char *name, const uint8_t *sums, const char *end)
{
    printf("%s", name);
    for (size_t i = 0; i < SIZE; i++)
        printf(" %d", sums[i]);
    printf("%s", end);
}

/* Rows joined by '/', blacks as '#'. */
static void print_grid(const uint8_t *cells)
{
    for (size_t i = 0; i < CELLS; i++) {
        if (i > 0 && i % SIZE == 0)
            putchar('/');
        putchar(cells[i] == B ? '#' : '0' + cells[i]);
    }
    putchar('\n');
}

static void sums_and_marking(void)
{
    uint8_t cells[CELLS] = {B, 1, B, 1, B, B, B, B, 1};
    uint8_t rows[SIZE], columns[SIZE];

    uint8_t answer = doppelblock_target_sums(SIZE, cells, CELLS, rows, SIZE,
                                             columns, SIZE);
    expect("sums", answer, DOPPELBLOCK_DONE);
    print_line("rows", rows, ", ");
    print_line("columns", columns, "\n");

    answer = doppelblock_mark_sheet(SIZE, rows, SIZE, columns, SIZE, cells, CELLS);
    expect("sheet", answer, DOPPELBLOCK_SHEET_RIGHT);
    puts("the sheet is right");

    cells[0] = DOPPELBLOCK_EMPTY;
    answer = doppelblock_mark_sheet(SIZE, rows, SIZE, columns, SIZE, cells, CELLS);
    expect("changed sheet", answer, DOPPELBLOCK_SHEET_WRONG);
    puts("without its first black it is wrong");

    answer = doppelblock_target_sums(SIZE, cells, CELLS, rows, SIZE, columns, SIZE);
    expect("changed sums", answer, DOPPELBLOCK_REFUSED_BLACKS);
    printf("and its sums are refused with %d\n", answer);
}

/* A sheet with a digit twice in its second row, marked against its own sums. */
static void a_repeated_digit(void)
{
    const uint8_t cells[16] = {1, 2, B, B, 2, B, 2, B, B, B, 1, 2, B, 2, B, 1};
    uint8_t rows[4], columns[4];

    uint8_t answer = doppelblock_target_sums(4, cells, 16, rows, 4, columns, 4);
    expect("its sums", answer, DOPPELBLOCK_DONE);
    answer = doppelblock_mark_sheet(4, rows, 4, columns, 4, cells, 16);
    expect("repeated digit", answer, DOPPELBLOCK_SHEET_WRONG);
    puts("a sheet with a digit twice in a line is wrong, though its sums are right");
}

static void counting_and_solving(void)
{
    const uint8_t rows[SIZE] = {0, 1, 0}, columns[SIZE] = {0, 1, 0};
    const uint8_t marks[] = {DOPPELBLOCK_REJECT(0, 0, 1)};
    uint8_t cells[CELLS];
    uint64_t grids;

    /* Without marks, any address will do. */
    uint8_t answer = doppelblock_count(SIZE, rows, SIZE, columns, SIZE, marks, 0,
                                       100, &grids);
    expect("count", answer, DOPPELBLOCK_DONE);
    print_line("rows", rows, ", ");
    print_line("columns", columns, ": ");
    printf("%" PRIu64 " grids\n", grids);

    answer = doppelblock_solve(SIZE, rows, SIZE, columns, SIZE, marks, 0, cells,
                               CELLS);
    expect("solve without marks", answer, DOPPELBLOCK_MULTIPLE);
    printf("the first of them, its top right black furthest right: ");
    print_grid(cells);

    answer = doppelblock_solve(SIZE, rows, SIZE, columns, SIZE, marks,
                               sizeof marks, cells, CELLS);
    expect("solve", answer, DOPPELBLOCK_UNIQUE);
    printf("one without a 1 in its first cell: ");
    print_grid(cells);
}

/* What one cell can still be. Digit 1 cannot stand there: where column 3 would have
   1 and 2 between its blacks, no cell between them is left for the 2. */
static void what_remains(void)
{
    const uint8_t rows[5] = {2, 0, 4, 4, 0}, columns[5] = {3, 1, 6, 3, 0};
    uint8_t table[2 * 5 * 5];

    /* Without marks, any address will do. */
    uint8_t answer = doppelblock_candidates(5, rows, 5, columns, 5, rows, 0, table,
                                            sizeof table);
    expect("candidates", answer, DOPPELBLOCK_DONE);
    const uint8_t *entry = &table[2 * (2 * 5 + 3)];
    unsigned candidates = entry[0] << 8 | entry[1];
    printf("rows 2 0 4 4 0, columns 3 1 6 3 0: row 2, column 3 can be");
    for (unsigned digit = 1; digit <= 3; digit++)
        if (candidates >> digit & 1)
            printf(" %u", digit);
    puts(candidates >> 4 ? " or black" : "");
}

/* A classroom takes smaller sizes than the hall, and shorter lists of marks. */
static void a_classroom(void)
{
    const uint8_t rows[7] = {8, 2, 15, 1, 0, 0, 3};
    const uint8_t columns[7] = {6, 10, 0, 4, 8, 0, 7};
    size_t size_limit = doppelblock_classroom_size_limit();
    size_t list_limit = doppelblock_classroom_list_limit();
    uint8_t cells[49];

    printf("a classroom takes sizes up to %zu and lists of up to %zu marks\n",
           size_limit, list_limit);

    /* Without marks, any address will do. */
    uint8_t answer = doppelblock_classroom_solve(7, rows, 7, columns, 7, rows, 0,
                                                 cells, 49);
    expect("size 7 in a classroom", answer, DOPPELBLOCK_REFUSED_UNIT_SIZE);
    printf("a puzzle of size 7 is refused there with %d: the limit is %zu\n",
           answer, size_limit);
}

int main(void)
{
    sums_and_marking();
    a_repeated_digit();
    counting_and_solving();
    what_remains();
    a_classroom();
    return 0;
}
