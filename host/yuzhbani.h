/* Page plans of measured worksheets: the eight calls of the static library `yuzhbani`, for C and C++.
 *
 *     rt staticlib yuzhbani
 *     cc -o main main.c crates/yuzhbani/out/libyuzhbani.a
 *
 * A slice is two arguments, a pointer to its first element and the number of its elements (`_len`). What is `const` is read; what is
 * not is lent to be written. The calls take whatever numbers and lists they are handed, and keep nothing from one call to the next.
 *
 * What a caller must see to (host/README.md has the whole list): no pointer is null, also of a slice of no elements; an array has as
 * many elements as stand in its brackets; all elements are written before the call, also those that the call only fills; nothing
 * that a call writes overlaps with anything else it is handed; 512 KB of stack are left; the machine is x86-64 Linux.
 */
#ifndef YUZHBANI_H
#define YUZHBANI_H

#include <stddef.h>
#include <stdint.h>

#ifdef __cplusplus
extern "C" {
#endif

enum {
    YUZHBANI_MOST_BYTES = 60000, /* of a job; more are refused with 1 */
    YUZHBANI_MOST_AREAS = 8,     /* of a job or a request; none and more are refused with 4 */
    YUZHBANI_MOST_RUNS = 5000    /* lists with room for so many have room for the runs of each area of a job; for all, eight times that */
};

/* A run in a list of runs. A list of n numbers has room for n / YUZHBANI_RUN_NUMBERS runs; numbers that are left make up no run, and
 * are neither read nor written. */
enum {
    YUZHBANI_RUN_FIRST, /* the index of its first row or column */
    YUZHBANI_RUN_LAST,
    YUZHBANI_RUN_SIZE,         /* in units of 1/1,024 pixel */
    YUZHBANI_RUN_MANUAL_BREAK, /* 1 where a manual break stands before it */
    YUZHBANI_RUN_NUMBERS       /* 4 */
};

/* The numbers of an area of a plan. */
enum {
    YUZHBANI_AREA_PERMILLE,    /* its scale in thousandths */
    YUZHBANI_AREA_UNREACHABLE, /* 1 where no permille fits it to the targets */
    YUZHBANI_AREA_ROW_RUNS,
    YUZHBANI_AREA_COLUMN_RUNS,
    YUZHBANI_AREA_ROWS_EMPTY, /* 1 where there is no row to divide: then there is one run, of size 0 */
    YUZHBANI_AREA_COLUMNS_EMPTY,
    YUZHBANI_AREA_NUMBERS /* 6 */
};

/* The numbers of a plan. Those of the area k, from 0 in job order, start at YUZHBANI_PLAN_AREAS + k * YUZHBANI_AREA_NUMBERS. */
enum {
    YUZHBANI_PLAN_AREA_COUNT,
    YUZHBANI_PLAN_PAGES,         /* of all areas */
    YUZHBANI_PLAN_ORDER,         /* 0 down then over, 1 over then down */
    YUZHBANI_PLAN_UNKNOWN_PAPER, /* this and the eight below are the notes, which are counts */
    YUZHBANI_PLAN_MARGINS_REPLACED,
    YUZHBANI_PLAN_PERCENT_CLAMPED,
    YUZHBANI_PLAN_FIT_UNREACHABLE,
    YUZHBANI_PLAN_TITLES_IGNORED,
    YUZHBANI_PLAN_TITLES_EXPANDED,
    YUZHBANI_PLAN_MERGE_EXPANSIONS,
    YUZHBANI_PLAN_BREAK_SHIFTS,
    YUZHBANI_PLAN_OVERFLOWING_RUNS,
    YUZHBANI_PLAN_AREAS,
    YUZHBANI_PLAN_NUMBERS = YUZHBANI_PLAN_AREAS + YUZHBANI_MOST_AREAS * YUZHBANI_AREA_NUMBERS /* 60 */
};

/* The numbers of a page. */
enum {
    YUZHBANI_PAGE_VERTICAL,   /* the number of its run of rows, from 0 in its area */
    YUZHBANI_PAGE_HORIZONTAL, /* the number of its run of columns, likewise */
    YUZHBANI_PAGE_FIRST_ROW,
    YUZHBANI_PAGE_LAST_ROW,
    YUZHBANI_PAGE_ROWS_SIZE,
    YUZHBANI_PAGE_ROWS_EMPTY,        /* 1 where the run has no body */
    YUZHBANI_PAGE_ROWS_MANUAL_BREAK, /* 1 where a manual break stands before the run */
    YUZHBANI_PAGE_FIRST_COLUMN,
    YUZHBANI_PAGE_LAST_COLUMN,
    YUZHBANI_PAGE_COLUMNS_SIZE,
    YUZHBANI_PAGE_COLUMNS_EMPTY,
    YUZHBANI_PAGE_COLUMNS_MANUAL_BREAK,
    YUZHBANI_PAGE_NUMBERS /* 12 */
};

/* The numbers of an area of a request. */
enum {
    YUZHBANI_RANGE_FIRST_ROW,
    YUZHBANI_RANGE_FIRST_COLUMN,
    YUZHBANI_RANGE_LAST_ROW,
    YUZHBANI_RANGE_LAST_COLUMN,
    YUZHBANI_RANGE_NUMBERS /* 4 */
};

/* The numbers of a request. `GIVEN` and `LANDSCAPE` and `HEADINGS` are marks: 0 is no, any other number is yes. What stands behind a
 * mark that is 0, and areas that the count leaves out, are not looked at. No number has a value by itself: zeros alone ask for no area, which
 * is refused. The area k, from 0, starts at YUZHBANI_REQUEST_AREAS + k * YUZHBANI_RANGE_NUMBERS. */
enum {
    YUZHBANI_REQUEST_PAPER_GIVEN,
    YUZHBANI_REQUEST_PAPER, /* a code; Letter (1) where none is given */
    YUZHBANI_REQUEST_LANDSCAPE,
    YUZHBANI_REQUEST_MARGINS_GIVEN,
    YUZHBANI_REQUEST_MARGIN_LEFT, /* this and the five below are inches, as the 64 bits of a double */
    YUZHBANI_REQUEST_MARGIN_RIGHT,
    YUZHBANI_REQUEST_MARGIN_TOP,
    YUZHBANI_REQUEST_MARGIN_BOTTOM,
    YUZHBANI_REQUEST_MARGIN_HEADER,
    YUZHBANI_REQUEST_MARGIN_FOOTER,
    YUZHBANI_REQUEST_PERCENT_GIVEN,
    YUZHBANI_REQUEST_PERCENT,   /* 100 where none is given */
    YUZHBANI_REQUEST_FIT,       /* 0 or 1; any other number is refused with 5 */
    YUZHBANI_REQUEST_FIT_WIDTH_GIVEN,
    YUZHBANI_REQUEST_FIT_WIDTH, /* pages from side to side, 0 for any number; 1 where none is given */
    YUZHBANI_REQUEST_FIT_HEIGHT_GIVEN,
    YUZHBANI_REQUEST_FIT_HEIGHT, /* pages from top to bottom, likewise */
    YUZHBANI_REQUEST_ORDER,      /* 0 down then over, 1 over then down; any other number is refused with 5 */
    YUZHBANI_REQUEST_HEADINGS,
    YUZHBANI_REQUEST_PAGE_LIMIT, /* pages at most, of all areas */
    YUZHBANI_REQUEST_CELL_LIMIT_GIVEN,
    YUZHBANI_REQUEST_CELL_LIMIT, /* cells at most that lie in at least one area */
    YUZHBANI_REQUEST_AREA_COUNT, /* 1 to 8; any other number is refused with 4 */
    YUZHBANI_REQUEST_AREAS,
    YUZHBANI_REQUEST_TITLE_ROWS_GIVEN = YUZHBANI_REQUEST_AREAS + YUZHBANI_MOST_AREAS * YUZHBANI_RANGE_NUMBERS, /* 55 */
    YUZHBANI_REQUEST_TITLE_ROWS_FIRST,
    YUZHBANI_REQUEST_TITLE_ROWS_LAST,
    YUZHBANI_REQUEST_TITLE_COLUMNS_GIVEN,
    YUZHBANI_REQUEST_TITLE_COLUMNS_FIRST,
    YUZHBANI_REQUEST_TITLE_COLUMNS_LAST,
    YUZHBANI_REQUEST_NUMBERS /* 61 */
};

/* Plans a job, whose bytes docs/JOB.md describes.
 *
 * Lent: `numbers` for the plan, `row_runs` and `column_runs` for its runs.
 * Answers 0, with the plan in `numbers` and so many runs as it says at the fronts of the two lists, those of the second area behind those of
 * the first, and so on; what stands behind them is as it was. Or the number of the question that the job did not pass: 1 to 9, 15, 11 (a list
 * has no room for the runs of all areas) or 12 (more pages than the limit). Then `numbers` and both lists are as they were. */
uint8_t yuzhbani_plan(const uint8_t *bytes, size_t bytes_len,
                      uint64_t numbers[60],
                      uint64_t *row_runs, size_t row_runs_len,
                      uint64_t *column_runs, size_t column_runs_len);

/* Counts a job: the plan without its runs, for a caller that then writes one area after another into lists that hold one.
 *
 * Lent: `numbers` for the plan.
 * Answers 0, with the plan in `numbers`; or 1 to 9, 15 or 12, and then `numbers` are as they were. */
uint8_t yuzhbani_count(const uint8_t *bytes, size_t bytes_len, uint64_t numbers[60]);

/* Writes the runs of one area of a job, with its number from 1, at a permille: that of the area in a counted plan.
 *
 * Lent: `counts`, `row_runs` and `column_runs`.
 * Answers 0, with how many runs of rows in `counts[0]` and of columns in `counts[1]`, and the runs at the fronts of the two lists; what stands
 * behind them is as it was. Or 1 to 9 or 15, 10 where the permille is 0, 14 where the job has no area with that number, or 11 where a list has
 * no room for the area's runs. Then all that was lent is as it was. The page limit is not asked. */
uint8_t yuzhbani_write_area(const uint8_t *bytes, size_t bytes_len,
                            uint64_t number, uint16_t permille,
                            uint64_t counts[2],
                            uint64_t *row_runs, size_t row_runs_len,
                            uint64_t *column_runs, size_t column_runs_len);

/* Plans lists of measured rows and columns, as long as the grid allows. Indexes are from 0 and rise; sizes are in units of 1/1,024
 * pixel. The four lists of merges have an element for each merge. A break stands before the row or column that it names.
 *
 * Lent: as for `yuzhbani_plan`.
 * Answers as `yuzhbani_plan` does, 0 with the plan and its runs; or 4 (no area, or more than eight), 5 (fit or order above 1), 6, 7, 15, 8,
 * 9, 11 or 12. Then `numbers` and both lists of runs are as they were. */
uint8_t yuzhbani_plan_lists(const uint64_t request[61],
                            const uint32_t *row_indexes, size_t row_indexes_len,
                            const uint64_t *row_sizes, size_t row_sizes_len,
                            const uint32_t *column_indexes, size_t column_indexes_len,
                            const uint64_t *column_sizes, size_t column_sizes_len,
                            const uint32_t *merge_first_rows, size_t merge_first_rows_len,
                            const uint32_t *merge_first_columns, size_t merge_first_columns_len,
                            const uint32_t *merge_last_rows, size_t merge_last_rows_len,
                            const uint32_t *merge_last_columns, size_t merge_last_columns_len,
                            const uint32_t *row_breaks, size_t row_breaks_len,
                            const uint32_t *column_breaks, size_t column_breaks_len,
                            uint64_t numbers[60],
                            uint64_t *row_runs, size_t row_runs_len,
                            uint64_t *column_runs, size_t column_runs_len);

/* The page with a number, from 1 to the plan's count, of a plan's numbers and the two lists that were lent to it, with the runs of all areas.
 *
 * Lent: `page`.
 * Answers 0, with the page in `page`. Or 14 where there is no page with that number, or 11 where a list is shorter than the runs that
 * `numbers` speaks of. Then `page` is as it was. */
uint8_t yuzhbani_page(const uint64_t numbers[60], uint64_t number,
                      const uint64_t *row_runs, size_t row_runs_len,
                      const uint64_t *column_runs, size_t column_runs_len,
                      uint64_t page[12]);

/* The lines that program `plan` prints before those of the pages, of a plan call's answer and the plan's numbers: `plan` and `notes`;
 * or, where the answer is not 0, `no` and that number, and then the numbers are not looked at.
 *
 * Lent: `out`.
 * Answers how many bytes the lines have; they stand at the front of `out`, and no 0 ends them. It refuses nothing. */
size_t yuzhbani_head(uint8_t answer, const uint64_t numbers[60], uint8_t out[256]);

/* The line that program `plan` prints before the pages of each area but the first: `area`, its number from 1, and its permille.
 *
 * Lent: `out`.
 * Answers how many bytes the line has; it stands at the front of `out`, and no 0 ends it. It refuses nothing. */
size_t yuzhbani_area_line(uint64_t number, uint16_t permille, uint8_t out[256]);

/* The lines that program `plan` prints for the pages from the number `from` on, up to the last of the area that this page belongs to, as many
 * as `out` has room for. The lists are those of that area: its runs stand at their fronts. Of lists with the runs of all areas these are the
 * parts behind the runs of the areas before it.
 *
 * Lent: `block` and `out`.
 * Answers 0, with how many pages the lines tell of in `block[0]`, how many bytes they have in `block[1]`, and the lines at the front of
 * `out`; the next block starts at the number `from + block[0]`. Or 14 where there is no page with the number `from`, or 11 where a list
 * is shorter than the runs that `numbers` speaks of for its area. Then `block` and `out` are as they were. */
uint8_t yuzhbani_block(const uint64_t numbers[60], uint64_t from,
                       const uint64_t *row_runs, size_t row_runs_len,
                       const uint64_t *column_runs, size_t column_runs_len,
                       uint64_t block[2], uint8_t out[65536]);

#ifdef __cplusplus
}
#endif

#endif
