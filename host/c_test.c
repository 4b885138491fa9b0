/* Tests of the static library by yuzhbani.h, as a caller in C meets it.
 *
 *     c_test JOB OUT
 *
 * JOB has the bytes of examples/first.txt, OUT is examples/first.out. The last line counts the tests.
 */
#include <stdio.h>
#include <stdlib.h>
#include <string.h>

#include "yuzhbani.h"

enum { ROOM = 3 * YUZHBANI_RUN_NUMBERS }; /* one run more than the example has of rows, and of columns */

/* The job and its answer, as they stand in the files. */
static uint8_t job[YUZHBANI_MOST_BYTES];
static size_t job_len;
static uint8_t expected[4096];
static size_t expected_len;

/* What is lent to a plan call. */
struct lent {
    uint64_t numbers[60];
    uint64_t rows[ROOM];
    uint64_t columns[ROOM];
};

static struct lent unwritten(void) {
    struct lent lent;
    memset(&lent, 77, sizeof lent);
    return lent;
}

static int same(const struct lent *a, const struct lent *b) {
    return memcmp(a, b, sizeof *a) == 0;
}

/* The place of a number of the area k in a plan's numbers. */
static size_t in_area(size_t k, int place) {
    return YUZHBANI_PLAN_AREAS + k * YUZHBANI_AREA_NUMBERS + (size_t)place;
}

/* What the plan of the example leaves in what was lent to it. */
static struct lent first(void) {
    static const uint64_t rows[] = {0, 1, 800000, 0, 2, 2, 400000, 0};
    static const uint64_t columns[] = {0, 0, 400000, 0, 1, 1, 400000, 0};
    struct lent lent = unwritten();
    memset(lent.numbers, 0, sizeof lent.numbers);
    lent.numbers[YUZHBANI_PLAN_AREA_COUNT] = 1;
    lent.numbers[YUZHBANI_PLAN_PAGES] = 4;
    lent.numbers[in_area(0, YUZHBANI_AREA_PERMILLE)] = 1000;
    lent.numbers[in_area(0, YUZHBANI_AREA_ROW_RUNS)] = 2;
    lent.numbers[in_area(0, YUZHBANI_AREA_COLUMN_RUNS)] = 2;
    memcpy(lent.rows, rows, sizeof rows);
    memcpy(lent.columns, columns, sizeof columns);
    return lent;
}

/* ---- the calls, over what is lent */

static uint8_t plan(size_t bytes, struct lent *lent, size_t room) {
    return yuzhbani_plan(job, bytes, lent->numbers, lent->rows, room, lent->columns, ROOM);
}

/* The numbers that ask for what the example's records say. */
static void ask(uint64_t request[61]) {
    memset(request, 0, 61 * sizeof *request);
    request[YUZHBANI_REQUEST_PAPER_GIVEN] = 1;
    request[YUZHBANI_REQUEST_PAPER] = 1;
    request[YUZHBANI_REQUEST_PAGE_LIMIT] = 10000;
    request[YUZHBANI_REQUEST_AREA_COUNT] = 1;
    request[YUZHBANI_REQUEST_AREAS + YUZHBANI_RANGE_LAST_ROW] = 2;
    request[YUZHBANI_REQUEST_AREAS + YUZHBANI_RANGE_LAST_COLUMN] = 1;
}

/* Plans the example's rows and columns by lists. There are no merges and no breaks. */
static uint8_t plan_lists(const uint64_t request[61], struct lent *lent) {
    static const uint32_t indexes[] = {0, 1, 2}, none[] = {0};
    static const uint64_t sizes[] = {400000, 400000, 400000};
    return yuzhbani_plan_lists(request, indexes, 3, sizes, 3, indexes, 2, sizes, 2, none, 0, none, 0, none, 0, none, 0, none, 0, none, 0,
                               lent->numbers, lent->rows, ROOM, lent->columns, ROOM);
}

static uint8_t page(const struct lent *lent, uint64_t number, uint64_t numbers[12]) {
    return yuzhbani_page(lent->numbers, number, lent->rows, ROOM, lent->columns, ROOM, numbers);
}

static uint8_t block(const struct lent *lent, uint64_t from, size_t room, uint64_t told[2], uint8_t out[65536]) {
    return yuzhbani_block(lent->numbers, from, lent->rows, room, lent->columns, ROOM, told, out);
}

/* Prints what program `plan` prints, and says whether that is the file's answer. */
static int prints_the_answer(uint8_t answer, const struct lent *lent) {
    static uint8_t out[65536], text[sizeof expected + sizeof out];
    uint64_t told[2] = {0, 0}, from = 1;
    size_t len = yuzhbani_head(answer, lent->numbers, text);
    while (len <= sizeof expected && block(lent, from, ROOM, told, out) == 0 && told[0] > 0) {
        memcpy(text + len, out, told[1]);
        len += told[1];
        from += told[0];
    }
    fwrite(text, 1, len, stdout);
    return len == expected_len && memcmp(text, expected, len) == 0 && from == lent->numbers[YUZHBANI_PLAN_PAGES] + 1;
}

/* A job of the example's slots and two areas: the example's, fitted to a page of its own scale, and its first cell. The bytes of the example
 * are PC, AR and the slots; FT stands before AR. Answers how many bytes. */
static size_t two_areas(uint8_t bytes[YUZHBANI_MOST_BYTES]) {
    enum { PAPER = 4, AREA = 14 };
    static const uint8_t fit[] = {'F', 'T', 1}, cell[] = {'A', 'R', 0, 0, 0, 0, 0, 0, 0, 0, 0, 0, 0, 0};
    uint8_t *at = bytes;
    memcpy(at, job, PAPER), at += PAPER;
    memcpy(at, fit, sizeof fit), at += sizeof fit;
    memcpy(at, job + PAPER, AREA), at += AREA;
    memcpy(at, cell, sizeof cell), at += sizeof cell;
    memcpy(at, job + PAPER + AREA, job_len - PAPER - AREA), at += job_len - PAPER - AREA;
    return (size_t)(at - bytes);
}

/* Prints a job as program `plan` does, area by area in the same two lists, which have room for one run. Answers how many bytes. */
static size_t print_areas(const uint8_t *bytes, size_t len, const uint64_t numbers[60], uint8_t *text) {
    static uint8_t out[65536];
    uint64_t rows[YUZHBANI_RUN_NUMBERS] = {0}, columns[YUZHBANI_RUN_NUMBERS] = {0}, counts[2] = {0, 0}, told[2] = {0, 0}, from = 1;
    size_t end = yuzhbani_head(0, numbers, text);
    for (size_t k = 0; k < numbers[YUZHBANI_PLAN_AREA_COUNT]; k++) {
        uint16_t permille = (uint16_t)numbers[in_area(k, YUZHBANI_AREA_PERMILLE)];
        if (k > 0) end += yuzhbani_area_line(k + 1, permille, text + end);
        if (yuzhbani_write_area(bytes, len, k + 1, permille, counts, rows, YUZHBANI_RUN_NUMBERS, columns, YUZHBANI_RUN_NUMBERS) != 0) return 0;
        if (yuzhbani_block(numbers, from, rows, YUZHBANI_RUN_NUMBERS, columns, YUZHBANI_RUN_NUMBERS, told, out) != 0) return 0;
        memcpy(text + end, out, told[1]);
        end += told[1];
        from += told[0];
    }
    return end;
}

/* ---- the tests: whether each holds */

static int as_many_numbers_as_the_calls_say(void) {
    return YUZHBANI_RUN_NUMBERS == 4 && YUZHBANI_AREA_NUMBERS == 6 && YUZHBANI_PLAN_AREAS == 12 && YUZHBANI_PLAN_NUMBERS == 60
           && YUZHBANI_PAGE_NUMBERS == 12 && YUZHBANI_RANGE_NUMBERS == 4 && YUZHBANI_REQUEST_AREAS == 23
           && YUZHBANI_REQUEST_TITLE_ROWS_GIVEN == 55 && YUZHBANI_REQUEST_NUMBERS == 61;
}

static int example_by_bytes(void) {
    struct lent lent = unwritten(), planned = first();
    uint8_t answer = plan(job_len, &lent, ROOM);
    return answer == 0 && same(&lent, &planned) && prints_the_answer(answer, &lent);
}

static int example_by_lists(void) {
    struct lent lent = unwritten(), planned = first();
    uint64_t request[61];
    ask(request);
    uint8_t answer = plan_lists(request, &lent);
    return answer == 0 && same(&lent, &planned) && prints_the_answer(answer, &lent);
}

static int areas_one_after_another(void) {
    static const char lines[] = "plan 778 2\nnotes 0 0 0 0 0 0 0 0 0\npage 1 0 0 0 2 0 1 1200000 800000\n"
                                "area 2 1000\npage 2 0 0 0 0 0 0 400000 400000\n";
    static uint8_t bytes[YUZHBANI_MOST_BYTES], text[4096];
    struct lent lent = unwritten();
    uint64_t numbers[60];
    size_t len = two_areas(bytes);
    memset(numbers, 77, sizeof numbers);
    if (yuzhbani_count(bytes, len, numbers) != 0 || numbers[YUZHBANI_PLAN_AREA_COUNT] != 2) return 0;
    if (yuzhbani_plan(bytes, len, lent.numbers, lent.rows, ROOM, lent.columns, ROOM) != 0) return 0;
    size_t end = print_areas(bytes, len, numbers, text);
    return memcmp(numbers, lent.numbers, sizeof numbers) == 0 && end == sizeof lines - 1 && memcmp(text, lines, end) == 0
           && lent.rows[YUZHBANI_RUN_NUMBERS + YUZHBANI_RUN_SIZE] == 400000;
}

static int two_areas_by_lists(void) {
    struct lent lent = unwritten();
    uint64_t request[61], numbers[12] = {0};
    ask(request);
    request[YUZHBANI_REQUEST_AREA_COUNT] = 2;
    request[YUZHBANI_REQUEST_CELL_LIMIT_GIVEN] = 1;
    request[YUZHBANI_REQUEST_CELL_LIMIT] = 6;
    uint8_t answer = plan_lists(request, &lent);
    return answer == 0 && lent.numbers[YUZHBANI_PLAN_PAGES] == 5 && lent.numbers[in_area(1, YUZHBANI_AREA_ROW_RUNS)] == 1
           && page(&lent, 5, numbers) == 0 && numbers[YUZHBANI_PAGE_LAST_ROW] == 0 && numbers[YUZHBANI_PAGE_ROWS_SIZE] == 400000;
}

static int a_refused_area_writes_nothing(void) {
    struct lent lent = unwritten(), before = unwritten();
    uint64_t counts[2] = {77, 77};
    uint8_t none = yuzhbani_write_area(job, job_len, 2, 1000, counts, lent.rows, ROOM, lent.columns, ROOM);
    uint8_t no_scale = yuzhbani_write_area(job, job_len, 1, 0, counts, lent.rows, ROOM, lent.columns, ROOM);
    uint8_t no_room = yuzhbani_write_area(job, job_len, 1, 1000, counts, lent.rows, 7, lent.columns, ROOM);
    uint8_t no_job = yuzhbani_count(job, job_len - 1, lent.numbers);
    return none == 14 && no_scale == 10 && no_room == 11 && no_job == 2 && same(&lent, &before) && counts[0] == 77 && counts[1] == 77;
}

static int a_page_by_number(void) {
    static const uint64_t second[12] = {1, 0, 2, 2, 400000, 0, 0, 0, 0, 400000, 0, 0};
    struct lent planned = first();
    uint64_t numbers[12] = {0};
    return page(&planned, 2, numbers) == 0 && memcmp(numbers, second, sizeof second) == 0;
}

static int no_page_writes_nothing(void) {
    struct lent planned = first();
    uint64_t numbers[12], before[12];
    memset(before, 77, sizeof before);
    memcpy(numbers, before, sizeof before);
    uint8_t below = page(&planned, 0, numbers), above = page(&planned, 5, numbers);
    planned.numbers[in_area(0, YUZHBANI_AREA_ROW_RUNS)] = 4;
    return below == 14 && above == 14 && page(&planned, 1, numbers) == 11 && memcmp(numbers, before, sizeof before) == 0;
}

static int a_refused_job_writes_nothing(void) {
    struct lent lent = unwritten(), before = unwritten();
    uint8_t answer = plan(job_len - 1, &lent, ROOM), out[256] = {0};
    size_t len = yuzhbani_head(answer, lent.numbers, out);
    return answer == 2 && same(&lent, &before) && len == 5 && memcmp(out, "no 2\n", 5) == 0;
}

static int a_list_too_short_writes_nothing(void) {
    struct lent lent = unwritten(), before = unwritten();
    return plan(job_len, &lent, 7) == 11 && same(&lent, &before) && plan(job_len, &lent, 8) == 0;
}

static int refused_lists_write_nothing(void) {
    static const struct {
        uint8_t answer;
        int place;
        uint64_t number;
    } changes[] = {
        {4, YUZHBANI_REQUEST_AREA_COUNT, 0},
        {4, YUZHBANI_REQUEST_AREA_COUNT, 9},
        {5, YUZHBANI_REQUEST_FIT, 2},
        {5, YUZHBANI_REQUEST_ORDER, 2},
        {6, YUZHBANI_REQUEST_AREAS + YUZHBANI_RANGE_FIRST_ROW, 3},
        {7, YUZHBANI_REQUEST_AREAS + YUZHBANI_RANGE_LAST_COLUMN, 16384},
        {15, YUZHBANI_REQUEST_CELL_LIMIT_GIVEN, 1},
        {12, YUZHBANI_REQUEST_PAGE_LIMIT, 3},
    };
    struct lent before = unwritten();
    for (size_t i = 0; i < sizeof changes / sizeof *changes; i++) {
        struct lent lent = unwritten();
        uint64_t request[61];
        ask(request);
        request[changes[i].place] = changes[i].number;
        if (plan_lists(request, &lent) != changes[i].answer || !same(&lent, &before)) return 0;
    }
    return 1;
}

static int no_area_is_asked_before_the_fit(void) {
    struct lent before = unwritten(), lent = unwritten();
    uint64_t request[61];
    ask(request);
    request[YUZHBANI_REQUEST_AREA_COUNT] = 0;
    request[YUZHBANI_REQUEST_FIT] = 2;
    return plan_lists(request, &lent) == 4 && same(&lent, &before);
}

static int a_block_from_the_middle(void) {
    static const char lines[] = "page 3 0 1 0 1 1 1 800000 400000\npage 4 1 1 2 2 1 1 400000 400000\n";
    static uint8_t out[65536];
    struct lent planned = first();
    uint64_t told[2] = {0, 0};
    return block(&planned, 3, ROOM, told, out) == 0 && told[0] == 2 && told[1] == sizeof lines - 1
           && memcmp(out, lines, sizeof lines - 1) == 0;
}

static int a_refused_block_writes_nothing(void) {
    static uint8_t out[65536], before[65536];
    struct lent planned = first();
    uint64_t told[2] = {77, 77};
    memset(before, 77, sizeof before);
    memcpy(out, before, sizeof before);
    return block(&planned, 0, ROOM, told, out) == 14 && block(&planned, 5, ROOM, told, out) == 14 && block(&planned, 1, 7, told, out) == 11
           && told[0] == 77 && told[1] == 77 && memcmp(out, before, sizeof before) == 0;
}

/* ---- the program */

/* The bytes of a file, at most so many. */
static size_t read_whole(const char *name, uint8_t *bytes, size_t most) {
    FILE *file = fopen(name, "rb");
    size_t len = file == NULL ? 0 : fread(bytes, 1, most, file);
    if (len == 0) {
        fprintf(stderr, "c_test: %s cannot be read, or is empty\n", name);
        exit(2);
    }
    fclose(file);
    return len;
}

#define TEST(name) {#name, name}

int main(int count, char **words) {
    static const struct {
        const char *name;
        int (*holds)(void);
    } tests[] = {
        TEST(as_many_numbers_as_the_calls_say),
        TEST(example_by_bytes),
        TEST(example_by_lists),
        TEST(areas_one_after_another),
        TEST(two_areas_by_lists),
        TEST(a_refused_area_writes_nothing),
        TEST(a_page_by_number),
        TEST(no_page_writes_nothing),
        TEST(a_refused_job_writes_nothing),
        TEST(a_list_too_short_writes_nothing),
        TEST(refused_lists_write_nothing),
        TEST(no_area_is_asked_before_the_fit),
        TEST(a_block_from_the_middle),
        TEST(a_refused_block_writes_nothing),
    };
    if (count != 3) {
        fprintf(stderr, "usage: c_test JOB OUT\n");
        return 2;
    }
    job_len = read_whole(words[1], job, sizeof job);
    expected_len = read_whole(words[2], expected, sizeof expected);
    int passed = 0, failed = 0;
    for (size_t i = 0; i < sizeof tests / sizeof *tests; i++) {
        int holds = tests[i].holds();
        printf("test %s ... %s\n", tests[i].name, holds ? "ok" : "FAILED");
        if (holds) passed++;
        else failed++;
    }
    printf("test result: %s. %d passed; %d failed;\n", failed ? "FAILED" : "ok", passed, failed);
    return failed ? 1 : 0;
}
