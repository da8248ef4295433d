/* Each allocation of a rolling log is refused in turn, as refusals.c does with those of a log. The call answers CONFLUO_MEMORY, the handles
 * are as they were, and the same call then goes through. */
#include "confluo_rolling.h"
#include <stdio.h>

void *__real_malloc(size_t size);
void *__real_realloc(void *block, size_t size);
void *__wrap_malloc(size_t size);
void *__wrap_realloc(void *block, size_t size);

static long left = -1;

static int is_refused(void) { return left >= 0 && left-- == 0; }

void *__wrap_malloc(size_t size) { return is_refused() ? NULL : __real_malloc(size); }
void *__wrap_realloc(void *block, size_t size) { return is_refused() ? NULL : __real_realloc(block, size); }

static const char setup[] = "schema records ts:u64,host:u32\nindex hosts host\ntally keys host host *\nask all list *\n";

typedef struct parts {
    confluo_rolling *rolling;
    confluo_rolling_writer *writer;
    confluo_rolling_reader *reader, *other;
    confluo_log *names;
    uint64_t appended, last, end;
    uint32_t number, tail;
    confluo_head head, groups;
    confluo_value row[2];
} parts;

enum { STEPS = 12, CAPACITY = 2, KEEP = 2 };

/* Appends up to so many records, one more at each call that goes through. */
static uint32_t append_up_to(parts *at, uint64_t count) {
    uint32_t code = CONFLUO_OK;
    while (code == CONFLUO_OK && at->appended < count) {
        const uint64_t values[] = {1000, at->appended};
        code = confluo_rolling_append_values(at->writer, (uint32_t)at->appended, values, 2, &at->last);
        if (code == CONFLUO_OK) at->appended++;
    }
    return code;
}

static uint32_t call(parts *at, int step) {
    const confluo_sizes sizes = {CAPACITY, 2, 64, 0};
    size_t count;
    switch (step) {
    case 0: return confluo_rolling_open_str(&at->rolling, setup, &sizes, KEEP, NULL);
    case 1: return confluo_rolling_take_writer(at->rolling, &at->writer, &at->number);
    case 2: return confluo_rolling_take_reader(at->rolling, &at->reader);
    case 3: return append_up_to(at, 5);
    case 4: return confluo_rolling_tail(at->reader, &at->tail);
    case 5: return append_up_to(at, 15);
    case 6: return confluo_rolling_wait(at->reader, 0, 0, &at->end);
    case 7: return confluo_rolling_ask(at->reader, 0, &at->head);
    case 8: return confluo_rolling_groups(at->reader, 1, &at->groups);
    case 9: return confluo_rolling_row(at->reader, 2, &at->number, at->row, 2, &count);
    case 10: return confluo_rolling_take_reader(at->rolling, &at->other);
    default: return confluo_rolling_names(at->other, &at->names);
    }
}

/* The calls from the step on. Answers the step that is refused for memory, STEPS if none is, or STEPS + 1 if another code comes. */
static int run(parts *at, int step) {
    for (; step < STEPS; step++) {
        const uint32_t code = call(at, step);
        if (code == CONFLUO_MEMORY) return step;
        if (code != CONFLUO_OK) return STEPS + 1;
    }
    return step;
}

int main(void) {
    long tries = 0, refused[STEPS] = {0};
    for (int over = 0; !over; tries++) {
        parts at = {.number = 99};
        uint64_t before = 99;
        size_t segments = 99;
        left = tries;
        int step = run(&at, 0);
        over = left >= 0;
        left = -1;
        if (step < STEPS) {
            refused[step]++;
            step = run(&at, step);
        }
        int wrong = step != STEPS || at.appended != 15 || at.last != 14 || at.tail != 3 || at.end != 15;
        wrong |= confluo_rolling_segments(at.reader, &segments, &before) != CONFLUO_OK || segments != KEEP || before != 12;
        wrong |= at.head.tail != 3 || at.head.count != 3 || at.groups.count != 15 || at.number != 14 || at.row[1].number != 14;
        wrong |= confluo_rolling_ask(at.other, 0, &at.head) != CONFLUO_OK || at.head.tail != 3;
        if (wrong) {
            fprintf(stderr, "rolling_refusals: allocation %ld, step %d\n", tries, step);
            return 1;
        }
        confluo_free_rolling(at.rolling), confluo_free_rolling_writer(at.writer);
        confluo_free_rolling_reader(at.reader), confluo_free_rolling_reader(at.other);
    }
    printf("rolling_refusals: %ld allocations, each refused once; by call", tries);
    for (int k = 0; k < STEPS; k++) printf(" %ld", refused[k]);
    putchar('\n');
    return 0;
}
