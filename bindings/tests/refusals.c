/* Each allocation is refused in turn. The call answers CONFLUO_MEMORY, the handles are as they were, and the same call then goes through.
 */
#include "confluo.h"
#include <stdio.h>
#include <stdlib.h>
#include <string.h>

void *__real_malloc(size_t size);
void *__real_realloc(void *block, size_t size);
void *__wrap_malloc(size_t size);
void *__wrap_realloc(void *block, size_t size);

static long left = -1;

static int is_refused(void) { return left >= 0 && left-- == 0; }

void *__wrap_malloc(size_t size) { return is_refused() ? NULL : __real_malloc(size); }
void *__wrap_realloc(void *block, size_t size) { return is_refused() ? NULL : __real_realloc(block, size); }

static const char setup[] =
    "schema packet\nindex source src\ntally sources src len *\nask host find source 0.0.0.0 255.255.255.255\nask all list *\n";

typedef struct parts {
    confluo_log *log;
    confluo_writer *writer;
    confluo_reader *reader, *last, *other;
    confluo_span *span;
    uint32_t number, named, spanned, offsets[4];
    size_t done; /* of a batch */
    confluo_head head, all, groups;
    confluo_value row[20];
    char text[200], spans_text[200];
    size_t long_is, spans_long;
} parts;

enum { STEPS = 26 };

/* Frames 2 and 3 of the log, but for what is appended of them. */
static uint32_t append_batch(parts *at) {
    static const uint8_t frame[60] = {[12] = 8, [14] = 0x45, [29] = 1};
    const confluo_capture capture = {1000, 5, 60, 1, 0};
    const confluo_frame frames[] = {{capture, 0, 60}, {capture, 0, 60}};
    size_t done = 0;
    const uint32_t code = confluo_append_many(at->writer, frames + at->done, 2 - at->done, frame, 60, at->offsets + 1 + at->done, 2, &done);
    at->done += done;
    return code;
}

static uint32_t merged(void) {
    static const uint64_t one[] = {1, 1, 60, 60, 60}, other[] = {2, 1, 60, 60, 60};
    uint64_t out[10] = {0};
    size_t count = 0;
    const uint32_t code = confluo_merge(one, 5, other, 5, out, 10, &count);
    return code == CONFLUO_OK && (count != 10 || out[5] != 2) ? 99 : code;
}

static uint32_t call(parts *at, int step) {
    const confluo_sizes sizes = {8, 1, 64, 0};
    const confluo_capture capture = {1000, 5, 60, 1, 0};
    const uint8_t frame[60] = {[12] = 8, [14] = 0x45};
    confluo_fault fault;
    size_t count;
    uint64_t bytes;
    uint32_t number;
    switch (step) {
    case 0: return confluo_check(setup, strlen(setup), &sizes, &bytes, &fault);
    case 1: return confluo_open(&at->log, setup, strlen(setup), &sizes, &fault);
    case 2: return confluo_take_writer(at->log, &at->writer, &number);
    case 3: return confluo_take_reader(at->log, &at->reader);
    case 4: return confluo_append(at->writer, &capture, frame, sizeof frame, &at->offsets[0]);
    case 5: return append_batch(at);
    case 6: return confluo_tail(at->reader, &number);
    case 7: return confluo_row(at->reader, 2, &at->number, at->row, 20, &count);
    case 8: return confluo_append_row(at->writer, 6, at->row, 20, &at->offsets[3]);
    case 9: return confluo_ask(at->reader, 0, &at->head);
    case 10: return confluo_groups(at->reader, 1, &at->head);
    case 11: return merged();
    case 12: return confluo_ask_text(at->reader, "ask new list *", 14, &at->head, &fault);
    case 13: return confluo_ask_seen(at->reader, 1, &at->head);
    case 14: return confluo_reads_link(at->log, 1);
    case 15: return confluo_take_reader(at->log, &at->other);
    case 16: confluo_free_writer(at->writer), at->writer = NULL; return confluo_close(at->log, &at->last);
    case 17: return confluo_reader_number(at->last, CONFLUO_QUESTIONS, "all", &at->named);
    case 18: return confluo_report(at->last, at->text, sizeof at->text, &at->long_is);
    case 19: return confluo_span_of(&at->last, &at->span);
    case 20: return confluo_span_add(at->span, &at->other);
    case 21: return confluo_span_ask(at->span, 1, &at->all);
    case 22: return confluo_span_groups(at->span, 1, &at->groups);
    case 23: return confluo_span_row(at->span, 2, &at->spanned, at->row, 20, &count);
    case 24: return confluo_span_report(at->span, at->spans_text, sizeof at->spans_text, &at->spans_long);
    default: return confluo_span_ask_seen(at->span, 1, &at->all);
    }
}

/* The calls from the step on. Answers the step that is refused for memory, STEPS if none is, or STEPS + 1 if another code comes. */
static int run(parts *at, int step) {
    for (; step < STEPS; step++) {
        const uint32_t code = call(at, step);
        if (code == CONFLUO_MEMORY) return step;
        if (code != CONFLUO_OK) return STEPS + 1;
    }
    return step;
}

int main(void) {
    long tries = 0, refused[STEPS] = {0};
    for (int over = 0; !over; tries++) {
        parts at = {.number = 99, .named = 99};
        uint64_t words[5] = {7, 7, 7, 7, 7};
        left = tries;
        int step = run(&at, 0);
        over = left >= 0;
        left = -1;
        if (step < STEPS) {
            refused[step]++;
            step = run(&at, step);
        }
        const size_t count = confluo_words(at.reader, 0, words, 5);
        int wrong = step != STEPS || at.head.tail != 4 || count != 4 || at.number != 5 || at.named != 1 || words[3] != 3;
        wrong |= at.long_is < 9 || memcmp(at.text, "records 4", 9) != 0;
        wrong |= at.spans_long != at.long_is || strcmp(at.spans_text, at.text) != 0;
        wrong |= at.all.tail != 4 || at.all.count != 4 || at.groups.count == 0 || at.spanned != 5 || at.last != NULL || at.other != NULL;
        for (uint32_t k = 0; k < 4; k++) wrong |= at.offsets[k] != k || words[k] != k;
        if (wrong) {
            fprintf(stderr, "refusals: allocation %ld, step %d\n", tries, step);
            return 1;
        }
        confluo_free_writer(at.writer);
        confluo_free_log(at.log);
        confluo_free_reader(at.reader);
        confluo_free_reader(at.last);
        confluo_free_reader(at.other);
        confluo_free_span(at.span);
    }
    printf("refusals: %ld allocations, each refused once; by call", tries);
    for (int k = 0; k < STEPS; k++) printf(" %ld", refused[k]);
    putchar('\n');
    return 0;
}
