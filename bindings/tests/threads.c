/* Four writers append while two readers ask; each tail is at least the one before, and all that is asked at a tail is about just that many
** records. Writers append numbers in one run, and batches of frames in another. */
#define _POSIX_C_SOURCE 200809L
#include "confluo.h"
#include <pthread.h>
#include <stdio.h>
#include <string.h>

enum { WRITERS = 4, READERS = 2, EACH = 1536, BATCH = 48 };

static const char questions[] = "ask all total len *\nask first find hosts 0 0\nask seconds measure sums 0 100\nask top top keys count 4\n";
static const char records[] = "schema records ts:u64,host:u32,len:u32\n";
static const char packets[] = "schema packet\n";
static const char records_lanes[] = "index hosts host\nfilter every *\naggregate sums every len\ntally keys host len *\n";
static const char packets_lanes[] = "index hosts src\nfilter every *\naggregate sums every len\ntally keys src len *\n";

static pthread_barrier_t start;
static int with_frames;

static uintptr_t append_numbers(confluo_writer *writer) {
    uintptr_t wrong = 0;
    for (uint64_t k = 0; k < EACH; k++) {
        const uint64_t row[3] = {k * 1000000, k % 4, 100};
        uint32_t offset;
        if (confluo_append_values(writer, (uint32_t)k, row, 3, &offset) != CONFLUO_OK || offset >= WRITERS * EACH) wrong++;
    }
    return wrong;
}

static uintptr_t append_frames(confluo_writer *writer) {
    uint8_t bytes[4][34] = {{0}};
    confluo_frame frames[BATCH];
    uint32_t offsets[BATCH];
    uintptr_t wrong = 0;
    for (uint8_t host = 0; host < 4; host++) {
        bytes[host][12] = 8, bytes[host][14] = 0x45, bytes[host][17] = 20, bytes[host][29] = host;
    }
    for (uint32_t from = 0; from < EACH; from += BATCH) {
        size_t done = 0;
        for (uint32_t k = 0; k < BATCH; k++) {
            const confluo_capture capture = {.ns = (from + k) * UINT64_C(1000000), .number = from + k, .length = 100, .link = 1};
            frames[k] = (confluo_frame){.capture = capture, .from = k % 4 * sizeof *bytes, .count = sizeof *bytes};
        }
        const uint32_t code = confluo_append_many(writer, frames, BATCH, *bytes, sizeof bytes, offsets, BATCH, &done);
        if (code != CONFLUO_OK || done != BATCH) wrong++;
        for (uint32_t k = 1; k < BATCH; k++) wrong += offsets[k] <= offsets[k - 1] || offsets[k] >= WRITERS * EACH;
    }
    return wrong;
}

static void *append(void *given) {
    confluo_writer *writer = given;
    pthread_barrier_wait(&start);
    const uintptr_t wrong = with_frames ? append_frames(writer) : append_numbers(writer);
    confluo_free_writer(writer);
    return (void *)wrong;
}

/* All questions, the groups of an aggregate and of a tally, and two rows, at one tail. */
static uintptr_t ask_at(confluo_reader *reader, uint32_t tail) {
    confluo_head head = {0, 0, 0};
    confluo_value row[24];
    uint64_t words[5 * 16];
    uint32_t number;
    size_t count;
    uintptr_t wrong = 0;
    for (uint32_t q = 0; q < 4; q++) {
        wrong += confluo_ask_seen(reader, q, &head) != CONFLUO_OK || head.tail != tail;
        if (head.kind == CONFLUO_QUAD)
            wrong += confluo_words(reader, 0, words, 4) != 4 || words[0] != tail || words[1] != UINT64_C(100) * tail;
    }
    for (uint32_t lane = 2; lane < 4; lane++) {
        uint64_t records = 0;
        wrong += confluo_groups(reader, lane, &head) != CONFLUO_OK || head.tail != tail || head.count > 5 * 16;
        for (size_t k = 0, n = confluo_words(reader, 0, words, 5 * 16); k < n; k += 5) records += words[k + 1];
        wrong += records != tail;
    }
    for (uint32_t offset = tail - 1; tail > 0 && offset < tail; offset = offset / 2 + (offset == 0 ? tail : 0))
        wrong += confluo_row(reader, offset, &number, row, 24, &count) != CONFLUO_OK || row[0].number != number * UINT64_C(1000000);
    return wrong + (confluo_row(reader, tail, &number, row, 24, &count) != CONFLUO_NO_ROW);
}

static void *ask(void *given) {
    confluo_reader *reader = given;
    uintptr_t wrong = 0;
    pthread_barrier_wait(&start);
    for (uint32_t tail = 0, before = 0; before < WRITERS * EACH && !wrong; before = tail) {
        wrong += confluo_tail(reader, &tail) != CONFLUO_OK || tail < before;
        wrong += ask_at(reader, tail);
    }
    confluo_free_reader(reader);
    return (void *)wrong;
}

static uintptr_t run(void) {
    const confluo_sizes sizes = {.capacity = WRITERS * EACH, .writers = WRITERS, .nodes = 64};
    confluo_log *log = NULL;
    confluo_writer *writers[WRITERS] = {NULL};
    confluo_reader *readers[READERS] = {NULL};
    confluo_fault fault;
    pthread_t threads[WRITERS + READERS];
    char setup[512];
    uint32_t number;
    uintptr_t wrong = 0;
    snprintf(setup, sizeof setup, "%s%s%s", with_frames ? packets : records, with_frames ? packets_lanes : records_lanes, questions);
    if (confluo_open(&log, setup, strlen(setup), &sizes, &fault) != CONFLUO_OK) return 1;
    for (int w = 0; w < WRITERS; w++)
        if (confluo_take_writer(log, &writers[w], &number) != CONFLUO_OK) return 1;
    for (int r = 0; r < READERS; r++)
        if (confluo_take_reader(log, &readers[r]) != CONFLUO_OK) return 1;
    confluo_free_log(log);
    pthread_barrier_init(&start, NULL, WRITERS + READERS);
    for (int w = 0; w < WRITERS; w++) pthread_create(&threads[w], NULL, append, writers[w]);
    for (int r = 0; r < READERS; r++) pthread_create(&threads[WRITERS + r], NULL, ask, readers[r]);
    for (int t = 0; t < WRITERS + READERS; t++) {
        void *given;
        pthread_join(threads[t], &given);
        wrong += (uintptr_t)given;
    }
    pthread_barrier_destroy(&start);
    return wrong;
}

int main(void) {
    uintptr_t wrong = run();
    with_frames = 1;
    wrong += run();
    if (wrong) fprintf(stderr, "threads: %llu calls were wrong\n", (unsigned long long)wrong);
    return wrong != 0;
}
