/* Readers that wait: for a record, for the end of the time, and for the log to be closed. No wake is lost: each would take ten seconds. */
#include "check.h"
#include <time.h>

#define SECOND UINT64_C(1000000000)

static const char setup[] = "schema records ts:u64\nask all list *\n";

static uint64_t now(void) {
    struct timespec it;
    clock_gettime(CLOCK_MONOTONIC, &it);
    return (uint64_t)it.tv_sec * SECOND + (uint64_t)it.tv_nsec;
}

static void the_time_ends(void) {
    parts it = parts_of(setup, 4, 0);
    uint32_t tail = 7;
    uint64_t began = now();
    is(confluo_wait(NULL, 0, 10 * SECOND, &tail), CONFLUO_NOTHING, "nothing waits");
    is(tail, 7, "what that leaves");
    is(confluo_wait(it.reader, 0, 0, &tail), CONFLUO_OK, "no time");
    is(now() - began < 5 * SECOND, 1, "which is at once");
    is(tail, 0, "the tail");
    is(confluo_wait(it.reader, 0, SECOND / 20, &tail), CONFLUO_OK, "a little time");
    is(now() - began >= SECOND / 20, 1, "which goes by");
    is(tail, 0, "the tail");
    is(confluo_append_values(it.writer, 0, &(uint64_t){1}, 1, NULL), CONFLUO_OK, "append");
    is(confluo_wait(it.reader, 0, UINT64_MAX, &tail), CONFLUO_OK, "a record that is there");
    is(tail, 1, "the tail");
    free_parts(&it);
}

static void *close_later(void *given) {
    parts *it = given;
    const struct timespec moment = {0, 30000000};
    confluo_reader *last = NULL;
    nanosleep(&moment, NULL);
    confluo_free_writer(it->writer), it->writer = NULL;
    is(confluo_close(it->log, &last), CONFLUO_OK, "close");
    confluo_free_reader(last);
    return NULL;
}

static void a_log_is_closed(void) {
    parts it = parts_of(setup, 4, 0);
    pthread_t thread;
    const uint64_t began = now();
    uint32_t tail = 7;
    pthread_create(&thread, NULL, close_later, &it);
    is(confluo_wait(it.reader, 3, 10 * SECOND, &tail), CONFLUO_OK, "a log that is closed meanwhile");
    is(now() - began < 5 * SECOND, 1, "a wake was lost");
    is(tail, 0, "the tail");
    pthread_join(thread, NULL);
    is(confluo_wait(it.reader, 3, UINT64_MAX, &tail), CONFLUO_OK, "a log that is closed");
    free_parts(&it);
}

/* Two threads, each of which appends to one log once the other has appended to the other one. */
enum { ROUNDS = 20000 };
typedef struct {
    confluo_writer *writer;
    confluo_reader *reader;
    uint32_t behind;
    int by;
} player;

static uint32_t append_one(confluo_writer *writer, int by, uint64_t value) {
    const confluo_value row = {.number = value};
    if (by == 0) return confluo_append_values(writer, 0, &value, 1, NULL);
    return confluo_append_row(writer, 0, &row, 1, NULL);
}

static void *play(void *given) {
    player *it = given;
    for (uint32_t k = 0; k < ROUNDS && !failed; k++) {
        const uint64_t began = now();
        uint32_t tail = 0;
        if (k >= it->behind) is(confluo_wait(it->reader, k - it->behind, 10 * SECOND, &tail), CONFLUO_OK, "wait");
        if (k >= it->behind) is(tail > k - it->behind, 1, "a record of the other one");
        is(now() - began < 5 * SECOND, 1, "a wake was lost");
        is(append_one(it->writer, it->by, k), CONFLUO_OK, "append");
    }
    return NULL;
}

static void no_wake_is_lost(void) {
    parts one = parts_of(setup, ROUNDS, 0), other = parts_of(setup, ROUNDS, 0);
    player players[2] = {{one.writer, other.reader, 1, 0}, {other.writer, one.reader, 0, 1}};
    pthread_t threads[2];
    for (int k = 0; k < 2; k++) pthread_create(&threads[k], NULL, play, &players[k]);
    for (int k = 0; k < 2; k++) pthread_join(threads[k], NULL);
    free_parts(&one), free_parts(&other);
}

/* Four writers of batches and of frames, and three readers that each wait for the last record. */
enum { EACH = 300 };
static void *append_frames(void *given) {
    static const uint8_t bytes[60];
    const confluo_capture capture = {1000, 5, 60, 1, 0};
    const confluo_frame frames[2] = {{capture, 0, 60}, {capture, 0, 60}};
    size_t done;
    for (int k = 0; k < EACH; k += 3) {
        is(confluo_append(given, &capture, bytes, 60, NULL), CONFLUO_OK, "append");
        is(confluo_append_many(given, frames, 2, bytes, 60, NULL, 0, &done), CONFLUO_OK, "append two");
    }
    confluo_free_writer(given);
    return NULL;
}

static void *wait_for_all(void *given) {
    uint32_t before = 0, tail = 0;
    for (; tail < 4 * EACH && !failed; before = tail) {
        const uint64_t began = now();
        is(confluo_wait(given, before, 10 * SECOND, &tail), CONFLUO_OK, "wait");
        is(now() - began < 5 * SECOND, 1, "a wake was lost");
    }
    confluo_free_reader(given);
    return NULL;
}

static void all_are_seen(void) {
    confluo_log *log = NULL;
    confluo_writer *writers[4];
    confluo_reader *readers[3];
    pthread_t threads[7];
    is(opened(&log, "schema packet\n", 4 * EACH, 4, 0), CONFLUO_OK, "open");
    for (int k = 0; k < 3; k++) is(confluo_take_reader(log, &readers[k]), CONFLUO_OK, "reader");
    for (int k = 0; k < 4; k++) is(confluo_take_writer(log, &writers[k], NULL), CONFLUO_OK, "writer");
    for (int k = 0; k < 3; k++) pthread_create(&threads[4 + k], NULL, wait_for_all, readers[k]);
    for (int k = 0; k < 4; k++) pthread_create(&threads[k], NULL, append_frames, writers[k]);
    for (int k = 0; k < 7; k++) pthread_join(threads[k], NULL);
    confluo_free_log(log);
}

int main(void) {
    the_time_ends();
    a_log_is_closed();
    no_wake_is_lost();
    all_are_seen();
    return failed;
}
