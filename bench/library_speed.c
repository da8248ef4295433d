/*
 * How fast the library for C appends and answers, from C.
 *
 *     cc -std=c11 -O2 -I bindings -o library_speed bench/library_speed.c bindings/out/libconfluo.a -pthread
 *     ./library_speed FORM LANES THREADS [BATCH]
 *
 * FORM is `rows`: rows of 20 numbers, with LANES indexes over keys of 256 values, as in bench/plain_twin.c; or
 * `frames`: captured frames of 54 bytes under the usual setup of bench/speed.py, one in each call, or BATCH in each
 * call. 65,536 records are appended by THREADS writers, record k by writer k mod THREADS; then THREADS readers ask each
 * question. It prints lines of `NAME SECONDS CALLS`: `append`, and each question by the seconds of CALLS answers to
 * each of the readers. It ends with 1 if the log is not whole, and with 2 for faulty words.
 */
#define _POSIX_C_SOURCE 200809L

#include "confluo.h"
#include <pthread.h>
#include <stdio.h>
#include <stdlib.h>
#include <string.h>
#include <time.h>

enum { RECORDS = 65536, WIDTH = 20, FRAME = 54, MOST = 15 };

static const char usual[] =
    "schema packet\nindex source src\nfilter every *\naggregate bytes every len\ntrigger busy bytes sum > 570000\n"
    "ask find find source 10.0.0.7 10.0.0.7\nask measure measure bytes 0 1000000\nask fired fired busy\n"
    "ask list list len>1080\n";

static const struct {
    const char *name;
    uint32_t asked;
} questions[] = {{"find", 500}, {"measure", 20000}, {"fired", 20000}, {"list", 50}};

static uint8_t frames[RECORDS][FRAME];
static confluo_capture captures[RECORDS];
static uint64_t rows[RECORDS][WIDTH];
static uint32_t threads, batch;
static int with_frames;
static pthread_barrier_t start;
static uint32_t question;

static double seconds(void) {
    struct timespec now;
    clock_gettime(CLOCK_MONOTONIC, &now);
    return (double)now.tv_sec + 1e-9 * (double)now.tv_nsec;
}

static void put(uint8_t *at, uint32_t value, int bytes) {
    for (int k = 0; k < bytes; k++) {
        at[k] = (uint8_t)(value >> 8 * (bytes - 1 - k));
    }
}

/* The packets of `confluo synth --seed 1`, all TCP, and rows of numbers. */
static void draw(void) {
    static const uint8_t front[] = {2, 0, 0, 0, 0, 1, 2, 0, 0, 0, 0, 2, 8, 0, 0x45, 0};
    uint64_t state = 1;
    for (uint32_t k = 0; k < RECORDS; k++) {
        state = state * UINT64_C(6364136223846793005) + UINT64_C(1442695040888963407);
        const uint32_t r = (uint32_t)(state >> 32), length = 64 + (r >> 20) % 1024;
        uint8_t *frame = frames[k];
        memcpy(frame, front, sizeof front);
        put(frame + 16, length - 14, 2);
        frame[22] = 64, frame[23] = 6;
        put(frame + 26, 0x0a000000 + r % 16, 4);
        put(frame + 30, 0x0a000100 + (r >> 4) % 16, 4);
        put(frame + 34, 40000 + (r >> 10) % 256, 2);
        put(frame + 36, 443, 2);
        put(frame + 38, k, 4);
        frame[46] = 0x50, frame[47] = 0x10, frame[48] = 4;
        captures[k] = (confluo_capture){(1 + k / 1000) * UINT64_C(1000000000) + k % 1000 * 1000000, k, length, 1, 0};
        rows[k][0] = captures[k].ns;
        for (uint32_t i = 1; i < WIDTH; i++) {
            state = state * UINT64_C(6364136223846793005) + UINT64_C(1442695040888963407);
            rows[k][i] = (state >> 32) % 256;
        }
    }
}

typedef struct {
    confluo_writer *writer;
    confluo_reader *reader;
    uint32_t number;
    double began, ended;
    int wrong;
} job;

/* The frames of a batch, whose bytes stand in `frames`. */
static int append_batch(job *it, const uint32_t *mine, uint32_t count) {
    static _Thread_local confluo_frame many[RECORDS];
    static _Thread_local uint32_t offsets[RECORDS];
    size_t done = 0;
    for (uint32_t k = 0; k < count; k++) {
        many[k] = (confluo_frame){.capture = captures[mine[k]], .from = (uint64_t)mine[k] * FRAME, .count = FRAME};
    }
    return confluo_append_many(it->writer, many, count, *frames, sizeof frames, offsets, RECORDS, &done) != CONFLUO_OK;
}

static int append_part(job *it, const uint32_t *mine, uint32_t count) {
    uint32_t offset;
    if (batch > 1) {
        return append_batch(it, mine, count);
    }
    for (uint32_t k = 0; k < count; k++) {
        const uint32_t n = mine[k];
        const uint32_t code = with_frames ? confluo_append(it->writer, &captures[n], frames[n], FRAME, &offset)
                                          : confluo_append_values(it->writer, n, rows[n], WIDTH, &offset);
        if (code != CONFLUO_OK) {
            return 1;
        }
    }
    return 0;
}

static void *append(void *given) {
    job *it = given;
    static _Thread_local uint32_t mine[RECORDS];
    uint32_t count = 0;
    for (uint32_t k = it->number; k < RECORDS; k += threads) {
        mine[count++] = k;
    }
    pthread_barrier_wait(&start);
    it->began = seconds();
    for (uint32_t from = 0; from < count && !it->wrong; from += batch) {
        it->wrong = append_part(it, mine + from, count - from < batch ? count - from : batch);
    }
    it->ended = seconds();
    return NULL;
}

static void *ask(void *given) {
    job *it = given;
    static _Thread_local uint64_t words[RECORDS];
    confluo_head head;
    pthread_barrier_wait(&start);
    it->began = seconds();
    for (uint32_t k = 0; k < questions[question].asked && !it->wrong; k++) {
        it->wrong = confluo_ask(it->reader, question, &head) != CONFLUO_OK ||
                    confluo_words(it->reader, 0, words, RECORDS) != head.count || head.tail != RECORDS ||
                    head.count == 0;
    }
    it->ended = seconds();
    return NULL;
}

/* Runs the threads at once, and prints the seconds from the first one's begin to the last one's end. */
static int timed(const char *name, uint32_t calls, job *jobs, void *(*work)(void *)) {
    pthread_t ids[MOST];
    int wrong = 0;
    pthread_barrier_init(&start, NULL, threads);
    for (uint32_t t = 0; t < threads; t++) {
        pthread_create(&ids[t], NULL, work, &jobs[t]);
    }
    double began = 1e300, ended = 0;
    for (uint32_t t = 0; t < threads; t++) {
        pthread_join(ids[t], NULL);
        began = jobs[t].began < began ? jobs[t].began : began;
        ended = jobs[t].ended > ended ? jobs[t].ended : ended;
        wrong |= jobs[t].wrong;
    }
    pthread_barrier_destroy(&start);
    printf("%s %.6f %u\n", name, ended - began, calls);
    return wrong;
}

static uint32_t open_log(confluo_log **log, uint32_t lanes) {
    const confluo_sizes sizes = {.capacity = RECORDS, .writers = threads, .nodes = 4096};
    char setup[1024] = "schema records ts:u64";
    confluo_fault fault;
    for (uint32_t i = 1; i < WIDTH; i++) {
        sprintf(setup + strlen(setup), ",a%u:u8", i);
    }
    strcat(setup, "\n");
    for (uint32_t i = 1; i <= lanes; i++) {
        sprintf(setup + strlen(setup), "index i%u a%u\n", i, i);
    }
    const char *text = with_frames ? usual : setup;
    return confluo_open(log, text, strlen(text), &sizes, &fault);
}

int main(int count, char **words) {
    const uint32_t lanes = count > 2 ? (uint32_t)atoi(words[2]) : 99;
    threads = count > 3 ? (uint32_t)atoi(words[3]) : 0;
    batch = count > 4 ? (uint32_t)atoi(words[4]) : 1;
    with_frames = count > 1 && strcmp(words[1], "frames") == 0;
    if (count < 4 || lanes > 16 || threads < 1 || threads > MOST || batch < 1 || (!with_frames && batch > 1)) {
        fputs("usage: library_speed rows|frames LANES THREADS [BATCH]\n", stderr);
        return 2;
    }
    confluo_log *log = NULL;
    static job jobs[MOST];
    draw();
    int wrong = open_log(&log, lanes) != CONFLUO_OK;
    for (uint32_t t = 0; t < threads && !wrong; t++) {
        wrong = confluo_take_writer(log, &jobs[t].writer, &jobs[t].number) != CONFLUO_OK ||
                confluo_take_reader(log, &jobs[t].reader) != CONFLUO_OK;
    }
    wrong = wrong || timed("append", RECORDS, jobs, append);
    for (question = 0; question < 4 && with_frames && !wrong; question++) {
        wrong = timed(questions[question].name, questions[question].asked, jobs, ask);
    }
    for (uint32_t t = 0; t < threads; t++) {
        confluo_free_writer(jobs[t].writer);
        confluo_free_reader(jobs[t].reader);
    }
    confluo_free_log(log);
    if (wrong) {
        fputs("library_speed: the log is not whole\n", stderr);
    }
    return wrong;
}
