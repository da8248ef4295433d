/*
 * Whether memory stays flat over many calls of the library for C.
 *
 *     cc -std=c11 -O2 -I bindings -o library_flat bench/library_flat.c bindings/out/libconfluo.a
 *     ./library_flat [CALLS]
 *
 * Logs of 4,096 records are opened, filled, asked and freed, one after the other, for CALLS calls (10,000,000 where it
 * is not said) in all; a batch counts as one call for each of its frames. It prints the resident memory after a tenth
 * of the calls and at the end, and ends with 1 if there is more than 256 KiB between them, or a call was refused.
 */
#define _POSIX_C_SOURCE 200809L

#include "confluo.h"
#include <stdio.h>
#include <stdlib.h>
#include <string.h>
#include <unistd.h>

enum { RECORDS = 4096, BATCH = 64, QUESTIONS = 5 };

static const char setup[] =
    "schema packet\nindex hosts src\nfilter every *\naggregate sums every len\ntally keys src len *\n"
    "trigger large sums sum > 100\nask all total len *\nask one find hosts 10.0.0.1 10.0.0.3\n"
    "ask seconds measure sums 0 100\nask marks fired large\nask top top keys sum 4\n";

static unsigned long long calls;

static void must(uint32_t code) {
    calls++;
    if (code != CONFLUO_OK) {
        fprintf(stderr, "library_flat: code %u at call %llu\n", code, calls);
        exit(1);
    }
}

static long resident(void) {
    FILE *file = fopen("/proc/self/statm", "r");
    long all = 0, held = 0;
    if (file == NULL || fscanf(file, "%ld %ld", &all, &held) != 2) {
        exit(2);
    }
    fclose(file);
    return held * (sysconf(_SC_PAGESIZE) / 1024);
}

static void append_all(confluo_writer *writer) {
    uint8_t bytes[8][34] = {{0}};
    confluo_frame frames[BATCH];
    uint32_t offsets[BATCH];
    size_t done;
    for (uint8_t host = 0; host < 8; host++) {
        bytes[host][12] = 8, bytes[host][14] = 0x45, bytes[host][17] = 20, bytes[host][26] = 10, bytes[host][29] = host;
    }
    for (uint32_t from = 0; from < RECORDS; from += BATCH) {
        for (uint32_t k = 0; k < BATCH; k++) {
            const confluo_capture capture = {(from + k) * UINT64_C(1000000), from + k, 100, 1, 0};
            frames[k] = (confluo_frame){capture, k % 8 * sizeof *bytes, sizeof *bytes};
            if (from % (4 * BATCH) == 0) {
                must(confluo_append(writer, &capture, bytes[k % 8], sizeof *bytes, offsets));
            }
        }
        if (from % (4 * BATCH) != 0) {
            must(confluo_append_many(writer, frames, BATCH, *bytes, sizeof bytes, offsets, BATCH, &done));
            calls += BATCH - 1;
        }
    }
}

static void ask_all(confluo_reader *reader) {
    static uint64_t words[RECORDS], merged[2 * RECORDS];
    confluo_value row[20];
    confluo_head head;
    uint32_t tail, number;
    size_t count;
    must(confluo_tail(reader, &tail));
    for (uint32_t q = 0; q < QUESTIONS; q++) {
        must(confluo_ask_seen(reader, q, &head));
        must(confluo_words(reader, 0, words, RECORDS) == head.count ? CONFLUO_OK : 99);
    }
    must(confluo_groups(reader, 3, &head));
    confluo_words(reader, 0, words, RECORDS);
    must(confluo_merge(words, head.count, words, head.count, merged, 2 * RECORDS, &count));
    for (uint32_t k = 0; k < RECORDS; k++) {
        must(confluo_row(reader, k, &number, row, 20, &count));
    }
}

int main(int count, char **words) {
    const unsigned long long all = count > 1 ? strtoull(words[1], NULL, 10) : 10000000;
    const confluo_sizes sizes = {RECORDS, 1, 256, 0};
    long early = 0;
    while (calls < all) {
        confluo_log *log = NULL;
        confluo_writer *writer = NULL;
        confluo_reader *reader = NULL;
        confluo_fault fault;
        uint32_t number;
        must(confluo_open(&log, setup, strlen(setup), &sizes, &fault));
        must(confluo_take_writer(log, &writer, &number));
        must(confluo_take_reader(log, &reader));
        append_all(writer);
        ask_all(reader);
        confluo_free_writer(writer);
        confluo_free_reader(reader);
        confluo_free_log(log);
        if (early == 0 && calls >= all / 10) {
            early = resident();
        }
    }
    const long late = resident();
    printf("%llu calls, resident memory %ld KiB after a tenth of them and %ld KiB at the end\n", calls, early, late);
    return late > early + 256;
}
