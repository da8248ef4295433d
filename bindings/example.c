/* Two threads append records, and a third asks while they do. Prints how many records there are, and the total of their lengths. */
#include "confluo.h"
#include <pthread.h>
#include <stdio.h>
#include <string.h>

static const char setup[] = "schema records ts:u64,host:u32,len:u32\n"
                            "index hosts host\n"
                            "ask all total len *\n"
                            "ask first find hosts 1 1\n";

static int refused(uint32_t code, const char *call) {
    if (code != CONFLUO_OK) fprintf(stderr, "%s: %s\n", call, confluo_error_name(code));
    return code != CONFLUO_OK;
}

static void *append(void *given) {
    confluo_writer *writer = given;
    for (uint64_t k = 0; k < 1000; k++) {
        const uint64_t row[] = {1000 * k, 1 + k % 4, 100};
        uint32_t offset;
        if (refused(confluo_append_values(writer, (uint32_t)k, row, 3, &offset), "append")) break;
    }
    confluo_free_writer(writer);
    return NULL;
}

static void *ask(void *given) {
    confluo_reader *reader = given;
    for (uint32_t tail = 0, before = 0; tail < 2000; before = tail) {
        if (refused(confluo_tail(reader, &tail), "tail")) break;
        if (tail < before) fprintf(stderr, "the tail fell\n");
    }
    return NULL;
}

int main(void) {
    const confluo_sizes sizes = {.capacity = 4096, .writers = 2, .nodes = 64};
    confluo_log *log = NULL;
    confluo_writer *writers[2] = {NULL};
    confluo_reader *reader = NULL;
    confluo_fault fault = {0, 0};
    uint32_t number;
    if (refused(confluo_open(&log, setup, strlen(setup), &sizes, &fault), "open")) return 1;
    if (refused(confluo_take_reader(log, &reader), "reader")) return 1;
    for (int w = 0; w < 2; w++)
        if (refused(confluo_take_writer(log, &writers[w], &number), "writer")) return 1;
    confluo_free_log(log);

    pthread_t threads[3];
    for (int w = 0; w < 2; w++) pthread_create(&threads[w], NULL, append, writers[w]);
    pthread_create(&threads[2], NULL, ask, reader);
    for (int t = 0; t < 3; t++) pthread_join(threads[t], NULL);

    confluo_head head;
    uint64_t quad[4];
    if (refused(confluo_ask(reader, 0, &head), "ask")) return 1;
    confluo_words(reader, 0, quad, 4);
    printf("%u records, %llu bytes\n", head.tail, (unsigned long long)quad[1]);
    confluo_free_reader(reader);
    return 0;
}
