/* What the tests share. */
#ifndef CHECK_H
#define CHECK_H
#define _POSIX_C_SOURCE 200809L
#include "confluo.h"
#include <pthread.h>
#include <stdio.h>
#include <string.h>

static int failed;

#define is(found, wanted, what) is_at(__FILE__, __LINE__, (uint64_t)(found), (uint64_t)(wanted), what)

static inline void is_at(const char *file, int line, uint64_t found, uint64_t wanted, const char *what) {
    if (found == wanted) return;
    fprintf(stderr, "%s:%d: %s: %llu, not %llu\n", file, line, what, (unsigned long long)found, (unsigned long long)wanted);
    failed = 1;
}

static inline uint32_t opened(confluo_log **log, const char *text, uint32_t capacity, uint32_t writers, uint32_t nodes) {
    const confluo_sizes sizes = {capacity, writers, nodes, 0};
    confluo_fault fault = {7, 7};
    return confluo_open(log, text, strlen(text), &sizes, &fault);
}

/* A log with a writer and a reader, all of which must be there. */
typedef struct parts {
    confluo_log *log;
    confluo_writer *writer;
    confluo_reader *reader;
} parts;

static inline parts parts_of(const char *text, uint32_t capacity, uint32_t nodes) {
    parts it = {NULL, NULL, NULL};
    uint32_t number = 7;
    is(opened(&it.log, text, capacity, 1, nodes), CONFLUO_OK, "open");
    is(confluo_take_writer(it.log, &it.writer, &number), CONFLUO_OK, "writer");
    is(confluo_take_reader(it.log, &it.reader), CONFLUO_OK, "reader");
    return it;
}

static inline void free_parts(parts *it) {
    confluo_free_log(it->log);
    confluo_free_reader(it->reader);
    confluo_free_writer(it->writer);
}

/* Runs the tests in a thread with as much stack as the header says that a call may take. A sanitizer takes more. */
static inline int in_a_small_stack(void *(*tests)(void *)) {
    pthread_attr_t attributes;
    pthread_t thread;
    pthread_attr_init(&attributes);
#if !defined(__SANITIZE_ADDRESS__) && !defined(__SANITIZE_THREAD__)
    pthread_attr_setstacksize(&attributes, 64 * 1024);
#endif
    if (pthread_create(&thread, &attributes, tests, NULL) != 0) return 2;
    pthread_join(thread, NULL);
    return failed;
}
#endif
