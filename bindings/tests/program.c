/* A program written from confluo.h alone, in C and in C++: four threads append, two ask while they do, and the main one closes the log and
 * prints its report without the order, which differs from run to run. It ends with 1 if anything is not as the header says. */
#include "confluo.h"
#include <pthread.h>
#include <stdio.h>
#include <stdlib.h>
#include <string.h>

enum { WRITERS = 4, READERS = 2, EACH = 1000, HOSTS = 8 };

static const char setup[] = "schema records ts:u64,host:u32,len:u16\n"
                            "index hosts host\n"
                            "filter every *\n"
                            "aggregate bytes every len\n"
                            "tally senders host len *\n"
                            "trigger busy bytes sum > 25000\n"
                            "ask all total len *\n"
                            "ask one find hosts 99 99\n"
                            "ask marks fired busy\n"
                            "ask most top senders sum 2\n";

static pthread_mutex_t lock = PTHREAD_MUTEX_INITIALIZER;
static int running = WRITERS;

static void *wrong(const char *call, uint32_t code) {
    fprintf(stderr, "%s: %s\n", call, confluo_error_name(code));
    return (void *)setup;
}

static void *append(void *given) {
    confluo_writer *writer = (confluo_writer *)given;
    uint32_t code = CONFLUO_OK, offset = 0, before = 0;
    void *is_wrong = NULL;
    for (uint32_t k = 0; k < EACH && code == CONFLUO_OK; k++, before = offset) {
        const uint64_t row[3] = {k * UINT64_C(10000000), k == 500 ? 99 : k % HOSTS, k == 700 ? 1500 : 60 + k % 2};
        code = confluo_append_values(writer, k, row, 3, &offset);
        if (code == CONFLUO_OK && k > 0 && offset <= before) is_wrong = wrong("an offset fell", code);
    }
    if (code != CONFLUO_OK) is_wrong = wrong("append", code);
    confluo_free_writer(writer);
    pthread_mutex_lock(&lock);
    running--;
    pthread_mutex_unlock(&lock);
    return is_wrong;
}

static int is_running(void) {
    pthread_mutex_lock(&lock);
    const int left = running;
    pthread_mutex_unlock(&lock);
    return left > 0;
}

/* Asks all questions at one tail, until the writers have ended. */
static void *ask(void *given) {
    confluo_reader *reader = (confluo_reader *)given;
    uint32_t all = 0, code = confluo_reader_number(reader, CONFLUO_QUESTIONS, "all", &all);
    for (uint32_t tail = 0, before = 0; code == CONFLUO_OK; before = tail) {
        const int more = is_running();
        uint64_t quad[4] = {0, 0, 0, 0};
        confluo_head head = {0, 0, 0};
        code = confluo_wait(reader, before, more ? 10000000 : 0, &tail);
        if (code == CONFLUO_OK && tail < before) return wrong("the tail fell", code);
        for (uint32_t q = 0; q < 4 && code == CONFLUO_OK; q++) {
            code = confluo_ask_seen(reader, q, &head);
            if (code != CONFLUO_OK) break;
            if (head.tail != tail) return wrong("a question has another tail", code);
            if (q == all && (confluo_words(reader, 0, quad, 4) != 4 || quad[0] != tail)) return wrong("a total has other records", code);
        }
        if (!more && code == CONFLUO_OK) return tail == WRITERS * EACH ? NULL : wrong("records are missing", code);
    }
    return wrong("ask", code);
}

static int print_report(confluo_reader *reader) {
    char *text = NULL, *order = NULL;
    if (confluo_make_report(reader, &text, NULL) == CONFLUO_OK) order = strstr(text, "order ");
    if (order != NULL) *order = 0;
    if (order != NULL) fputs(text, stdout);
    free(text);
    return order == NULL;
}

int main(void) {
    const confluo_sizes sizes = {WRITERS * EACH, WRITERS, 256, 0};
    confluo_log *log = NULL;
    confluo_writer *writers[WRITERS];
    confluo_reader *readers[READERS], *last = NULL;
    confluo_fault fault = {0, 0};
    pthread_t threads[WRITERS + READERS];
    void *is_wrong = NULL;
    uint32_t code = confluo_open_str(&log, setup, &sizes, &fault);
    if (code == CONFLUO_SETUP) fprintf(stderr, "line %u: %s\n", (unsigned)fault.line, confluo_fault_rule(fault.code));
    if (code != CONFLUO_OK) return 1;
    for (int w = 0; w < WRITERS; w++)
        if (confluo_take_writer(log, &writers[w], NULL) != CONFLUO_OK) return 1;
    for (int r = 0; r < READERS; r++)
        if (confluo_take_reader(log, &readers[r]) != CONFLUO_OK) return 1;
    for (int w = 0; w < WRITERS; w++) pthread_create(&threads[w], NULL, append, writers[w]);
    for (int r = 0; r < READERS; r++) pthread_create(&threads[WRITERS + r], NULL, ask, readers[r]);
    for (int t = 0; t < WRITERS + READERS; t++) {
        void *found;
        pthread_join(threads[t], &found);
        if (found != NULL) is_wrong = found;
    }
    code = confluo_close(log, &last);
    if (code != CONFLUO_OK) return wrong("close", code) != NULL;
    confluo_free_log(log);
    for (int r = 0; r < READERS; r++) confluo_free_reader(readers[r]);
    const int has_failed = print_report(last);
    confluo_free_reader(last);
    return is_wrong != NULL || has_failed;
}
