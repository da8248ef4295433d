/* Logs that are closed, and the reports of their readers: each code, and what a refused call leaves. */
#include "check.h"

static const char setup[] =
    "schema records ts:u64,key:u16\nindex keys key\nask all list *\nask sevens find keys 7 7\nask none find keys 9 9\n";

static void append(confluo_writer *writer, uint32_t number, uint64_t key) {
    uint32_t offset = 99;
    is(confluo_append_values(writer, number, (const uint64_t[]){1, key}, 2, &offset), CONFLUO_OK, "append");
}

static void report_is(confluo_reader *reader, const char *wanted) {
    char text[200];
    size_t count = 7, whole = 7;
    is(confluo_report(reader, text, 0, &whole), CONFLUO_OK, "report without room");
    is(whole, strlen(wanted), "how long it is");
    is(confluo_report(reader, text, sizeof text, &count), CONFLUO_OK, "report");
    is(count == whole && strcmp(text, wanted) == 0, 1, wanted);
    char *made = NULL;
    is(confluo_make_report(reader, &made, &count), CONFLUO_OK, "report in new memory");
    is(made != NULL && count == whole && strcmp(made, wanted) == 0, 1, wanted);
    free(made);
    memset(text, '.', 9);
    is(confluo_report(reader, text, 7, &count), CONFLUO_OK, "report with some room");
    is(count == whole && memcmp(text, "records..", 9) == 0, 1, "its front");
}

static void *closes(void *given) {
    confluo_log *log = NULL;
    confluo_writer *writers[3] = {NULL};
    confluo_reader *early = NULL, *last = NULL, *twice = NULL;
    confluo_head head;
    uint64_t width = 7;
    uint32_t number = 7, tail = 7;
    char text[2] = {'.', '.'};
    size_t count = 7;
    char *made = NULL;
    is(confluo_close(log, &last), CONFLUO_NOTHING, "close nothing");
    is(confluo_report(last, text, 2, &count), CONFLUO_NOTHING, "report of nothing");
    is(confluo_make_report(last, &made, NULL), CONFLUO_NOTHING, "report of nothing");
    is(made == NULL, 1, "which leaves no text");
    is(count == 7 && text[0] == '.' && last == NULL, 1, "which leaves all");
    is(opened(&log, setup, 4, 3, 64), CONFLUO_OK, "open");
    for (int k = 0; k < 3; k++) is(confluo_take_writer(log, &writers[k], &number), CONFLUO_OK, "writer");
    is(confluo_take_reader(log, &early), CONFLUO_OK, "reader");
    append(writers[0], 30, 7);
    append(writers[2], 10, 8);
    is(confluo_tail(early, &tail), CONFLUO_OK, "tail");
    append(writers[2], 20, 7);
    report_is(early, "records 2\nask all list 2: 10 30\nask sevens find 1: 30\nask none find 0:\norder 2*1 0*1\n");
    for (int k = 0; k < 3; k++) {
        is(confluo_close(log, &last), CONFLUO_BUSY, "close with a writer");
        is(last == NULL, 1, "which leaves no reader");
        confluo_free_writer(writers[k]);
    }
    is(confluo_take_writer(log, &writers[1], &number), CONFLUO_OK, "a writer of an open log");
    is(confluo_close(log, &last), CONFLUO_BUSY, "close with a writer again");
    confluo_free_writer(writers[1]);
    is(confluo_close(log, &last), CONFLUO_OK, "close");
    is(confluo_close(log, &twice), CONFLUO_NOTHING, "close twice");
    is(confluo_take_reader(log, &twice), CONFLUO_NOTHING, "a reader of a closed log");
    is(confluo_take_writer(log, &writers[0], NULL), CONFLUO_NOTHING, "a writer of a closed log");
    is(confluo_width(log, &width), CONFLUO_NOTHING, "the width of a closed log");
    is(confluo_reads_link(log, 1), CONFLUO_NOTHING, "a link of a closed log");
    is(twice == NULL, 1, "which leaves no reader");
    is(strcmp(confluo_log_setup(log, NULL), setup), 0, "the setup of a closed log");
    confluo_free_log(log);
    is(confluo_reader_width(last, &width), CONFLUO_OK, "the width by the last reader");
    is(width, 1000000000, "the width");
    report_is(last, "records 3\nask all list 3: 10 20 30\nask sevens find 2: 20 30\nask none find 0:\norder 2*1 0*2\n");
    is(confluo_ask_seen(last, 1, &head), CONFLUO_OK, "a final answer");
    is(head.tail == 3 && head.count == 2, 1, "on all records");
    report_is(early, "records 2\nask all list 2: 10 30\nask sevens find 1: 30\nask none find 0:\norder 2*1 0*1\n");
    is(confluo_tail(early, &tail) == CONFLUO_OK && tail == 3, 1, "the tail of a closed log");
    confluo_free_reader(last);
    report_is(early, "records 3\nask all list 3: 10 20 30\nask sevens find 2: 20 30\nask none find 0:\norder 2*1 0*2\n");
    confluo_free_reader(early);
    return given;
}

static void *long_reports(void *given) {
    parts it = parts_of("schema records ts:u64\nask all list *\n", 9000, 0);
    uint32_t tail = 7;
    size_t count = 7;
    char *made = NULL;
    for (uint64_t k = 0; k < 9000; k++) is(confluo_append_values(it.writer, 10000000 + (uint32_t)k, &k, 1, NULL), CONFLUO_OK, "append");
    is(confluo_tail(it.reader, &tail), CONFLUO_OK, "tail");
    is(confluo_make_report(it.reader, &made, &count), CONFLUO_OK, "a long report");
    is(count > 9000 * 9 && made != NULL && strlen(made) == count, 1, "which has all records");
    is(made != NULL && strncmp(made, "records 9000\nask all list 9000: 10000000 10000001 ", 48) == 0, 1, "its front");
    free(made), free_parts(&it);
    return given;
}

int main(void) { return in_a_small_stack(closes) || in_a_small_stack(long_reports); }
