/* The library's own calls, which Rust and Python make: a handle that leads to something leads to another thing after the next call, or to
 * what it led to if that was refused, and can be freed twice. */
#include "check.h"

static const char setup[] = "schema records ts:u64\nask all list *\n";
static const confluo_sizes sizes = {4, 2, 0, 0};

static uint32_t open_raw(confluo_raw_log *log, const char *text) {
    confluo_fault fault = {7, 7};
    return confluo_raw_open(log, (const uint8_t *)text, strlen(text), &sizes, &fault);
}

static void *handles(void *given) {
    confluo_raw_log log = {false, NULL};
    confluo_raw_writer writer = {false, NULL};
    confluo_raw_reader reader = {false, NULL};
    confluo_raw_span span = {false, NULL};
    confluo_head head;
    confluo_fault fault = {7, 7};
    uint32_t number = 7, offset = 7;
    uint8_t text[40];
    size_t count = 7;
    is(confluo_raw_take_writer(&log, &writer, &number), CONFLUO_NOTHING, "a writer of nothing");
    is(confluo_raw_close(&log, &reader), CONFLUO_NOTHING, "close nothing");
    is(open_raw(&log, "schema packet\n"), CONFLUO_OK, "open");
    is(open_raw(&log, setup), CONFLUO_OK, "open over another log, which is freed");
    is(open_raw(&log, "nonsense"), CONFLUO_SETUP, "a refused open");
    is(confluo_raw_take_writer(&log, &writer, &number), CONFLUO_OK, "a writer of the log that it keeps");
    is(number, 1, "its number");
    is(confluo_raw_append_values(&writer, 5, &(uint64_t){1000}, 1, &offset), CONFLUO_OK, "append");
    is(confluo_raw_take_writer(&log, &writer, &number), CONFLUO_OK, "a writer over another one, which is freed");
    is(number, 0, "its number");
    is(confluo_raw_take_reader(&log, &reader), CONFLUO_OK, "reader");
    is(confluo_raw_take_reader(&log, &reader), CONFLUO_OK, "a reader over another one, which is freed");
    is(confluo_raw_ask_text(&reader, (const uint8_t *)"ask", 3, &head, &fault), CONFLUO_SETUP, "a faulty line");
    is(fault.line > 1, 1, "which counts behind the setup's lines");
    is(confluo_raw_close(&log, &reader), CONFLUO_BUSY, "close with a writer");
    is(confluo_raw_ask(&reader, 0, &head), CONFLUO_OK, "ask by the reader that it keeps");
    is(head.tail == 1 && head.count == 1, 1, "its answer");
    confluo_raw_free_writer(&writer), confluo_raw_free_writer(&writer);
    is(confluo_raw_append_values(&writer, 5, &(uint64_t){1000}, 1, &offset), CONFLUO_NOTHING, "append by a writer that is freed");
    is(confluo_raw_close(&log, &reader), CONFLUO_OK, "close over a reader, which is freed");
    is(confluo_raw_close(&log, &reader), CONFLUO_NOTHING, "close twice");
    is(confluo_raw_ask_seen(&reader, 0, &head), CONFLUO_OK, "ask by the last reader");
    is(head.tail, 1, "its tail");
    is(confluo_raw_span_add(&span, &reader), CONFLUO_NOTHING, "add to nothing");
    is(confluo_raw_ask_seen(&reader, 0, &head), CONFLUO_OK, "ask by the reader, which stays");
    is(confluo_raw_span_of(&reader, &span), CONFLUO_OK, "a span of the reader");
    is(confluo_raw_ask_seen(&reader, 0, &head), CONFLUO_NOTHING, "ask by the reader that the span has");
    is(confluo_raw_span_of(&reader, &span), CONFLUO_NOTHING, "a span of nothing");
    is(confluo_raw_span_add(&span, &reader), CONFLUO_NOTHING, "add nothing");
    is(confluo_raw_span_ask(&span, 0, &head), CONFLUO_OK, "ask by the span that it keeps");
    is(head.tail, 1, "its tail");
    is(confluo_raw_span_report(&span, text, sizeof text, &count), CONFLUO_OK, "its report");
    is(count > 9 && memcmp(text, "records 1", 9) == 0, 1, "what it says");
    confluo_raw_free_span(&span), confluo_raw_free_span(&span);
    is(confluo_raw_span_report(&span, text, sizeof text, &count), CONFLUO_NOTHING, "the report of nothing");
    confluo_raw_free_reader(&reader), confluo_raw_free_reader(&reader);
    confluo_raw_free_log(&log), confluo_raw_free_log(&log);
    return given;
}

int main(void) { return in_a_small_stack(handles); }
