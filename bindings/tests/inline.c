/* What the inline functions of the header do around the library's own calls: NULL where it is allowed, the texts of codes and faults,
 * links, and handles that go from thread to thread. */
#include "check.h"
#include <stdatomic.h>

static void nothing_is_given(void) {
    const confluo_sizes sizes = {2, 1, 0, 0};
    const confluo_capture capture = {1000, 5, 60, 1, 0};
    const char *setup = "schema records ts:u64\nask all list *\n";
    confluo_log *log = NULL;
    confluo_writer *writer = NULL;
    confluo_reader *reader = NULL;
    confluo_head head;
    uint64_t bytes = 0;
    size_t count = 7;
    is(confluo_check(NULL, 0, &sizes, &bytes, NULL), CONFLUO_SETUP, "no setup");
    is(confluo_open(&log, NULL, 0, &sizes, NULL), CONFLUO_SETUP, "no setup");
    is(log == NULL, 1, "no log");
    is(confluo_open(&log, setup, strlen(setup), &sizes, NULL), CONFLUO_OK, "open");
    is(confluo_take_writer(log, &writer, NULL), CONFLUO_OK, "writer");
    is(confluo_take_reader(log, &reader), CONFLUO_OK, "reader");
    is(confluo_append(writer, &capture, NULL, 0, NULL), CONFLUO_UNFIT, "no frame");
    is(confluo_append_values(writer, 0, NULL, 0, NULL), CONFLUO_UNFIT, "no values");
    is(confluo_append_row(writer, 0, NULL, 0, NULL), CONFLUO_UNFIT, "no values");
    is(confluo_append_values(writer, 9, (const uint64_t[]){1000}, 1, NULL), CONFLUO_OK, "values");
    is(confluo_append_many(writer, NULL, 0, NULL, 0, NULL, 0, &count), CONFLUO_OK, "no frames");
    is(count, 0, "no frames");
    is(confluo_ask(reader, 0, &head), CONFLUO_OK, "ask");
    is(confluo_words(reader, 0, NULL, 0), 0, "no words");
    is(confluo_row(reader, 0, NULL, NULL, 0, &count), CONFLUO_OK, "row");
    is(count, 1, "row");
    is(confluo_report(reader, NULL, 0, &count), CONFLUO_OK, "report");
    is(count > 0, 1, "report");
    is(confluo_name(log, CONFLUO_QUESTIONS, 0, NULL, 0, &count), CONFLUO_OK, "name");
    is(count, 3, "name");
    is(confluo_question(log, NULL, 0, &(uint32_t){7}), CONFLUO_NO_QUESTION, "no name");
    is(confluo_ask_text(reader, NULL, 0, &head, NULL), CONFLUO_NO_QUESTION, "no line");
    is(confluo_merge(NULL, 0, NULL, 0, NULL, 0, &count), CONFLUO_OK, "no groups");
    is(count, 0, "no groups");
    confluo_free_writer(writer), confluo_free_reader(reader), confluo_free_log(log);
    confluo_free_writer(NULL), confluo_free_reader(NULL), confluo_free_span(NULL), confluo_free_log(NULL);
}

static void a_span_has_its_readers(void) {
    parts it = parts_of("schema records ts:u64\nask all list *\n", 1, 0), next = parts_of("schema records ts:u64\nask all list *\n", 1, 0);
    confluo_reader *none = NULL;
    confluo_span *span = NULL;
    confluo_head head;
    uint64_t words[2] = {7, 7};
    size_t count = 7;
    is(confluo_append_values(it.writer, 5, (const uint64_t[]){1000}, 1, NULL), CONFLUO_OK, "append");
    is(confluo_append_values(next.writer, 6, (const uint64_t[]){2000}, 1, NULL), CONFLUO_OK, "append");
    is(confluo_span_of(&none, &span), CONFLUO_NOTHING, "a span of nothing");
    is(confluo_span_add(NULL, &it.reader), CONFLUO_NOTHING, "add to nothing");
    is(confluo_span_of(&it.reader, &span), CONFLUO_OK, "span");
    is(confluo_span_add(span, &none), CONFLUO_NOTHING, "add nothing");
    is(confluo_span_add(span, &next.reader), CONFLUO_OK, "add");
    is(it.reader == NULL && next.reader == NULL, 1, "the span has both");
    is(confluo_span_ask(span, 0, &head), CONFLUO_OK, "ask");
    is(head.tail, 2, "its tail");
    is(confluo_span_words(span, 0, words, 2), 2, "its words");
    is(words[1], 1, "a place in the second log");
    is(confluo_span_words(span, 0, NULL, 0), 0, "no words");
    is(confluo_span_row(span, 1, NULL, NULL, 0, &count), CONFLUO_OK, "row");
    is(count, 1, "row");
    is(confluo_span_report(span, NULL, 0, &count), CONFLUO_OK, "report");
    is(count > 0, 1, "report");
    is(confluo_span_report(NULL, NULL, 0, &count), CONFLUO_NOTHING, "report of nothing");
    is(confluo_span_drop_first(span), CONFLUO_OK, "drop the first");
    is(confluo_span_logs(span, &count), CONFLUO_OK, "logs");
    is(count, 1, "one log");
    is(confluo_span_drop_first(span), CONFLUO_ONE_LOG, "drop the only one");
    confluo_free_span(span);
    free_parts(&it), free_parts(&next);
}

static void texts(void) {
    is(confluo_version(), CONFLUO_VERSION, "version");
    for (uint32_t code = 0; code < 40; code++) {
        char text[65] = "";
        const size_t length = confluo_raw_message(code, 0, (uint8_t *)text, 64);
        is(strlen(confluo_error_name(code)), length, "the length of a code's text");
        is(strcmp(confluo_error_name(code), text), 0, text);
    }
    is(strcmp(confluo_fault_rule(3), confluo_fault_rule(15)) != 0, 1, "a fault's rule");
    is(strcmp(confluo_fault_rule(15), confluo_fault_rule(99)), 0, "no fault");
}

static void a_line_is_line_1(void) {
    parts it = parts_of("schema records ts:u64\nask all list *\n", 2, 0);
    confluo_head head;
    confluo_fault fault = {7, 7};
    is(confluo_ask_text(it.reader, "ask", 3, &head, &fault), CONFLUO_SETUP, "a faulty line");
    is(fault.line, 1, "a faulty line");
    is(fault.code, 3, "a faulty line");
    free_parts(&it);
}

static void texts_that_end_with_0(void) {
    const confluo_sizes sizes = {140, 1, 0, 0};
    confluo_log *log = NULL;
    confluo_reader *reader = NULL;
    confluo_head head;
    uint64_t size = 0;
    uint32_t number = 7;
    is(confluo_check_str("schema packet\n", &sizes, &size, NULL), CONFLUO_OK, "check");
    is(confluo_open_str(&log, "schema packet\nask all list *\n", &sizes, NULL), CONFLUO_OK, "open");
    is(confluo_take_reader(log, &reader), CONFLUO_OK, "reader");
    is(confluo_question_str(log, "all", &number), CONFLUO_OK, "question");
    is(number, 0, "question");
    is(confluo_question_str(log, "al", &number), CONFLUO_NO_QUESTION, "question");
    is(confluo_ask_str(reader, "ask other list *", &head, NULL), CONFLUO_OK, "ask");
    is(head.count, 0, "ask");
    confluo_free_reader(reader), confluo_free_log(log);
}

static void offsets_that_nobody_wants(void) {
    static const uint8_t bytes[60];
    static confluo_frame frames[700];
    parts it = parts_of("schema packet\nask all list *\n", 640, 0);
    uint32_t offset = 7;
    size_t done = 7;
    for (uint32_t k = 0; k < 700; k++) frames[k] = (confluo_frame){{1000, k, 60, 1, 0}, 0, 60};
    is(confluo_append_many(it.writer, NULL, 0, NULL, 0, NULL, 0, &done), CONFLUO_OK, "no frames");
    is(done, 0, "no frames");
    is(confluo_append_many(NULL, frames, 700, bytes, 60, NULL, 0, &done), CONFLUO_NOTHING, "frames by nothing");
    is(done, 0, "frames by nothing");
    is(confluo_append_many(it.writer, frames, 2, bytes, 60, &offset, 1, &done), CONFLUO_SIZES, "too little room for offsets");
    is(confluo_append_many(it.writer, frames, 2, bytes, 60, &offset, 0, &done), CONFLUO_SIZES, "no room for offsets");
    is(done == 0 && offset == 7, 1, "what that leaves");
    frames[600].capture.link = 65535;
    is(confluo_append_many(it.writer, frames, 700, bytes, 60, NULL, 0, &done), CONFLUO_FRAME, "a link");
    is(done, 600, "a link");
    is(confluo_append_many(it.writer, frames + 601, 99, bytes, 60, NULL, 0, &done), CONFLUO_FULL, "full");
    is(done, 40, "full");
    free_parts(&it);
}

static void links(void) {
    parts packets = parts_of("schema packet\nindex hosts src\n", 1, 0), records = parts_of("schema records ts:u64\n", 1, 0);
    is(confluo_reads_link(packets.log, 1), CONFLUO_OK, "Ethernet");
    is(confluo_reads_link(packets.log, 147), CONFLUO_FRAME, "a link that is not read");
    is(confluo_reads_link(records.log, 1), CONFLUO_UNFIT, "a link of records");
    is(confluo_reads_link(NULL, 1), CONFLUO_NOTHING, "a link of nothing");
    free_parts(&packets), free_parts(&records);
}

/* A ring of acquire and release alone, through which a writer goes to another thread and back. */
static struct {
    confluo_writer *writer;
    atomic_int turn;
} ring;

static void *append(void *given) {
    for (int turn = 1; turn < 20; turn += 2) {
        while (atomic_load_explicit(&ring.turn, memory_order_acquire) != turn) continue;
        for (uint64_t k = 0; k < 50; k++) is(confluo_append_values(ring.writer, 1, &k, 1, NULL), CONFLUO_OK, "behind the ring");
        atomic_store_explicit(&ring.turn, turn + 1, memory_order_release);
    }
    return given;
}

static void a_handle_goes_through_a_ring(void) {
    parts it = parts_of("schema records ts:u64\nask all list *\n", 1000, 0);
    pthread_t thread;
    uint32_t tail = 0;
    ring.writer = it.writer;
    pthread_create(&thread, NULL, append, NULL);
    for (int turn = 0; turn < 20; turn += 2) {
        while (atomic_load_explicit(&ring.turn, memory_order_acquire) != turn) continue;
        for (uint64_t k = 0; k < 50; k++) is(confluo_append_values(ring.writer, 0, &k, 1, NULL), CONFLUO_OK, "before the ring");
        atomic_store_explicit(&ring.turn, turn + 1, memory_order_release);
    }
    pthread_join(thread, NULL);
    confluo_tail(it.reader, &tail);
    is(tail, 1000, "all are there");
    free_parts(&it);
}

/* A function whose address is taken is that of the header, and not the library's own call. */
static void addresses(void) {
    uint32_t (*const calls[])(confluo_log *, uint64_t *) = {confluo_width};
    void (*const frees[])(confluo_log *) = {confluo_free_log};
    confluo_log *log = NULL;
    uint64_t width = 7;
    is(opened(&log, "schema packet\nwidth 1000\n", 1, 1, 0), CONFLUO_OK, "open");
    is(calls[0](NULL, &width), CONFLUO_NOTHING, "a call by its address");
    frees[0](log), frees[0](NULL);
}

int main(void) {
    nothing_is_given();
    a_span_has_its_readers();
    texts();
    a_line_is_line_1();
    texts_that_end_with_0();
    offsets_that_nobody_wants();
    links();
    a_handle_goes_through_a_ring();
    addresses();
    return failed;
}
