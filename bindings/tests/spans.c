/* Four writers append across logs that are opened one after another, while two threads ask spans of these logs and let the first ones go.
 * Then all is asked once more, by spans of all logs, and compared with a plain count. */
#include "check.h"

enum { WRITERS = 4, ASKERS = 2, LOGS = 5, CAPACITY = 1000, HOSTS = 7, KEPT = 2, ALL = LOGS * CAPACITY };

static const char setup[] = "schema records ts:u64,host:u32,len:u32\nindex hosts host\ntally keys host len *\nask all total len *\n"
                            "ask third find hosts 3 3\nask each groups keys\n";

/* The logs, which the writers open as they need them; each thread that asks takes a reader of a log that is there. */
static pthread_mutex_t lock = PTHREAD_MUTEX_INITIALIZER;
static confluo_log *logs[LOGS];
static int opened_logs;
static uint64_t appended, lengths[HOSTS], counts[HOSTS];

/* The writer of a log, which is opened if it is not there yet. */
static confluo_writer *writer_of(int number) {
    confluo_writer *writer = NULL;
    pthread_mutex_lock(&lock);
    if (number == opened_logs) {
        is(opened(&logs[number], setup, CAPACITY, WRITERS, 64), CONFLUO_OK, "open");
        opened_logs++;
    }
    is(confluo_take_writer(logs[number], &writer, NULL), CONFLUO_OK, "writer");
    pthread_mutex_unlock(&lock);
    return writer;
}

static confluo_reader *reader_of(int number) {
    confluo_reader *reader = NULL;
    pthread_mutex_lock(&lock);
    if (number < opened_logs) is(confluo_take_reader(logs[number], &reader), CONFLUO_OK, "reader");
    pthread_mutex_unlock(&lock);
    return reader;
}

static void *append(void *given) {
    uint64_t length = (uint64_t)(uintptr_t)given + 40, of_host[HOSTS] = {0}, count_of[HOSTS] = {0};
    for (int number = 0; number < LOGS; number++) {
        confluo_writer *writer = writer_of(number);
        uint32_t code = CONFLUO_OK;
        for (uint64_t k = 0; code == CONFLUO_OK; k++) {
            const uint64_t host = k % HOSTS;
            code = confluo_append_values(writer, 5, (const uint64_t[]){1000 * k, host, length}, 3, NULL);
            if (code == CONFLUO_OK) count_of[host]++, of_host[host] += length;
        }
        is(code, CONFLUO_FULL, "a full log");
        confluo_free_writer(writer);
    }
    pthread_mutex_lock(&lock);
    for (int host = 0; host < HOSTS; host++) appended += count_of[host], counts[host] += count_of[host], lengths[host] += of_host[host];
    pthread_mutex_unlock(&lock);
    return NULL;
}

/* What is asked at one tail fits together. */
static void ask_at(confluo_span *span, uint32_t tail) {
    confluo_head head = {0, 0, 0};
    confluo_value row[3];
    uint64_t quad[4] = {7, 7, 7, 7}, words[5 * HOSTS], numbers = 0, sums = 0, place = 0;
    uint32_t number = 7;
    size_t count = 0, long_is;
    is(confluo_span_ask_seen(span, 0, &head), CONFLUO_OK, "total");
    is(head.tail, tail, "its tail");
    is(confluo_span_words(span, 0, quad, 4), 4, "its words");
    is(quad[0], tail, "its count");
    is(confluo_span_groups(span, 1, &head), CONFLUO_OK, "groups");
    is(head.tail, tail, "their tail");
    long_is = confluo_span_words(span, 0, words, 5 * HOSTS);
    for (size_t k = 0; k < long_is; k += 5) numbers += words[k + 1], sums += words[k + 2];
    is(numbers, tail, "their counts");
    is(sums, quad[1], "their sums");
    is(confluo_span_ask_seen(span, 1, &head), CONFLUO_OK, "find");
    if (head.count > 0) is(confluo_span_words(span, head.count - 1, &place, 1), 1, "the last place");
    if (head.count > 0) is(confluo_span_row(span, (uint32_t)place, &number, row, 3, &count), CONFLUO_OK, "its row");
    if (head.count > 0) is(row[1].number == 3 && number == 5 && count == 3, 1, "what it has");
    is(confluo_span_row(span, tail, NULL, NULL, 0, &count), CONFLUO_NO_ROW, "no row at the tail");
}

/* Asks while logs come, and keeps the last ones. */
static void *ask(void *given) {
    confluo_reader *reader = NULL;
    confluo_span *span = NULL;
    uint32_t tail = 0, before = 0;
    size_t count = 0;
    int next = 1, gone = 0;
    while (reader == NULL) reader = reader_of(0);
    is(confluo_span_of(&reader, &span), CONFLUO_OK, "span");
    is(reader == NULL, 1, "the span has the reader");
    while (gone * CAPACITY + tail < ALL && !failed) {
        is(confluo_span_tail(span, &tail), CONFLUO_OK, "tail");
        is(tail >= before, 1, "a tail only rises");
        before = tail;
        ask_at(span, tail);
        reader = next < LOGS ? reader_of(next) : NULL;
        if (reader == NULL) continue;
        is(confluo_span_add(span, &reader), CONFLUO_OK, "add");
        is(reader == NULL, 1, "the span has this reader too");
        next++;
        is(confluo_span_logs(span, &count), CONFLUO_OK, "logs");
        is(count, (uint64_t)(next - gone), "so many logs");
        if (count <= KEPT || tail < CAPACITY) continue;
        is(confluo_span_drop_first(span), CONFLUO_OK, "drop the first");
        gone++, before -= CAPACITY, tail -= CAPACITY;
    }
    confluo_free_span(span);
    return given;
}

/* All logs, asked by one span, as a plain count of what was appended. */
static void ask_all(void) {
    confluo_span *span = NULL;
    confluo_head head;
    uint64_t words[5 * HOSTS], quad[4];
    for (int number = 0; number < LOGS; number++) {
        confluo_reader *reader = NULL;
        is(confluo_close(logs[number], &reader), CONFLUO_OK, "close");
        confluo_free_log(logs[number]);
        is(number == 0 ? confluo_span_of(&reader, &span) : confluo_span_add(span, &reader), CONFLUO_OK, "a span of all");
    }
    is(confluo_span_ask(span, 0, &head), CONFLUO_OK, "total");
    is(head.tail, ALL, "its tail");
    is(confluo_span_words(span, 0, quad, 4), 4, "its words");
    is(quad[0] == appended && appended == ALL, 1, "all records");
    is(confluo_span_ask(span, 2, &head), CONFLUO_OK, "groups");
    is(confluo_span_words(span, 0, words, 5 * HOSTS), 5 * HOSTS, "their words");
    for (size_t host = 0; host < HOSTS; host++) {
        is(words[5 * host], host, "a key");
        is(words[5 * host + 1], counts[host], "its count");
        is(words[5 * host + 2], lengths[host], "its sum");
    }
    is(confluo_span_ask(span, 1, &head), CONFLUO_OK, "find");
    is(head.count, counts[3], "as many places");
    for (int number = 1; number < LOGS; number++) is(confluo_span_drop_first(span), CONFLUO_OK, "drop");
    is(confluo_span_drop_first(span), CONFLUO_ONE_LOG, "the last log stays");
    is(confluo_span_ask(span, 0, &head), CONFLUO_OK, "total of the last log");
    is(head.tail, CAPACITY, "its tail");
    confluo_free_span(span);
}

/* What is refused, after which all is as it was. */
static void *refusals(void *given) {
    parts it = parts_of(setup, 65536, 64), other = parts_of(setup, 65535, 64);
    parts third = parts_of("schema records ts:u64\nask all list *\n", 65536, 64);
    confluo_span *span = NULL;
    confluo_reader *none = NULL, *was = other.reader;
    confluo_head head = {7, 7, 7};
    uint64_t word = 7;
    uint32_t tail = 7;
    size_t count = 7;
    is(confluo_span_of(&none, &span), CONFLUO_NOTHING, "a span of nothing");
    is(span == NULL, 1, "no span");
    is(confluo_span_add(span, &it.reader), CONFLUO_NOTHING, "add to nothing");
    is(confluo_append_values(it.writer, 5, (const uint64_t[]){1000, 3, 60}, 3, NULL), CONFLUO_OK, "append");
    is(confluo_ask(it.reader, 1, &head), CONFLUO_OK, "ask by the reader");
    is(confluo_span_of(&it.reader, &span), CONFLUO_OK, "span");
    is(confluo_span_words(span, 0, &word, 1), 1, "the words that the reader had");
    is(word, 0, "its word");
    is(confluo_span_ask_seen(span, 0, &head), CONFLUO_OK, "what the reader had seen");
    is(head.tail, 1, "its tail");
    is(confluo_span_add(span, &none), CONFLUO_NOTHING, "add nothing");
    is(confluo_span_add(span, &other.reader), CONFLUO_UNLIKE, "another size");
    is(other.reader == was, 1, "the reader stays");
    is(confluo_ask(other.reader, 0, &head), CONFLUO_OK, "and is asked");
    is(confluo_span_add(span, &third.reader), CONFLUO_UNLIKE, "another setup");
    is(confluo_span_drop_first(span), CONFLUO_ONE_LOG, "the only log");
    for (int k = 1; k < 17; k++) {
        confluo_reader *reader = NULL;
        is(confluo_take_reader(it.log, &reader), CONFLUO_OK, "reader");
        is(confluo_span_add(span, &reader), k < 16 ? CONFLUO_OK : CONFLUO_FULL, "at most 2^20 records");
        is(reader == NULL, k < 16, "a reader that is refused stays");
        confluo_free_reader(reader);
    }
    is(confluo_span_logs(span, &count), CONFLUO_OK, "logs");
    is(count, 16, "16 logs");
    is(confluo_span_ask(span, 3, &head), CONFLUO_NO_QUESTION, "no question");
    is(confluo_span_groups(span, 0, &head), CONFLUO_NO_LANE, "an index");
    is(confluo_span_tail(NULL, &tail), CONFLUO_NOTHING, "no span's tail");
    is(confluo_span_logs(NULL, &count), CONFLUO_NOTHING, "no span's logs");
    is(confluo_span_drop_first(NULL), CONFLUO_NOTHING, "no span's first log");
    is(confluo_span_ask(NULL, 0, &head), CONFLUO_NOTHING, "no span is asked");
    is(confluo_span_ask_seen(NULL, 0, &head), CONFLUO_NOTHING, "no span is asked");
    is(confluo_span_groups(NULL, 1, &head), CONFLUO_NOTHING, "no span's groups");
    is(confluo_span_row(NULL, 0, NULL, NULL, 0, &count), CONFLUO_NOTHING, "no span's row");
    is(confluo_span_words(NULL, 0, &word, 1), 0, "no span's words");
    is(tail == 7 && count == 16, 1, "nothing is written");
    confluo_free_span(NULL), confluo_free_span(span);
    free_parts(&it), free_parts(&other), free_parts(&third);
    return given;
}

/* Some records by two writers in turn, from that one on. */
static void append_from(confluo_writer *writers[2], int from, int to) {
    for (int k = from; k < to; k++) {
        const uint64_t values[] = {1000 * (uint64_t)k, (uint64_t)k % 3, 10 * (uint64_t)k};
        is(confluo_append_values(writers[k % 3 == 0], (uint32_t)k, values, 3, NULL), CONFLUO_OK, "append");
    }
}

/* A log that has these, and its reader, which has seen them. */
static confluo_reader *filled(const char *text, uint32_t capacity, int from, int to) {
    confluo_log *log = NULL;
    confluo_writer *writers[2] = {NULL};
    confluo_reader *reader = NULL;
    uint32_t tail = 0;
    is(opened(&log, text, capacity, 2, 64), CONFLUO_OK, "open");
    for (int w = 0; w < 2; w++) is(confluo_take_writer(log, &writers[w], NULL), CONFLUO_OK, "writer");
    is(confluo_take_reader(log, &reader), CONFLUO_OK, "reader");
    append_from(writers, from, to);
    is(confluo_tail(reader, &tail), CONFLUO_OK, "tail");
    is(tail, (uint64_t)(to - from), "all are seen");
    for (int w = 0; w < 2; w++) confluo_free_writer(writers[w]);
    confluo_free_log(log);
    return reader;
}

static void report_is(confluo_span *span, const char *wanted, const char *what) {
    char text[9] = "........", *made = NULL;
    size_t whole = 7, count = 7;
    is(confluo_span_report(span, NULL, 0, &whole), CONFLUO_OK, "report without room");
    is(whole, strlen(wanted), "how long it is");
    is(confluo_span_report(span, text, 7, &count), CONFLUO_OK, "report with some room");
    is(count == whole && memcmp(text, "records.", 8) == 0, 1, "its front");
    is(confluo_span_make_report(span, &made, &count), CONFLUO_OK, "report in new memory");
    is(made != NULL && count == whole && strcmp(made, wanted) == 0, 1, what);
    free(made);
}

/* The report of three logs is that of one large log with the same records, and that of one log is its reader's. */
static void *reports(void *given) {
    static const char text[] =
        "schema records ts:u64,host:u32,len:u32\nwidth 4000\nindex hosts host\ntally keys host len *\n"
        "filter every *\naggregate sums every len\ntrigger heavy sums sum > 150\ntrigger light sums least < 30\n"
        "ask all total len *\nask third find hosts 2 2\nask each groups keys\nask fired fired heavy\nask some list len > 45\n";
    confluo_reader *large = filled(text, 40, 0, 10), *parts[3];
    confluo_span *span = NULL;
    char *wanted = NULL, *made = NULL;
    uint64_t word = 7, kept = 8;
    confluo_head head;
    size_t count = 7;
    is(confluo_make_report(large, &wanted, NULL), CONFLUO_OK, "the report of one large log");
    for (int k = 0; k < 3; k++) parts[k] = filled(text, 4, 4 * k, k < 2 ? 4 * k + 4 : 10);
    is(confluo_span_report(span, NULL, 0, &count), CONFLUO_NOTHING, "the report of nothing");
    is(confluo_span_make_report(span, &made, &count), CONFLUO_NOTHING, "the report of nothing");
    is(made == NULL && count == 7, 1, "which leaves all");
    is(confluo_make_report(parts[0], &made, NULL), CONFLUO_OK, "a reader's report");
    is(confluo_span_of(&parts[0], &span), CONFLUO_OK, "span");
    report_is(span, made, "a span of one log reports as its reader");
    free(made);
    for (int k = 1; k < 3; k++) is(confluo_span_add(span, &parts[k]), CONFLUO_OK, "add");
    is(confluo_span_ask_seen(span, 1, &head), CONFLUO_OK, "find");
    is(confluo_span_words(span, head.count - 1, &word, 1), 1, "the last place");
    report_is(span, wanted, "three logs report as one");
    is(confluo_span_words(span, head.count - 1, &kept, 1), 1, "the words stay");
    is(kept, word, "the last place");
    is(confluo_span_tail(span, &head.tail), CONFLUO_OK, "tail");
    is(head.tail, 10, "what is seen stays");
    free(wanted);
    confluo_free_reader(large), confluo_free_span(span);
    return given;
}

int main(void) {
    pthread_t threads[WRITERS + ASKERS];
    for (int w = 0; w < WRITERS; w++) pthread_create(&threads[w], NULL, append, (void *)(uintptr_t)w);
    for (int r = 0; r < ASKERS; r++) pthread_create(&threads[WRITERS + r], NULL, ask, NULL);
    for (int t = 0; t < WRITERS + ASKERS; t++) pthread_join(threads[t], NULL);
    if (!failed) ask_all();
    return failed | in_a_small_stack(refusals) | in_a_small_stack(reports);
}
