/* Rolling logs. Four writers append a million records in segments of 4,096 while two threads ask, all of it or the last three segments;
 * what is left is compared with a plain count. Then writers and readers that are slow, or come and go, full logs, and what is refused. */
#include "check.h"
#include "confluo_rolling.h"
#include <signal.h>
#include <stdatomic.h>
#include <stdlib.h>
#include <time.h>

enum { WRITERS = 4, ASKERS = 2, CAPACITY = 4096, HOSTS = 7, EACH = 250000, ALL = WRITERS * EACH };

static const char setup[] = "schema records ts:u64,writer:u32,k:u32,host:u32,len:u32\nindex hosts host\ntally keys host len *\n"
                            "ask all total len *\nask third find hosts 3 3\nask each groups keys\n";
static const char plain[] = "schema records ts:u64,len:u32\nask all total len *\n";

static confluo_rolling *rolling_of(const char *text, uint32_t capacity, uint32_t writers, uint32_t nodes, uint32_t keep) {
    const confluo_sizes sizes = {capacity, writers, nodes, 0};
    confluo_rolling *rolling = NULL;
    is(confluo_rolling_open_str(&rolling, text, &sizes, keep, NULL), CONFLUO_OK, "open");
    return rolling;
}
static confluo_rolling_writer *writer_of(confluo_rolling *rolling) {
    confluo_rolling_writer *writer = NULL;
    is(confluo_rolling_take_writer(rolling, &writer, NULL), CONFLUO_OK, "writer");
    return writer;
}
static confluo_rolling_reader *reader_of(confluo_rolling *rolling) {
    confluo_rolling_reader *reader = NULL;
    is(confluo_rolling_take_reader(rolling, &reader), CONFLUO_OK, "reader");
    return reader;
}
static uint32_t append_to(confluo_rolling_writer *writer, uint64_t value) {
    return confluo_rolling_append_values(writer, 0, (const uint64_t[]){1000, value}, 2, NULL);
}
static uint64_t end_of(confluo_rolling_reader *reader) {
    uint64_t before = 0;
    uint32_t tail = 0;
    size_t segments = 0;
    is(confluo_rolling_tail(reader, &tail), CONFLUO_OK, "tail");
    is(confluo_rolling_segments(reader, &segments, &before), CONFLUO_OK, "segments");
    return before + tail;
}
static void nap(long nanoseconds) { nanosleep(&(struct timespec){0, nanoseconds}, NULL); }

/* MANY THREADS */

static confluo_rolling *shared;
static uint32_t kept;
static atomic_int running;
static uint64_t places[WRITERS][EACH];

static uint64_t host_of(uint64_t writer, uint64_t k) { return (k * (writer + 2) + k / 11) % HOSTS; }

static void *append(void *given) {
    const uint64_t writer = (uint64_t)(uintptr_t)given;
    confluo_rolling_writer *its = writer_of(shared);
    for (uint64_t k = 0; k < EACH && !failed; k++) {
        const uint64_t values[] = {1000 * k, writer, k, host_of(writer, k), 40 + writer};
        is(confluo_rolling_append_values(its, 5, values, 5, &places[writer][k]), CONFLUO_OK, "append");
        if (k > 0) is(places[writer][k] > places[writer][k - 1], 1, "places ascend");
    }
    confluo_free_rolling_writer(its);
    running--;
    return NULL;
}

/* What is asked at one tail fits together. */
static void ask_at(confluo_rolling_reader *reader, uint32_t tail) {
    confluo_head head = {0, 0, 0};
    confluo_value row[5];
    uint64_t quad[4] = {7, 7, 7, 7}, words[5 * HOSTS], numbers = 0, sums = 0, place = 0;
    uint32_t number = 7;
    size_t count = 0, long_is;
    is(confluo_rolling_ask_seen(reader, 0, &head), CONFLUO_OK, "total");
    is(head.tail, tail, "its tail");
    is(confluo_rolling_words(reader, 0, quad, 4), 4, "its words");
    is(quad[0], tail, "its count");
    is(confluo_rolling_groups(reader, 1, &head), CONFLUO_OK, "groups");
    long_is = confluo_rolling_words(reader, 0, words, 5 * HOSTS);
    for (size_t k = 0; k < long_is; k += 5) numbers += words[k + 1], sums += words[k + 2];
    is(numbers, tail, "their counts");
    is(sums, quad[1], "their sums");
    is(confluo_rolling_ask_seen(reader, 1, &head), CONFLUO_OK, "find");
    if (head.count > 0) is(confluo_rolling_words(reader, head.count - 1, &place, 1), 1, "the last place");
    if (head.count > 0) is(confluo_rolling_row(reader, (uint32_t)place, &number, row, 5, &count), CONFLUO_OK, "its row");
    if (head.count > 0) is(row[3].number == 3 && number == 5 && count == 5, 1, "what it has");
    is(confluo_rolling_row(reader, tail, NULL, NULL, 0, &count), CONFLUO_NO_ROW, "no row at the tail");
}

static void *ask(void *given) {
    confluo_rolling_reader *reader = reader_of(shared);
    uint64_t end = 0, before = 0, first = 0, was_first = 0, rounds = 0;
    confluo_head head = {0, 0, 0};
    uint32_t tail = 0;
    size_t segments = 0;
    int is_last = 0;
    while (!is_last && !failed) {
        is_last = running == 0;
        if (given != NULL && !is_last) nap(3000000); /* so that it finds several new segments */
        is(confluo_rolling_tail(reader, &tail), CONFLUO_OK, "tail");
        is(confluo_rolling_segments(reader, &segments, &first), CONFLUO_OK, "segments");
        is(kept == 0 || segments <= kept, 1, "no more segments than are kept");
        is(kept != 0 || first == 0, 1, "all are kept");
        end = first + tail;
        is(end >= before && first >= was_first && first % CAPACITY == 0, 1, "an end only rises");
        before = end, was_first = first;
        if (kept != 0 || rounds++ % 16 == 0 || is_last) ask_at(reader, tail);
        is(confluo_rolling_ask(reader, 2, &head), CONFLUO_OK, "ask");
    }
    is(end, ALL, "all records at last");
    confluo_free_rolling_reader(reader);
    return NULL;
}

/* All records, as a plain count of them. */
static void compare_all(confluo_rolling_reader *reader) {
    uint64_t counts[HOSTS] = {0}, sums[HOSTS] = {0}, words[5 * HOSTS];
    confluo_head head = {0, 0, 0};
    confluo_value row[5];
    size_t count = 0;
    for (uint64_t writer = 0; writer < WRITERS; writer++)
        for (uint64_t k = 0; k < EACH; k++) counts[host_of(writer, k)]++, sums[host_of(writer, k)] += 40 + writer;
    is(confluo_rolling_ask(reader, 2, &head), CONFLUO_OK, "groups");
    is(head.tail, ALL, "their tail");
    is(confluo_rolling_words(reader, 0, words, 5 * HOSTS), 5 * HOSTS, "their words");
    for (size_t host = 0; host < HOSTS; host++)
        is(words[5 * host] == host && words[5 * host + 1] == counts[host] && words[5 * host + 2] == sums[host], 1, "a host");
    is(confluo_rolling_ask_seen(reader, 1, &head), CONFLUO_OK, "find");
    is(head.count, counts[3], "as many places");
    for (uint64_t writer = 0; writer < WRITERS && !failed; writer++)
        for (uint64_t k = writer; k < EACH && !failed; k += 97) {
            is(confluo_rolling_row(reader, (uint32_t)places[writer][k], NULL, row, 5, &count), CONFLUO_OK, "row");
            is(row[1].number == writer && row[2].number == k, 1, "the record of that place");
        }
}

/* The last records: of each writer as many as the window has, none left out, up to its last one. */
static void compare_last(confluo_rolling_reader *reader) {
    uint64_t next[WRITERS] = {0}, before = 0;
    confluo_value row[5];
    uint32_t tail = 0;
    size_t count = 0, segments = 0;
    is(confluo_rolling_tail(reader, &tail), CONFLUO_OK, "tail");
    is(confluo_rolling_segments(reader, &segments, &before), CONFLUO_OK, "segments");
    is(segments, kept, "so many segments");
    is(before + tail, ALL, "up to the last record");
    for (uint32_t offset = 0; offset < tail && !failed; offset++) {
        is(confluo_rolling_row(reader, offset, NULL, row, 5, &count), CONFLUO_OK, "row");
        uint64_t *const at = &next[row[1].number % WRITERS];
        if (*at != 0) is(row[2].number, *at, "the next record of its writer");
        *at = row[2].number + 1;
        is(places[row[1].number % WRITERS][row[2].number], before + offset, "its place");
    }
    for (int writer = 0; writer < WRITERS; writer++)
        if (next[writer] != 0) is(next[writer], EACH, "its last record");
}

static void many_threads(uint32_t keep) {
    pthread_t threads[WRITERS + ASKERS];
    confluo_rolling_reader *reader;
    shared = rolling_of(setup, CAPACITY, WRITERS, 64, keep), kept = keep;
    running = WRITERS;
    for (int w = 0; w < WRITERS; w++) pthread_create(&threads[w], NULL, append, (void *)(uintptr_t)w);
    for (int r = 0; r < ASKERS; r++) pthread_create(&threads[WRITERS + r], NULL, ask, (void *)(uintptr_t)r);
    for (int t = 0; t < WRITERS + ASKERS; t++) pthread_join(threads[t], NULL);
    reader = reader_of(shared);
    confluo_free_rolling(shared);
    if (!failed && keep == 0) compare_all(reader);
    if (!failed && keep != 0) compare_last(reader);
    confluo_free_rolling_reader(reader);
}

/* THREADS THAT COME AND GO */

static atomic_ulong appended;

static void *append_and_go(void *given) {
    while (running > 0 && !failed) {
        confluo_rolling_writer *writer = writer_of(shared);
        for (int k = 0; k < 9; k++) is(append_to(writer, 1), CONFLUO_OK, "append"), appended++;
        confluo_free_rolling_writer(writer);
    }
    return given;
}
static void *ask_and_go(void *given) {
    uint64_t before = 0;
    while (running > 0 && !failed) {
        confluo_rolling_reader *reader = reader_of(shared);
        const uint64_t least = appended, end = end_of(reader);
        is(end >= before, 1, "an end only rises");
        if (given != NULL) is(end >= least, 1, "what was appended before is seen");
        before = end;
        confluo_free_rolling_reader(reader);
    }
    return NULL;
}
/* With one thread that appends, a reader sees all that it had appended; with several it may wait for one of them. */
static void come_and_go(int writers) {
    pthread_t threads[6];
    confluo_rolling_reader *reader;
    shared = rolling_of(plain, 4, 3, 0, 2);
    running = 1;
    appended = 0;
    for (int t = 0; t < 6; t++) pthread_create(&threads[t], NULL, t < writers ? append_and_go : ask_and_go, writers == 1 ? &shared : NULL);
    while (appended < 30000 && !failed) nap(1000000);
    running = 0;
    for (int t = 0; t < 6; t++) pthread_join(threads[t], NULL);
    reader = reader_of(shared);
    is(end_of(reader), appended, "all records");
    confluo_free_rolling_reader(reader), confluo_free_rolling(shared);
}

/* Whether the sanitizer of threads, which holds signals back, sees this. */
#if defined(__SANITIZE_THREAD__)
enum { is_watched = 1 };
#elif defined(__has_feature)
#if __has_feature(thread_sanitizer)
enum { is_watched = 1 };
#else
enum { is_watched = 0 };
#endif
#else
enum { is_watched = 0 };
#endif

/* A WRITER THAT IS SLOW: a signal stops it wherever it is, also in the midst of a record. It appends frames, for which no memory is taken,
 * so that the others can go on. */

enum { FRAMES = 4096 };
static atomic_int stopped, may_go;
static const uint8_t frame[60] = {[12] = 8, [14] = 0x45, [29] = 1};
static const confluo_capture captured = {1000, 5, 60, 1, 0};

static void stop(int signal) {
    (void)signal;
    stopped = 1;
    while (!may_go) nap(10000);
    stopped = 0;
}
/* It fills no segment before it is stopped. */
static void *append_slowly(void *given) {
    while (running > 0 && !failed) {
        if (appended >= FRAMES - 1 && !may_go) continue;
        is(confluo_rolling_append(given, &captured, frame, sizeof frame, NULL), CONFLUO_OK, "append");
        appended++;
    }
    return NULL;
}
/* Answers whether the reader had to wait for the writer that was stopped. */
static int stop_once(uint32_t keep, unsigned long after) {
    confluo_rolling *rolling = rolling_of("schema packet\nindex hosts src\nask all list *\n", FRAMES, 2, 64, keep);
    confluo_rolling_writer *slow = writer_of(rolling), *other = writer_of(rolling);
    confluo_rolling_reader *reader = reader_of(rolling);
    uint64_t others = 0, seen, place = 0;
    pthread_t thread;
    running = 1;
    may_go = 0;
    appended = 0;
    pthread_create(&thread, NULL, append_slowly, slow);
    while (appended < after) {
    }
    pthread_kill(thread, SIGUSR1);
    while (!stopped) nap(10000);
    for (; place < 3 * FRAMES; others++)
        is(confluo_rolling_append(other, &captured, frame, sizeof frame, &place), CONFLUO_OK, "the other writer goes on");
    seen = end_of(reader);
    const uint64_t finished = others + appended;
    /* (the writer may have been stopped when its record was finished, and not yet counted) */
    is(seen <= finished + 1, 1, "no more than there is");
    is(keep != 0 || seen >= finished || seen < FRAMES, 1, "the reader waits only for the writer that was stopped");
    running = 0;
    may_go = 1;
    pthread_join(thread, NULL);
    is(end_of(reader), others + appended, "nothing is lost");
    confluo_free_rolling(rolling), confluo_free_rolling_writer(slow), confluo_free_rolling_writer(other);
    confluo_free_rolling_reader(reader);
    return seen < finished;
}
/* Until some were stopped in the midst of a record, which is a matter of luck. */
static void slow_writers(void) {
    int rounds = 0, waited = 0;
    for (; rounds < 300 && waited < 5 && !failed; rounds++) waited += stop_once(0, 3 + (unsigned long)rounds);
    printf("rolling: of %d writers that were stopped %d were in the midst of a record\n", rounds, waited);
    for (rounds = 0; rounds < 40 && !failed; rounds++) (void)stop_once(2, 3 + (unsigned long)rounds);
}

/* A writer and a reader that nobody called while segments came and went. */
static void who_was_away(void) {
    confluo_rolling *rolling = rolling_of(plain, 4, 2, 0, 2);
    confluo_rolling_writer *away = writer_of(rolling), *writer = writer_of(rolling);
    confluo_rolling_reader *reader = reader_of(rolling);
    confluo_head head = {7, 7, 7};
    uint64_t quad[4] = {7, 7, 7, 7}, place = 7, before = 7;
    size_t segments = 7, length = 7, count = 7;
    char *text = NULL;
    is(append_to(away, 1), CONFLUO_OK, "append");
    is(confluo_rolling_ask(reader, 0, &head), CONFLUO_OK, "ask");
    for (uint64_t k = 1; k < 41; k++) is(append_to(writer, 1), CONFLUO_OK, "append");
    is(confluo_rolling_append_values(away, 0, (const uint64_t[]){1, 1}, 2, &place), CONFLUO_OK, "append after 10 segments");
    is(place, 41, "its place");
    is(confluo_rolling_segments(reader, &segments, &before), CONFLUO_OK, "segments");
    is(segments == 1 && before == 0, 1, "those that the reader saw");
    is(end_of(reader), 42, "all records");
    is(confluo_rolling_words(reader, 0, quad, 4), 4, "the words stay");
    is(quad[0], 1, "of the last answer");
    is(confluo_rolling_segments(reader, &segments, &before), CONFLUO_OK, "segments");
    is(segments == 2 && before == 36, 1, "the last two segments");
    is(confluo_rolling_make_report(reader, &text, &length), CONFLUO_OK, "report");
    is(text != NULL && length == strlen(text) && strncmp(text, "records 6\n", 10) == 0, 1, "of the records that it sees");
    is(confluo_rolling_report(reader, NULL, 0, &count), CONFLUO_OK, "report without room");
    is(count, length, "as long");
    is(confluo_rolling_report(NULL, NULL, 0, &count), CONFLUO_NOTHING, "the report of nothing");
    free(text);
    confluo_free_rolling(rolling), confluo_free_rolling_writer(writer), confluo_free_rolling_writer(away);
    confluo_free_rolling_reader(reader);
}

static void a_full_one(void) {
    confluo_rolling *rolling = rolling_of(plain, 65536, 1, 0, 0);
    confluo_rolling_writer *writer = writer_of(rolling);
    confluo_rolling_reader *reader = reader_of(rolling);
    uint32_t code = CONFLUO_OK;
    uint64_t count = 0, place = 7;
    for (; code == CONFLUO_OK; count += code == CONFLUO_OK) code = append_to(writer, 1);
    is(code, CONFLUO_FULL, "full");
    is(count, 1 << 20, "so many records");
    is(confluo_rolling_append_values(writer, 0, (const uint64_t[]){1, 1}, 2, &place), CONFLUO_FULL, "for good");
    is(place, 7, "no place");
    confluo_free_rolling_writer(writer);
    writer = writer_of(rolling);
    is(append_to(writer, 1), CONFLUO_FULL, "also for the next writer");
    is(end_of(reader), 1 << 20, "all records");
    confluo_free_rolling(rolling), confluo_free_rolling_writer(writer), confluo_free_rolling_reader(reader);
    rolling = rolling_of(plain, 1000, 1, 0, 0), writer = writer_of(rolling);
    for (count = 0, code = CONFLUO_OK; code == CONFLUO_OK; count += code == CONFLUO_OK) code = append_to(writer, 1);
    is(code == CONFLUO_FULL && count == 1048000, 1, "no part of a segment");
    confluo_free_rolling(rolling), confluo_free_rolling_writer(writer);
}

/* NODES */

static const char hosts[] = "schema records ts:u64,host:u32\nindex hosts host\nask all list *\n";

static uint64_t new_host(uint64_t k) { return (k * 2654435761U) & UINT32_MAX; }

/* How many nodes make a full log of 8 say NODES to its only writer. */
static uint32_t nodes_of_a_full_log(void) {
    for (uint32_t nodes = 1; nodes < 400; nodes++) {
        parts it = parts_of(hosts, 8, nodes);
        uint32_t code = CONFLUO_OK;
        uint64_t k = 0;
        for (; code == CONFLUO_OK; k += code == CONFLUO_OK)
            code = confluo_append_values(it.writer, 0, (const uint64_t[]){1, new_host(k)}, 2, NULL);
        free_parts(&it);
        if (k == 8) return code == CONFLUO_NODES ? nodes : 0;
    }
    return 0;
}
static void few_nodes(uint32_t nodes) {
    confluo_rolling *rolling = rolling_of(hosts, 8, 1, nodes, 3);
    confluo_rolling_writer *writer = writer_of(rolling);
    confluo_rolling_reader *reader = reader_of(rolling);
    uint64_t refused = 0, known = 0, place = 0;
    for (uint64_t k = 0; k < 100; k++) {
        const uint32_t code = confluo_rolling_append_values(writer, 0, (const uint64_t[]){1, new_host(k)}, 2, &place);
        is(code == CONFLUO_OK || code == CONFLUO_NODES, 1, "append");
        if (code == CONFLUO_OK) known = k;
        if (code == CONFLUO_OK) continue;
        refused++;
        is(place % 8 != 7, 1, "no segment that is full says that the nodes are used");
        is(confluo_rolling_append_values(writer, 0, (const uint64_t[]){1, new_host(known)}, 2, &place), CONFLUO_OK, "a host that is known");
    }
    is(end_of(reader), 100, "so many records");
    is(refused > 0, nodes == 40, "whether some were refused");
    confluo_free_rolling(rolling), confluo_free_rolling_writer(writer), confluo_free_rolling_reader(reader);
}

/* WAITS */

static void *wait_for_all(void *given) {
    uint64_t end = 0;
    for (uint64_t was = 0; end < 2000 && !failed; was = end) {
        is(confluo_rolling_wait(given, was, 10000000000, &end), CONFLUO_OK, "wait");
        is(end > was, 1, "more than before");
    }
    return NULL;
}
static void waits(void) {
    confluo_rolling *rolling = rolling_of(plain, 16, 1, 0, 1);
    confluo_rolling_writer *writer = writer_of(rolling);
    confluo_rolling_reader *reader = reader_of(rolling);
    const uint64_t began = confluo_now_private();
    uint64_t end = 7;
    pthread_t thread;
    is(confluo_rolling_wait(reader, 0, 20000000, &end), CONFLUO_OK, "wait in vain");
    is(end == 0 && confluo_now_private() - began >= 20000000, 1, "all the time");
    pthread_create(&thread, NULL, wait_for_all, reader);
    for (int k = 0; k < 2000; k++) {
        is(append_to(writer, 1), CONFLUO_OK, "append");
        if (k % 7 == 0) nap(20000);
    }
    pthread_join(thread, NULL);
    is(confluo_now_private() - began < 8000000000, 1, "no wake was lost");
    confluo_free_rolling(rolling), confluo_free_rolling_writer(writer), confluo_free_rolling_reader(reader);
}

/* THE CALLS */

static void frames(void) {
    const confluo_capture other = {1000, 5, 60, 99, 0};
    confluo_rolling *rolling = rolling_of("schema packet\nask all list *\n", 300, 1, 0, 2);
    confluo_rolling_writer *writer = writer_of(rolling);
    confluo_rolling_reader *reader = reader_of(rolling);
    static confluo_frame many[1000];
    static uint64_t found[1000];
    uint64_t place = 7;
    size_t done = 7;
    is(confluo_rolling_append(writer, &captured, frame, sizeof frame, &place), CONFLUO_OK, "append");
    is(place, 0, "its place");
    is(confluo_rolling_append(writer, &other, frame, sizeof frame, &place), CONFLUO_FRAME, "another link");
    for (size_t k = 0; k < 1000; k++) many[k] = (confluo_frame){captured, 0, sizeof frame};
    is(confluo_rolling_append_many(writer, many, 1000, frame, sizeof frame, found, 999, &done), CONFLUO_SIZES, "too few places");
    is(done, 0, "none");
    is(confluo_rolling_append_many(writer, many, 1000, frame, sizeof frame, found, 1000, &done), CONFLUO_OK, "many");
    for (size_t k = 0; k < 1000; k++) is(found[k], k + 1, "a place");
    many[600].capture.link = 99;
    is(confluo_rolling_append_many(writer, many, 1000, frame, sizeof frame, NULL, 0, &done), CONFLUO_FRAME, "another link among them");
    is(done, 600, "those before");
    is(confluo_rolling_append_many(writer, NULL, 0, NULL, 0, NULL, 0, &done), CONFLUO_OK, "none at all");
    is(done, 0, "none");
    is(confluo_rolling_append_values(writer, 0, NULL, 0, NULL), CONFLUO_UNFIT, "no numbers");
    is(end_of(reader), 1601, "all frames");
    confluo_free_rolling(rolling), confluo_free_rolling_writer(writer), confluo_free_rolling_reader(reader);
}
static void rows(void) {
    confluo_rolling *rolling = rolling_of("schema records ts:u64,mac:b6\nask all list *\n", 2, 1, 0, 1);
    confluo_rolling_writer *writer = writer_of(rolling);
    confluo_rolling_reader *reader = reader_of(rolling);
    const confluo_value values[] = {{1, CONFLUO_NUMBER, 0, {0}}, {0, CONFLUO_BYTES, 6, {2, 0, 0, 0, 0, 1}}};
    confluo_value found[2];
    confluo_log *names = NULL;
    uint64_t place = 7;
    uint32_t number = 7;
    size_t count = 7;
    for (uint32_t k = 0; k < 5; k++) is(confluo_rolling_append_row(writer, k, values, 2, &place), CONFLUO_OK, "append");
    is(place, 4, "its place");
    is(end_of(reader), 5, "all rows");
    is(confluo_rolling_row(reader, 0, &number, found, 2, &count), CONFLUO_OK, "row");
    is(number == 4 && count == 2 && found[1].bytes[5] == 1, 1, "the last one");
    is(confluo_rolling_names(reader, &names), CONFLUO_OK, "names");
    is(confluo_question_str(names, "all", &number), CONFLUO_OK, "a question");
    is(number, 0, "its number");
    confluo_free_rolling(rolling), confluo_free_rolling_writer(writer), confluo_free_rolling_reader(reader);
}
static void refusals(void) {
    const confluo_sizes sizes = {65536, 2, 0, 0}, none = {65536, 16, 0, 0};
    confluo_rolling *rolling = NULL;
    confluo_rolling_writer *first = NULL, *second = NULL, *third = NULL;
    confluo_rolling_reader *reader = NULL;
    confluo_fault fault = {7, 7};
    confluo_head head = {7, 7, 7};
    confluo_log *names = NULL;
    uint64_t word = 7;
    uint32_t number = 7;
    size_t count = 7;
    is(confluo_rolling_open_str(&rolling, "schema packet\nindex\n", &none, 16, &fault), CONFLUO_SETUP, "a faulty setup");
    is(fault.line == 2 && fault.code == 3, 1, "where");
    is(confluo_rolling_open_str(&rolling, plain, &none, 0, &fault), CONFLUO_SIZES, "too many writers");
    is(confluo_rolling_open_str(&rolling, plain, &sizes, 16, &fault), CONFLUO_SIZES, "too many segments");
    is(confluo_rolling_open_str(&rolling, plain, &sizes, UINT32_MAX, &fault), CONFLUO_SIZES, "far too many segments");
    is(rolling == NULL, 1, "nothing is opened");
    is(confluo_rolling_open_str(&rolling, plain, &sizes, 15, NULL), CONFLUO_OK, "as many as there can be");
    is(confluo_rolling_take_writer(rolling, &first, &number), CONFLUO_OK, "writer");
    is(number, 1, "its number");
    is(confluo_rolling_take_writer(rolling, &second, &number), CONFLUO_OK, "another writer");
    is(number, 0, "its number");
    is(confluo_rolling_take_writer(rolling, &third, &number), CONFLUO_NO_WRITER, "no third writer");
    confluo_free_rolling_writer(first);
    is(confluo_rolling_take_writer(rolling, &third, &number), CONFLUO_OK, "a writer that was freed");
    is(number, 1, "its number");
    is(confluo_rolling_append_values(third, 0, NULL, 0, &word), CONFLUO_UNFIT, "no numbers");
    is(confluo_rolling_take_reader(rolling, &reader), CONFLUO_OK, "reader");
    is(confluo_rolling_ask(reader, 1, &head), CONFLUO_NO_QUESTION, "no question");
    is(confluo_rolling_ask_seen(reader, 1, &head), CONFLUO_NO_QUESTION, "no question");
    is(confluo_rolling_groups(reader, 0, &head), CONFLUO_NO_LANE, "no lane");
    confluo_free_rolling(rolling), confluo_free_rolling_writer(second), confluo_free_rolling_writer(third);
    confluo_free_rolling_reader(reader);
    is(confluo_rolling_take_writer(NULL, &first, NULL), CONFLUO_NOTHING, "nothing's writer");
    is(confluo_rolling_take_reader(NULL, &reader), CONFLUO_NOTHING, "nothing's reader");
    is(confluo_rolling_append(NULL, &(confluo_capture){0, 0, 0, 1, 0}, NULL, 0, &word), CONFLUO_NOTHING, "nothing takes a frame");
    is(confluo_rolling_append_values(NULL, 0, NULL, 0, &word), CONFLUO_NOTHING, "nothing takes numbers");
    is(confluo_rolling_append_row(NULL, 0, NULL, 0, &word), CONFLUO_NOTHING, "nothing takes values");
    is(confluo_rolling_tail(NULL, &number), CONFLUO_NOTHING, "nothing's tail");
    is(confluo_rolling_ask(NULL, 0, &head), CONFLUO_NOTHING, "nothing is asked");
    is(confluo_rolling_ask_seen(NULL, 0, &head), CONFLUO_NOTHING, "nothing is asked");
    is(confluo_rolling_groups(NULL, 0, &head), CONFLUO_NOTHING, "nothing's groups");
    is(confluo_rolling_row(NULL, 0, NULL, NULL, 0, &count), CONFLUO_NOTHING, "nothing's row");
    is(confluo_rolling_words(NULL, 0, &word, 1), 0, "nothing's words");
    is(confluo_rolling_segments(NULL, &count, &word), CONFLUO_NOTHING, "nothing's segments");
    is(confluo_rolling_wait(NULL, 0, 1, &word), CONFLUO_NOTHING, "nothing is waited for");
    is(confluo_rolling_names(NULL, &names), CONFLUO_NOTHING, "nothing's names");
    is(word == 7 && number == 1 && count == 7 && head.tail == 7 && names == NULL, 1, "nothing is written");
    is(confluo_rolling_append_many(NULL, NULL, 0, NULL, 0, NULL, 0, &count), CONFLUO_NOTHING, "nothing takes many frames");
    is(count, 0, "none");
    confluo_free_rolling(NULL), confluo_free_rolling_writer(NULL), confluo_free_rolling_reader(NULL);
}

static void *alone(void *given) {
    who_was_away();
    few_nodes(nodes_of_a_full_log());
    few_nodes(40);
    frames(), rows(), refusals(), a_full_one();
    return given;
}

int main(void) {
    sigaction(SIGUSR1, &(struct sigaction){.sa_handler = stop}, NULL);
    in_a_small_stack(alone);
    waits();
    come_and_go(1), come_and_go(3);
    if (!is_watched) slow_writers();
    many_threads(0), many_threads(3);
    return failed;
}
