/* Each code of each call, and what a refused call leaves: the handles, and what it would have written. Ends with 0 if all is as said. */
#include "check.h"

static const char packets[] = "schema packet\nindex sources src\nask all list *\nask one find sources 10.0.0.1 10.0.0.1\n";
static const char records[] =
    "schema records ts:u64,key:u16,len:u32\ntally keys key len *\nfilter every *\naggregate sums every len\ntrigger large sums sum > 40\n"
    "ask top top keys sum 2\nask all total len *\nask marks fired large\nask seconds measure sums 0 0\n";

static void versions_and_texts(void) {
    uint8_t out[64];
    is(confluo_version(), CONFLUO_VERSION, "version");
    for (uint32_t code = 0; code <= CONFLUO_BUSY; code++) {
        size_t count = confluo_raw_message(code, 0, out, sizeof out);
        is(count > 0 && count < sizeof out && confluo_raw_message(code, count, out, sizeof out) == 0, 1, "length of a text");
    }
    is(confluo_raw_message(6, 4, out, 3), 3, "part of a text");
    is(memcmp(out, "log", 3), 0, "that part");
    is(confluo_raw_message(4000000000u, 0, out, sizeof out), 18, "the text of no code");
}

static void setups(void) {
    struct {
        const char *text;
        uint32_t capacity, writers, nodes, reserved, code, line, fault;
    } cases[] = {
        {packets, 1, 1, 0, 0, CONFLUO_OK, 7, 7},
        {packets, 0, 1, 0, 0, CONFLUO_SIZES, 7, 7},
        {packets, 65537, 1, 0, 0, CONFLUO_SIZES, 7, 7},
        {packets, 1, 0, 0, 0, CONFLUO_SIZES, 7, 7},
        {packets, 1, 16, 0, 0, CONFLUO_SIZES, 7, 7},
        {packets, 1, 257, 0, 0, CONFLUO_SIZES, 7, 7},
        {packets, 1, 1, 65537, 0, CONFLUO_SIZES, 7, 7},
        {packets, 1, 1, 0, 1, CONFLUO_SIZES, 7, 7},
        {"schema packet\nindex\n", 1, 1, 0, 0, CONFLUO_SETUP, 2, 3},
        {"schema packet\nindex\n", 0, 99, 0, 0, CONFLUO_SETUP, 2, 3},
        {"", 1, 1, 0, 0, CONFLUO_SETUP, 1, 2},
    };
    for (size_t k = 0; k < sizeof cases / sizeof *cases; k++) {
        const confluo_sizes sizes = {cases[k].capacity, cases[k].writers, cases[k].nodes, cases[k].reserved};
        size_t len = strlen(cases[k].text);
        for (int opens = 0; opens < 2; opens++) {
            confluo_fault fault = {7, 7};
            confluo_log *log = NULL;
            uint64_t bytes = 9;
            uint32_t code =
                opens ? confluo_open(&log, cases[k].text, len, &sizes, &fault) : confluo_check(cases[k].text, len, &sizes, &bytes, &fault);
            is(code, cases[k].code, "code of a setup");
            is(fault.line, cases[k].line, "line of a fault");
            is(fault.code, cases[k].fault, "code of a fault");
            if (!opens) is(bytes == 9, code != CONFLUO_OK, "bytes");
            is(log != NULL, opens && code == CONFLUO_OK, "a log");
            confluo_free_log(log);
        }
    }
}

static void nothing(void) {
    confluo_log *log = NULL;
    confluo_writer *writer = NULL;
    confluo_reader *reader = NULL;
    confluo_capture capture = {1000, 5, 60, 1, 0};
    confluo_head head = {7, 7, 7};
    confluo_room room = {7, 7, 7, 7};
    confluo_fault fault = {7, 7};
    uint64_t words[2] = {7, 7};
    uint32_t out = 7;
    is(confluo_take_writer(log, &writer, &out), CONFLUO_NOTHING, "a writer of nothing");
    is(confluo_take_reader(log, &reader), CONFLUO_NOTHING, "a reader of nothing");
    is(confluo_append(writer, &capture, (const uint8_t *)words, 0, &out), CONFLUO_NOTHING, "an append by nothing");
    is(confluo_append_values(writer, 1, words, 2, &out), CONFLUO_NOTHING, "values by nothing");
    is(confluo_room_of(writer, &room), CONFLUO_NOTHING, "room of nothing");
    is(confluo_ask(reader, 0, &head), CONFLUO_NOTHING, "an ask by nothing");
    is(confluo_ask_text(reader, "ask a list *", 12, &head, &fault), CONFLUO_NOTHING, "a line by nothing");
    is(confluo_tail(reader, &out), CONFLUO_NOTHING, "the tail of nothing");
    is(confluo_words(reader, 0, words, 2), 0, "words of nothing");
    is(out + head.tail + head.kind + head.count + room.covered + words[0] + fault.line, 7 * 7, "what refused calls leave");
    is(log == NULL && writer == NULL && reader == NULL, 1, "the pointers too");
    confluo_free_log(log);
    confluo_free_writer(writer);
    confluo_free_reader(reader);
}

static void frames(void) {
    confluo_log *log = NULL;
    confluo_writer *writer = NULL, *other = NULL;
    confluo_reader *reader = NULL;
    confluo_head head = {7, 7, 7};
    confluo_room room;
    uint8_t frame[34] = {0};
    uint64_t words[4] = {7, 7, 7, 7};
    uint32_t out = 7;
    frame[12] = 8, frame[14] = 0x45, frame[17] = 20, frame[26] = 10, frame[29] = 1;
    is(opened(&log, packets, 3, 2, 16), CONFLUO_OK, "open");
    is(confluo_take_writer(log, &writer, &out), CONFLUO_OK, "writer 1");
    is(out, 1, "its number");
    is(confluo_take_writer(log, &other, &out), CONFLUO_OK, "writer 0");
    is(out, 0, "its number");
    is(confluo_take_writer(log, &other, &out), CONFLUO_NO_WRITER, "a third writer");
    is(confluo_room_of(other, &room), CONFLUO_OK, "a writer that a refused call keeps");
    is(confluo_take_reader(log, &reader), CONFLUO_OK, "reader");
    is(opened(&log, "nonsense\n", 3, 2, 16), CONFLUO_SETUP, "a refused open");
    is(confluo_take_writer(log, &other, &out), CONFLUO_NO_WRITER, "the log that it keeps");
    confluo_free_log(log);

    struct {
        confluo_capture capture;
        uint32_t code;
    } cases[] = {
        {{1000, 5, 60, 65537, 0}, CONFLUO_FRAME}, {{1000, 5, 60, 276, 0}, CONFLUO_FRAME},     {{1000, 5, 60, 1, 1}, CONFLUO_FRAME},
        {{1000, 5, 60, 1, 0}, CONFLUO_OK},        {{2000, 5, 4000000000u, 1, 0}, CONFLUO_OK},
    };
    for (size_t k = 0; k < sizeof cases / sizeof *cases; k++)
        is(confluo_append(writer, &cases[k].capture, frame, sizeof frame, &out), cases[k].code, "append");
    is(out, 1, "the second offset");
    is(confluo_append_values(writer, 6, words, 4, &out), CONFLUO_UNFIT, "four numbers as a packet");
    is(confluo_words(reader, 0, words, 4), 0, "words before an answer");
    is(confluo_ask(reader, 0, &head), CONFLUO_OK, "all");
    is(head.tail == 2 && head.kind == CONFLUO_PLACES && head.count == 2, 1, "their head");
    is(confluo_ask(reader, 1, &head), CONFLUO_OK, "one");
    is(head.tail == 2 && head.kind == CONFLUO_PLACES && head.count == 2, 1, "its head");
    is(confluo_ask(reader, 2, &head), CONFLUO_NO_QUESTION, "a third question");
    is(confluo_words(reader, 0, words, 4), 2, "words that a refused question keeps");
    is(words[0] == 0 && words[1] == 1 && words[2] == 7, 1, "them, and the room behind");
    is(confluo_words(reader, SIZE_MAX, words, 4), 0, "words past the last");
    is(confluo_append(other, &cases[3].capture, frame, sizeof frame, &out), CONFLUO_OK, "append by writer 0");
    is(confluo_append(writer, &cases[3].capture, frame, 0, &out), CONFLUO_FULL, "a fourth record");
    is(confluo_append(other, &cases[3].capture, frame, 0, &out), CONFLUO_FULL, "a fourth record by the other");
    is(confluo_tail(reader, &out), CONFLUO_OK, "tail");
    is(out, 3, "three records");
    is(confluo_room_of(writer, &room), CONFLUO_OK, "room");
    is(room.capacity, 3, "capacity");
    is(room.covered, 2, "what writer 1 has seen");
    is(room.nodes_left, 3, "the nodes of 10.0.0.1 are 7, and of 0.0.0.0 beside them 6");
    is(room.reserved, 0, "nothing");
    confluo_free_writer(writer);
    confluo_free_reader(reader);
    confluo_free_writer(other);
}

static void rows(void) {
    confluo_log *log = NULL;
    confluo_writer *writer = NULL;
    confluo_reader *reader = NULL;
    confluo_capture capture = {1000, 5, 60, 1, 0};
    confluo_head head;
    uint64_t wide[3] = {1, 65536, 1}, row[3][3] = {{1, 7, 10}, {2, 8, 25}, {3, 7, 20}}, words[4];
    uint32_t out = 7;
    is(opened(&log, records, 4, 1, 34), CONFLUO_OK, "open");
    is(confluo_take_writer(log, &writer, &out), CONFLUO_OK, "writer");
    is(confluo_take_reader(log, &reader), CONFLUO_OK, "reader");
    is(confluo_append(writer, &capture, (const uint8_t *)words, 0, &out), CONFLUO_UNFIT, "a frame among records");
    is(confluo_append_values(writer, 0, row[0], 2, &out), CONFLUO_UNFIT, "a number too few");
    is(confluo_append_values(writer, 0, wide, 3, &out), CONFLUO_UNFIT, "a number too large");
    for (uint32_t k = 0; k < 3; k++) {
        is(confluo_append_values(writer, k, row[k], 3, &out), CONFLUO_OK, "append of numbers");
        is(out, k, "its offset");
    }
    row[0][1] = 65535;
    is(confluo_append_values(writer, 3, row[0], 3, &out), CONFLUO_NODES, "a key that needs more nodes than there are");
    struct {
        uint32_t kind, count;
        uint64_t words[4];
    } answers[] = {
        {CONFLUO_TOPS, 4, {7, 30, 8, 25}},
        {CONFLUO_QUAD, 4, {3, 55, 10, 25}},
        {CONFLUO_MARKS, 2, {0, 55}},
        {CONFLUO_QUAD, 4, {3, 55, 10, 25}},
    };
    for (uint32_t q = 0; q < 4; q++) {
        is(confluo_ask(reader, q, &head), CONFLUO_OK, "ask");
        is(head.tail == 3 && head.kind == answers[q].kind && head.count == answers[q].count, 1, "head");
        is(confluo_words(reader, 0, words, 4), answers[q].count, "words");
        is(memcmp(words, answers[q].words, answers[q].count * sizeof *words), 0, "the answer");
    }
    confluo_free_writer(writer);
    confluo_free_log(log);
    confluo_free_reader(reader);
}

/* The header of an IPv6 packet from 2001:db8::, by LINKTYPE_IPV6. */
static void addresses(void) {
    static const char setup[] = "schema packet6\nask one list src6==2306139568115548160\nask other list src6==2306139568115548161\n";
    confluo_log *log = NULL;
    confluo_writer *writer = NULL;
    confluo_reader *reader = NULL;
    confluo_capture capture = {1000, 5, 40, 229, 0}, unread = {1000, 5, 40, 65535, 0};
    confluo_head head = {7, 7, 7};
    uint8_t packet[40] = {[0] = 0x60, [8] = 0x20, [9] = 0x01, [10] = 0x0d, [11] = 0xb8};
    uint64_t words[4] = {7, 7, 7, 7};
    uint32_t out = 7;
    confluo_value values[32];
    size_t count = 7;
    is(opened(&log, setup, 4, 1, 0), CONFLUO_OK, "open");
    is(confluo_take_writer(log, &writer, &out), CONFLUO_OK, "writer");
    is(confluo_take_reader(log, &reader), CONFLUO_OK, "reader");
    is(confluo_append(writer, &unread, packet, sizeof packet, &out), CONFLUO_FRAME, "a link that packet6 does not read");
    is(confluo_append(writer, &capture, packet, sizeof packet, &out), CONFLUO_OK, "append of an IPv6 packet");
    is(confluo_ask(reader, 1, &head), CONFLUO_OK, "another address");
    is(head.tail == 1 && head.count == 0, 1, "none has it");
    is(confluo_ask(reader, 0, &head), CONFLUO_OK, "its address");
    is(confluo_words(reader, 0, words, 4), 1, "one has it");
    is(words[0], 0, "the first");
    is(confluo_row(reader, 0, &out, values, 32, &count), CONFLUO_OK, "its row");
    is(count, 32, "values of packet6");
    is(values[20].number, UINT64_C(0x20010db800000000), "its source");
    is(values[31].number, UINT64_C(17967390573685572453), "its flow");
    confluo_free_reader(reader);
    confluo_free_writer(writer);
    confluo_free_log(log);
}

static void *append_and_free(void *given) {
    confluo_writer *writer = given;
    uint64_t row[3] = {1, 7, 10};
    uint32_t out;
    is(confluo_append_values(writer, 0, row, 3, &out), CONFLUO_OK, "append in a thread");
    confluo_free_writer(writer);
    return NULL;
}

/* Writers that are freed are taken again, wherever they were freed, and go on with their nodes. */
static void writers_come_back(void) {
    confluo_log *log = NULL;
    confluo_writer *writers[2] = {NULL}, *third = NULL;
    confluo_room room;
    pthread_t thread;
    uint32_t number = 7;
    is(opened(&log, records, 64, 2, 34), CONFLUO_OK, "open");
    for (int k = 0; k < 2; k++) is(confluo_take_writer(log, &writers[k], &number), CONFLUO_OK, "writer");
    is(confluo_take_writer(log, &third, &number), CONFLUO_NO_WRITER, "a third writer");
    for (int k = 0; k < 40; k++) {
        int freed = k % 2;
        is(pthread_create(&thread, NULL, append_and_free, writers[freed]), 0, "thread");
        pthread_join(thread, NULL);
        is(confluo_take_writer(log, &writers[freed], &number), CONFLUO_OK, "a writer that was freed");
        is(number, freed ? 0 : 1, "its number");
        is(confluo_take_writer(log, &third, &number), CONFLUO_NO_WRITER, "a third writer still");
    }
    is(confluo_room_of(writers[0], &room), CONFLUO_OK, "room");
    is(room.nodes_left < 34, 1, "the nodes that it had used are used");
    is(confluo_take_writer(log, &writers[0], &number), CONFLUO_NO_WRITER, "none is free while it is held");
    confluo_free_writer(writers[0]);
    confluo_free_writer(writers[1]);
    is(confluo_take_writer(log, &third, &number), CONFLUO_OK, "one of two that were freed");
    is(number, 1, "the greater number");
    confluo_free_log(log);
    confluo_free_writer(third);
}

static void *all(void *given) {
    versions_and_texts();
    setups();
    nothing();
    frames();
    rows();
    addresses();
    writers_come_back();
    return given;
}

int main(void) { return in_a_small_stack(all); }
