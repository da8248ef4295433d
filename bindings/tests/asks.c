/* Questions at one tail, groups and their merge: each code, and what a refused call leaves. */
#include "check.h"

static const char setup[] =
    "schema records ts:u64,key:u16,len:u32,mac:b6\nwidth 1000\nindex keys key\nfilter every *\naggregate sums every len\n"
    "tally kinds key len len>5\naggregate apart every len by key\ntrigger large sums sum >= 40\n"
    "ask all list *\nask some find keys 7 8\nask early between every 0 1\n"
    "ask both measure sums 0 9\nask marks fired large\nask first top kinds greatest 2\nask whole total len *\n";

static void append(parts *it, uint64_t ns, uint64_t key, uint64_t len) {
    const confluo_value row[] = {{.number = ns}, {.number = key}, {.number = len}, {.kind = CONFLUO_BYTES, .length = 6}};
    uint32_t offset = 7;
    is(confluo_append_row(it->writer, 5, row, 4, &offset), CONFLUO_OK, "append");
}

static void one_tail(void) {
    parts it = parts_of(setup, 4, 64);
    confluo_head head = {7, 7, 7};
    confluo_reader *none = NULL;
    uint64_t words[4] = {7, 7, 7, 7};
    uint32_t tail = 7;
    append(&it, 500, 7, 10);
    is(confluo_ask_seen(it.reader, 6, &head), CONFLUO_OK, "seen nothing");
    is(head.tail == 0 && head.count == 4, 1, "of no record");
    is(confluo_words(it.reader, 0, words, 4), 4, "its words");
    is(words[0] + words[1] + words[2] + words[3], 0, "four times 0");
    is(confluo_tail(it.reader, &tail), CONFLUO_OK, "tail");
    append(&it, 600, 8, 30);
    for (uint32_t q = 0; q < 7; q++) {
        is(confluo_ask_seen(it.reader, q, &head), CONFLUO_OK, "ask of what is seen");
        is(head.tail, 1, "one tail");
    }
    is(confluo_ask_seen(it.reader, 7, &head), CONFLUO_NO_QUESTION, "no question");
    is(confluo_words(it.reader, 0, words, 4), 4, "the words that it keeps");
    is(words[0] == 1 && words[1] == 10, 1, "the last answer");
    is(confluo_ask(it.reader, 0, &head), CONFLUO_OK, "ask");
    is(head.tail, 2, "a new tail");
    is(confluo_ask_seen(it.reader, 0, &head), CONFLUO_OK, "ask of what is seen");
    is(head.tail, 2, "which is seen then");
    is(confluo_ask_seen(none, 0, &head), CONFLUO_NOTHING, "ask of nothing");
    free_parts(&it);
}

static void groups(void) {
    parts it = parts_of(setup, 4, 64);
    confluo_head head = {7, 7, 7};
    confluo_reader *none = NULL;
    uint64_t words[16];
    uint32_t tail = 7;
    append(&it, 500, 7, 10);
    append(&it, 600, 8, 30);
    append(&it, 1500, 7, 4);
    static const struct {
        uint32_t lane, code;
        size_t count;
        uint64_t words[10];
    } cases[] = {
        {2, CONFLUO_OK, 10, {0, 2, 40, 10, 30, 1, 1, 4, 4, 4}},         {3, CONFLUO_OK, 10, {7, 1, 10, 10, 10, 8, 1, 30, 30, 30}},
        {0, CONFLUO_NO_LANE, 10, {7, 1, 10, 10, 10, 8, 1, 30, 30, 30}}, {1, CONFLUO_NO_LANE, 10, {7, 1, 10, 10, 10, 8, 1, 30, 30, 30}},
        {4, CONFLUO_NO_LANE, 10, {7, 1, 10, 10, 10, 8, 1, 30, 30, 30}}, {5, CONFLUO_NO_LANE, 10, {7, 1, 10, 10, 10, 8, 1, 30, 30, 30}},
    };
    is(confluo_groups(it.reader, 2, &head), CONFLUO_OK, "groups of what is seen");
    is(head.tail == 0 && head.kind == CONFLUO_GROUPS && head.count == 0, 1, "none");
    is(confluo_tail(it.reader, &tail), CONFLUO_OK, "tail");
    for (size_t k = 0; k < sizeof cases / sizeof *cases; k++) {
        is(confluo_groups(it.reader, cases[k].lane, &head), cases[k].code, "groups");
        is(head.tail == 3 && head.kind == CONFLUO_GROUPS && head.count == 10, 1, "their head");
        is(confluo_words(it.reader, 0, words, 16), cases[k].count, "their words");
        is(memcmp(words, cases[k].words, cases[k].count * sizeof *words), 0, "what they are");
    }
    is(confluo_groups(none, 2, &head), CONFLUO_NOTHING, "groups of nothing");
    free_parts(&it);
}

/* Questions of lines. */
static void lines(void) {
    static const char setup[] =
        "schema records ts:u64,key:u16,len:u32\nindex keys key\nfilter every *\naggregate sums every len\ntrigger large sums sum > 40\n"
        "tally kinds key len *\naggregate apart every len by key\ntrigger many apart count >= 2\n"
        "trigger none apart count >= 9\nask all list *";
    static const struct {
        const char *line;
        uint32_t code, fault, kind;
        size_t count;
        uint64_t words[12];
    } cases[] = {
        {"ask some find keys 7 7", CONFLUO_OK, 7, CONFLUO_PLACES, 2, {0, 2}},
        {"  ask long list len>20", CONFLUO_OK, 7, CONFLUO_PLACES, 1, {1}},
        {"ask whole total len key==7", CONFLUO_OK, 7, CONFLUO_QUAD, 4, {2, 30, 10, 20}},
        {"ask seconds measure sums 0 9", CONFLUO_OK, 7, CONFLUO_QUAD, 4, {3, 55, 10, 25}},
        {"ask marks fired large", CONFLUO_OK, 7, CONFLUO_MARKS, 2, {0, 55}},
        {"ask best top kinds sum 1", CONFLUO_OK, 7, CONFLUO_TOPS, 2, {7, 30}},
        {"ask each groups sums", CONFLUO_OK, 7, CONFLUO_GROUPS, 5, {0, 3, 55, 10, 25}},
        {"ask pairs fired many", CONFLUO_OK, 7, CONFLUO_KEYED_MARKS, 3, {0, 7, 2}},
        {"ask none_now fired none", CONFLUO_OK, 7, CONFLUO_KEYED_MARKS, 0, {0}},
        {"ask parts groups apart", CONFLUO_OK, 7, CONFLUO_KEYED_GROUPS, 12, {0, 7, 2, 30, 10, 20, 0, 8, 1, 25, 25, 25}},
        {"ask other measure apart 0 9", CONFLUO_SETUP, 6, 0, 0, {0}},
        {"ask all list *", CONFLUO_SETUP, 5, 0, 0, {0}},
        {"ask other find lost 7 7", CONFLUO_SETUP, 6, 0, 0, {0}},
        {"ask other find keys 7", CONFLUO_SETUP, 3, 0, 0, {0}},
        {"ask other list nothing==7", CONFLUO_SETUP, 11, 0, 0, {0}},
        {"nonsense", CONFLUO_SETUP, 2, 0, 0, {0}},
        {"", CONFLUO_NO_QUESTION, 7, 0, 0, {0}},
        {"# ask some list *", CONFLUO_NO_QUESTION, 7, 0, 0, {0}},
        {"index lens len", CONFLUO_NO_QUESTION, 7, 0, 0, {0}},
        {"live all", CONFLUO_NO_QUESTION, 7, 0, 0, {0}},
        {"ask one list *\nask two list *", CONFLUO_NO_QUESTION, 7, 0, 0, {0}},
        {"ask one list *\n", CONFLUO_NO_QUESTION, 7, 0, 0, {0}},
    };
    static const uint64_t rows[3][3] = {{1, 7, 10}, {2, 8, 25}, {3, 7, 20}};
    parts it = parts_of(setup, 8, 64);
    uint64_t words[12];
    uint32_t offset;
    for (uint32_t k = 0; k < 3; k++) is(confluo_append_values(it.writer, k, rows[k], 3, &offset), CONFLUO_OK, "append");
    for (int twice = 0; twice < 2; twice++)
        for (size_t k = 0; k < sizeof cases / sizeof *cases; k++) {
            confluo_head head = {9, 9, 9};
            confluo_fault fault = {7, 7};
            size_t kept = confluo_words(it.reader, 0, words, 12);
            is(confluo_ask_text(it.reader, cases[k].line, strlen(cases[k].line), &head, &fault), cases[k].code, cases[k].line);
            is(fault.code, cases[k].fault, cases[k].line);
            is(fault.line, fault.code == 7 ? 7 : 1, "the line is one");
            if (cases[k].code == CONFLUO_OK) {
                is(head.tail == 3 && head.kind == cases[k].kind && head.count == cases[k].count, 1, cases[k].line);
                is(confluo_words(it.reader, 0, words, 12), cases[k].count, cases[k].line);
                is(memcmp(words, cases[k].words, cases[k].count * sizeof *words), 0, cases[k].line);
            } else {
                is(head.tail == 9 && head.count == 9, 1, "what a refused line leaves");
                is(confluo_words(it.reader, 0, words, 12), kept, "the words that it keeps");
            }
        }
    confluo_head head;
    is(confluo_ask(it.reader, 1, &head), CONFLUO_NO_QUESTION, "the setup has no more questions than before");
    free_parts(&it);
}

static void merges(void) {
    static const struct {
        uint64_t one[10], other[10], out[15];
        size_t one_len, other_len, room;
        uint32_t code;
        size_t count;
    } cases[] = {
        {{0}, {0}, {0}, 0, 0, 0, CONFLUO_OK, 0},
        {{1, 1, 5, 5, 5}, {0}, {1, 1, 5, 5, 5}, 5, 0, 5, CONFLUO_OK, 5},
        {{1, 1, 5, 5, 5}, {1, 2, 9, 3, 6}, {1, 3, 14, 3, 6}, 5, 5, 10, CONFLUO_OK, 5},
        {{1, 1, 5, 5, 5, 9, 1, 2, 2, 2}, {3, 1, 4, 4, 4}, {1, 1, 5, 5, 5, 3, 1, 4, 4, 4, 9, 1, 2, 2, 2}, 10, 5, 15, CONFLUO_OK, 15},
        {{1, 1, 5, 5, 5}, {2, 1, 5, 5, 5}, {0}, 5, 5, 9, CONFLUO_SIZES, 9},
        {{1, 1, 5, 5, 5}, {0}, {0}, 4, 0, 10, CONFLUO_NO_GROUPS, 9},
        {{2, 1, 5, 5, 5, 1, 1, 4, 4, 4}, {0}, {1, 1, 4, 4, 4, 2, 1, 5, 5, 5}, 10, 0, 10, CONFLUO_OK, 10},
        {{1, 1, 5, 5, 5, 1, 1, 4, 4, 4}, {0}, {1, 2, 9, 4, 5}, 10, 0, 10, CONFLUO_OK, 5},
        {{1, 0, 1, 0, 0}, {0}, {0}, 5, 0, 10, CONFLUO_NO_GROUPS, 9},
        {{1, 1, UINT64_C(1) << 32, 5, 5}, {0}, {0}, 5, 0, 10, CONFLUO_NO_GROUPS, 9},
        {{0}, {1, 1, 5, UINT64_C(1) << 32, 5}, {0}, 0, 5, 10, CONFLUO_NO_GROUPS, 9},
        {{1, (1 << 20) - 1, 1 << 20, 1, 2}, {1, 1, 5, 5, 5}, {1, 1 << 20, (1 << 20) + 5, 1, 5}, 5, 5, 10, CONFLUO_OK, 5},
        {{1, 1 << 20, 1 << 20, 1, 1}, {1, 1, 5, 5, 5}, {0}, 5, 5, 10, CONFLUO_NO_GROUPS, 9},
        {{1, 1 << 20, 1 << 20, 1, 1}, {2, 1, 5, 5, 5}, {0}, 5, 5, 10, CONFLUO_NO_GROUPS, 9},
    };
    for (size_t k = 0; k < sizeof cases / sizeof *cases; k++) {
        uint64_t out[15] = {0};
        size_t count = 9;
        is(confluo_merge(cases[k].one, cases[k].one_len, cases[k].other, cases[k].other_len, out, cases[k].room, &count), cases[k].code,
           "merge");
        is(count, cases[k].count, "its words");
        is(memcmp(out, cases[k].out, sizeof out), 0, "what they are");
    }
}

static void *all(void *given) {
    one_tail();
    groups();
    merges();
    lines();
    return given;
}

int main(void) { return in_a_small_stack(all); }
