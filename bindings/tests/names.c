/* What a setup names: each code, and what a refused call leaves. */
#include "check.h"

static const char setup[] =
    "schema records ts:u64,key:u16,len:u32,mac:b6\nwidth 1000\nindex keys key\nfilter every *\naggregate sums every len\n"
    "tally kinds key len len>5\naggregate apart every len by key\ntrigger large sums sum >= 40\n"
    "ask all list *\nask some find keys 7 8\nask early between every 0 1\n"
    "ask both measure sums 0 9\nask marks fired large\nask first top kinds greatest 2\nask whole total len *\nask each groups kinds\n";

static const struct {
    uint32_t sort, number;
    const char *name;
    confluo_about about;
} cases[] = {
    {CONFLUO_ATTRIBUTES, 0, "ts", {.kind = 64}},
    {CONFLUO_ATTRIBUTES, 1, "key", {.kind = 16}},
    {CONFLUO_ATTRIBUTES, 3, "mac", {.kind = 0, .size = 6}},
    {CONFLUO_LANES, 0, "keys", {.kind = 0, .of = 1}},
    {CONFLUO_LANES, 1, "every", {.kind = 1}},
    {CONFLUO_LANES, 2, "sums", {.kind = 2, .size = 2}},
    {CONFLUO_LANES, 3, "kinds", {.kind = 3, .of = 1, .size = 2}},
    {CONFLUO_LANES, 4, "apart", {.kind = 4, .of = 1, .size = 2}},
    {CONFLUO_TRIGGERS, 0, "large", {.of = 2, .part = 1, .op = 5, .low = 40}},
    {CONFLUO_QUESTIONS, 0, "all", {.kind = 0}},
    {CONFLUO_QUESTIONS, 1, "some", {.kind = 1, .of = 0, .low = 7, .high = 8}},
    {CONFLUO_QUESTIONS, 2, "early", {.kind = 2, .of = 1, .low = 0, .high = 1}},
    {CONFLUO_QUESTIONS, 3, "both", {.kind = 3, .of = 2, .low = 0, .high = 9}},
    {CONFLUO_QUESTIONS, 4, "marks", {.kind = 4, .of = 2, .part = 1, .op = 5, .low = 40}},
    {CONFLUO_QUESTIONS, 5, "first", {.kind = 5, .of = 3, .part = 3, .size = 2}},
    {CONFLUO_QUESTIONS, 6, "whole", {.kind = 6, .of = 2}},
    {CONFLUO_QUESTIONS, 7, "each", {.kind = 7, .of = 3}},
};
static const uint32_t ends[][2] = {{CONFLUO_ATTRIBUTES, 4}, {CONFLUO_LANES, 5}, {CONFLUO_TRIGGERS, 1}, {CONFLUO_QUESTIONS, 8}, {4, 0}};

/* A name, and what is told of it, by the log or by the reader. */
static uint32_t name_of(const parts *it, bool by_reader, uint32_t sort, uint32_t number, char *name, size_t room, size_t *count) {
    return by_reader ? confluo_reader_name(it->reader, sort, number, name, room, count)
                     : confluo_name(it->log, sort, number, name, room, count);
}
static uint32_t told_of(const parts *it, bool by_reader, uint32_t sort, uint32_t number, confluo_about *about) {
    return by_reader ? confluo_reader_tell(it->reader, sort, number, about) : confluo_tell(it->log, sort, number, about);
}

static void names(const parts *it, bool by_reader) {
    char name[34];
    uint64_t width = 9;
    size_t count = 9;
    confluo_about about, untold = {.low = 9};
    for (size_t k = 0; k < sizeof cases / sizeof *cases; k++) {
        memset(name, '.', sizeof name);
        is(name_of(it, by_reader, cases[k].sort, cases[k].number, name, 33, &count), CONFLUO_OK, cases[k].name);
        is(count == strlen(cases[k].name) && strcmp(name, cases[k].name) == 0, 1, cases[k].name);
        is(told_of(it, by_reader, cases[k].sort, cases[k].number, &about), CONFLUO_OK, cases[k].name);
        is(memcmp(&about, &cases[k].about, sizeof about), 0, cases[k].name);
    }
    for (size_t k = 0; k < sizeof ends / sizeof *ends; k++) {
        count = 9;
        is(name_of(it, by_reader, ends[k][0], ends[k][1], name, 32, &count), CONFLUO_NO_NAME, "the end of a sort");
        is(told_of(it, by_reader, ends[k][0], ends[k][1], &untold), CONFLUO_NO_NAME, "the end of a sort");
        is(count == 9 && untold.low == 9, 1, "what that leaves");
    }
    memset(name, '.', sizeof name);
    is(name_of(it, by_reader, CONFLUO_QUESTIONS, 6, name, 2, &count), CONFLUO_OK, "a name in a little room");
    is(count == 5 && memcmp(name, "wh.", 3) == 0, 1, "as far as there is room");
    is(name_of(it, by_reader, CONFLUO_QUESTIONS, 6, name, 5, &count), CONFLUO_OK, "a name without room for its end");
    is(memcmp(name, "whole.", 6), 0, "as far as there is room");
    is(name_of(it, by_reader, CONFLUO_QUESTIONS, 6, NULL, 0, &count), CONFLUO_OK, "a name without room");
    is(by_reader ? confluo_reader_width(it->reader, &width) : confluo_width(it->log, &width), CONFLUO_OK, "width");
    is(width, 1000, "its nanoseconds");
}

static void numbers(const parts *it) {
    uint32_t number = 9;
    is(confluo_question(it->log, "whole", 5, &number), CONFLUO_OK, "a question by its name");
    is(number, 6, "its number");
    is(confluo_question(it->log, "whole", 4, &number), CONFLUO_NO_QUESTION, "no name");
    is(confluo_question(it->log, "", 0, &number), CONFLUO_NO_QUESTION, "an empty name");
    is(confluo_question(it->log, "keys", 4, &number), CONFLUO_NO_QUESTION, "the name of a lane");
    is(number, 6, "what that leaves");
}

static void numbers_by_a_reader(const parts *it) {
    uint32_t number = 99;
    for (size_t k = 0; k < sizeof cases / sizeof *cases; k++) {
        is(confluo_reader_number(it->reader, cases[k].sort, cases[k].name, &number), CONFLUO_OK, cases[k].name);
        is(number, cases[k].number, cases[k].name);
    }
    number = 99;
    is(confluo_reader_number(it->reader, CONFLUO_LANES, "whole", &number), CONFLUO_NO_NAME, "a question among lanes");
    is(confluo_reader_number(it->reader, CONFLUO_QUESTIONS, "who", &number), CONFLUO_NO_NAME, "a part of a name");
    is(confluo_reader_number(it->reader, 4, "whole", &number), CONFLUO_NO_NAME, "no sort");
    is(number, 99, "what that leaves");
}

static void nothing(void) {
    confluo_about about;
    uint64_t width = 9;
    uint32_t number = 9;
    size_t count = 9;
    char name[33];
    is(confluo_name(NULL, 0, 0, name, 32, &count), CONFLUO_NOTHING, "a name of nothing");
    is(confluo_tell(NULL, 0, 0, &about), CONFLUO_NOTHING, "told of nothing");
    is(confluo_question(NULL, "whole", 5, &number), CONFLUO_NOTHING, "a question of nothing");
    is(confluo_width(NULL, &width), CONFLUO_NOTHING, "the width of nothing");
    is(confluo_reader_name(NULL, 0, 0, name, 32, &count), CONFLUO_NOTHING, "a name of nothing");
    is(confluo_reader_tell(NULL, 0, 0, &about), CONFLUO_NOTHING, "told of nothing");
    is(confluo_reader_number(NULL, CONFLUO_QUESTIONS, "whole", &number), CONFLUO_NOTHING, "a question of nothing");
    is(confluo_reader_width(NULL, &width), CONFLUO_NOTHING, "the width of nothing");
    is(confluo_log_setup(NULL, &count) == NULL && confluo_reader_setup(NULL, &count) == NULL, 1, "the setup of nothing");
    is(count == 9 && number == 9 && width == 9, 1, "what that leaves");
}

static void *all(void *given) {
    parts it = parts_of(setup, 4, 64);
    size_t length = 9;
    nothing();
    names(&it, false);
    numbers(&it);
    names(&it, true);
    numbers_by_a_reader(&it);
    is(strcmp(confluo_log_setup(it.log, &length), setup), 0, "the text of the setup");
    is(length, strlen(setup), "its length");
    confluo_free_log(it.log), confluo_free_writer(it.writer);
    it.log = NULL, it.writer = NULL;
    is(strcmp(confluo_reader_setup(it.reader, NULL), setup), 0, "the text of the setup of a log that is freed");
    names(&it, true);
    free_parts(&it);
    return given;
}

int main(void) { return in_a_small_stack(all); }
