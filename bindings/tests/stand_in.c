/* A library for tests of what stands around it, where the real one is not built: the header's inline functions, Rust and Python. It keeps
 * the records of numbers, or frames as rows without values, and knows the questions `list *` and `total`. It finds one fault in a setup,
 * a line without a space (code 3). It has one lock, never lacks memory, and is no measure of anything. CONFLUO_STAND_IN_VERSION gives it
 * another version. */
#define _POSIX_C_SOURCE 200809L
#include "confluo.h"
#include <pthread.h>
#include <stdio.h>
#include <stdlib.h>
#include <string.h>
#ifndef CONFLUO_STAND_IN_VERSION
#define CONFLUO_STAND_IN_VERSION CONFLUO_VERSION
#endif

enum { MOST = 24, MOST_LOGS = 16 };
typedef struct {
    char name[33];
    uint32_t kind, of; /* of an attribute its bits; of a question its kind and attribute */
} thing;
typedef struct {
    uint32_t number, writer;
    uint64_t values[MOST];
} record;
typedef struct {
    int parts;
    uint32_t capacity, writers, taken, count, attributes, questions;
    bool is_packets;
    thing attribute[MOST], question[MOST];
    record *records;
} shared;
typedef struct {
    shared *log;
    uint32_t number; /* of a writer */
    uint32_t seen;   /* of a reader, as what follows */
    uint64_t *words;
    size_t count;
} part;
/* The readers of a span, of which the first has the words. A reader by itself answers as a span of one. */
typedef struct {
    part *parts[MOST_LOGS];
    size_t count;
} spanned;

static pthread_mutex_t lock = PTHREAD_MUTEX_INITIALIZER;

uint32_t confluo_raw_version(void) { return CONFLUO_STAND_IN_VERSION; }

static size_t copied(const char *text, size_t from, uint8_t *out, size_t room) {
    const size_t length = strlen(text), left = from < length ? length - from : 0, count = left < room ? left : room;
    memcpy(out, text + (left ? from : 0), count);
    return count;
}

size_t confluo_raw_message(uint32_t code, size_t from, uint8_t *out, size_t out_len) {
    return copied(confluo_error_name(code), from, out, out_len);
}

/* The line without a space, or 0; what the lines name goes to `log`. */
static uint32_t read_setup(shared *log, const uint8_t *setup, size_t length) {
    char text[4096] = "";
    uint32_t line = 0;
    memcpy(text, setup, length < sizeof text - 1 ? length : sizeof text - 1);
    for (char *at = text, *end; *at; at = *end ? end + 1 : end) {
        char words[6][400] = {""};
        end = at + strcspn(at, "\n");
        line++;
        if (!memchr(at, ' ', (size_t)(end - at))) return line;
        char saved = *end;
        *end = 0;
        sscanf(at, "%399s %399s %399s %399s", words[0], words[1], words[2], words[3]);
        *end = saved;
        if (!strcmp(words[0], "schema")) {
            log->is_packets = strcmp(words[1], "records") != 0;
            char *rest = NULL; /* strtok would share it with the threads of other logs */
            for (char *it = strtok_r(words[2], ",", &rest); it && log->attributes < MOST; it = strtok_r(NULL, ",", &rest)) {
                thing *to = &log->attribute[log->attributes++];
                sscanf(it, "%32[^:]:u%u", to->name, &to->kind);
            }
        } else if (!strcmp(words[0], "ask") && log->questions < MOST) {
            thing *to = &log->question[log->questions++];
            snprintf(to->name, sizeof to->name, "%.32s", words[1]);
            to->kind = !strcmp(words[2], "total") ? 6 : 0;
            for (uint32_t k = 0; k < log->attributes; k++)
                if (!strcmp(log->attribute[k].name, words[3])) to->of = k;
        }
    }
    return line ? 0 : 1;
}

static uint32_t refused(shared *log, const uint8_t *setup, size_t length, const confluo_sizes *sizes, confluo_fault *fault) {
    const uint32_t line = read_setup(log, setup, length);
    if (line) *fault = (confluo_fault){line, 3};
    if (line) return CONFLUO_SETUP;
    const bool fits = sizes->capacity >= 1 && sizes->capacity <= 65536 && sizes->writers >= 1 && sizes->writers <= 15;
    return fits && sizes->nodes <= 65536 && !sizes->reserved ? CONFLUO_OK : CONFLUO_SIZES;
}

uint32_t confluo_raw_check(const uint8_t *setup, size_t setup_len, const confluo_sizes *sizes, uint64_t *bytes, confluo_fault *fault) {
    shared log = {0};
    const uint32_t code = refused(&log, setup, setup_len, sizes, fault);
    if (!code) *bytes = sizes->capacity * sizeof(record);
    return code;
}

static void release(bool *full, void **at) {
    part *it = *full ? *at : NULL;
    *full = false, *at = NULL;
    if (!it) return;
    pthread_mutex_lock(&lock);
    const bool last = --it->log->parts == 0;
    pthread_mutex_unlock(&lock);
    if (last) free(it->log->records), free(it->log);
    free(it->words), free(it);
}
void confluo_raw_free_log(confluo_raw_log *log) { release(&log->full_private, &log->at_private); }
void confluo_raw_free_reader(confluo_raw_reader *reader) { release(&reader->full_private, &reader->at_private); }
void confluo_raw_free_writer(confluo_raw_writer *writer) {
    part *it = writer->at_private;
    pthread_mutex_lock(&lock);
    if (writer->full_private) it->log->taken &= ~(1U << it->number);
    pthread_mutex_unlock(&lock);
    release(&writer->full_private, &writer->at_private);
}

static part *part_of(shared *log) {
    part *it = calloc(1, sizeof *it);
    it->log = log;
    pthread_mutex_lock(&lock);
    log->parts++;
    pthread_mutex_unlock(&lock);
    return it;
}
uint32_t confluo_raw_open(confluo_raw_log *log, const uint8_t *setup, size_t setup_len, const confluo_sizes *sizes, confluo_fault *fault) {
    shared *made = calloc(1, sizeof *made);
    const uint32_t code = refused(made, setup, setup_len, sizes, fault);
    if (code) {
        free(made);
        return code;
    }
    confluo_raw_free_log(log);
    made->capacity = sizes->capacity, made->writers = sizes->writers;
    made->records = calloc(sizes->capacity, sizeof *made->records);
    *log = (confluo_raw_log){true, part_of(made)};
    return CONFLUO_OK;
}

#define LOG(handle) ((handle)->full_private ? ((part *)(handle)->at_private)->log : NULL)

uint32_t confluo_raw_take_writer(confluo_raw_log *log, confluo_raw_writer *writer, uint32_t *number) {
    shared *it = LOG(log);
    if (!it) return CONFLUO_NOTHING;
    uint32_t free_one = it->writers;
    pthread_mutex_lock(&lock);
    while (free_one > 0 && it->taken >> (free_one - 1) & 1) free_one--;
    if (free_one) it->taken |= 1U << (free_one - 1);
    pthread_mutex_unlock(&lock);
    if (!free_one) return CONFLUO_NO_WRITER;
    confluo_raw_free_writer(writer);
    *writer = (confluo_raw_writer){true, part_of(it)};
    *number = ((part *)writer->at_private)->number = free_one - 1;
    return CONFLUO_OK;
}
uint32_t confluo_raw_take_reader(confluo_raw_log *log, confluo_raw_reader *reader) {
    if (!log->full_private) return CONFLUO_NOTHING;
    confluo_raw_free_reader(reader);
    *reader = (confluo_raw_reader){true, part_of(LOG(log))};
    return CONFLUO_OK;
}
uint32_t confluo_raw_close(confluo_raw_log *log, confluo_raw_reader *reader) {
    if (!log->full_private) return CONFLUO_NOTHING;
    if (LOG(log)->taken) return CONFLUO_BUSY;
    const uint32_t code = confluo_raw_take_reader(log, reader);
    ((part *)reader->at_private)->seen = LOG(log)->count;
    confluo_raw_free_log(log);
    return code;
}

static uint32_t add(part *it, uint32_t number, const uint64_t *values, size_t count, uint32_t *offset) {
    shared *log = it->log;
    for (size_t k = 0; k < count; k++)
        if (log->attribute[k].kind < 64 && values[k] >> log->attribute[k].kind) return CONFLUO_UNFIT;
    pthread_mutex_lock(&lock);
    const bool is_full = log->count == log->capacity;
    if (!is_full) {
        record *to = &log->records[log->count];
        to->number = number, to->writer = it->number;
        memcpy(to->values, values, count * sizeof *values);
        *offset = log->count++;
    }
    pthread_mutex_unlock(&lock);
    return is_full ? CONFLUO_FULL : CONFLUO_OK;
}
uint32_t confluo_raw_append(confluo_raw_writer *writer, const confluo_capture *capture, const uint8_t *bytes, size_t bytes_len,
                            uint32_t *offset) {
    static uint64_t none;
    (void)bytes;
    if (!writer->full_private) return CONFLUO_NOTHING;
    if (!LOG(writer)->is_packets) return CONFLUO_UNFIT;
    if (bytes_len >> 32 || capture->link != 1 || capture->reserved) return CONFLUO_FRAME;
    return add(writer->at_private, capture->number, &none, 0, offset);
}
uint32_t confluo_raw_append_values(confluo_raw_writer *writer, uint32_t number, const uint64_t *values, size_t values_len,
                                   uint32_t *offset) {
    if (!writer->full_private) return CONFLUO_NOTHING;
    if (values_len != LOG(writer)->attributes) return CONFLUO_UNFIT;
    return add(writer->at_private, number, values, values_len, offset);
}
uint32_t confluo_raw_append_row(confluo_raw_writer *writer, uint32_t number, const confluo_value *values, size_t values_len,
                                uint32_t *offset) {
    uint64_t numbers[MOST];
    for (size_t k = 0; k < values_len && k < MOST; k++)
        if (values[k].kind)
            return CONFLUO_UNFIT;
        else
            numbers[k] = values[k].number;
    return confluo_raw_append_values(writer, number, numbers, values_len, offset);
}
uint32_t confluo_raw_append_many(confluo_raw_writer *writer, const confluo_frame *frames, size_t frames_len, const uint8_t *bytes,
                                 size_t bytes_len, uint32_t *offsets, size_t offsets_len, size_t *done) {
    uint32_t code = writer->full_private ? CONFLUO_OK : CONFLUO_NOTHING;
    if (!code && offsets_len < frames_len) code = CONFLUO_SIZES;
    for (*done = 0; !code && *done < frames_len; *done += !code) {
        const confluo_frame *it = &frames[*done];
        const bool is_in = it->from <= bytes_len && it->count <= bytes_len - it->from;
        code = is_in ? confluo_raw_append(writer, &it->capture, bytes + it->from, it->count, &offsets[*done]) : CONFLUO_FRAME;
    }
    return code;
}
uint32_t confluo_raw_room_of(confluo_raw_writer *writer, confluo_room *room) {
    if (!writer->full_private) return CONFLUO_NOTHING;
    *room = (confluo_room){LOG(writer)->capacity, LOG(writer)->count, 0, 0};
    return CONFLUO_OK;
}

static uint32_t seen_by(const spanned *span) {
    uint32_t seen = 0;
    for (size_t k = 0; k < span->count && seen == k * span->parts[0]->log->capacity; k++) seen += span->parts[k]->seen;
    return seen;
}
static const record *record_at(const spanned *span, uint32_t offset) {
    const uint32_t capacity = span->parts[0]->log->capacity;
    return &span->parts[offset / capacity]->log->records[offset % capacity];
}
static uint32_t answer_of(const spanned *span, const thing *question, confluo_head *head) {
    part *it = span->parts[0];
    const uint32_t seen = seen_by(span);
    const bool is_total = question->kind == 6;
    it->count = is_total ? 4 : seen;
    it->words = realloc(it->words, (it->count + 1) * sizeof *it->words);
    uint64_t *quad = it->words;
    for (uint32_t k = 0; k < seen && !is_total; k++) it->words[k] = k;
    if (is_total) memset(quad, 0, 4 * sizeof *quad);
    for (uint32_t k = 0; k < seen && is_total; k++) {
        const uint64_t value = record_at(span, k)->values[question->of];
        quad[0]++, quad[1] += value;
        if (k == 0 || value < quad[2]) quad[2] = value;
        if (value > quad[3]) quad[3] = value;
    }
    *head = (confluo_head){seen, is_total ? CONFLUO_QUAD : CONFLUO_PLACES, it->count};
    return CONFLUO_OK;
}
static uint32_t answer(part *it, const thing *question, confluo_head *head) { return answer_of(&(spanned){{it}, 1}, question, head); }
static uint32_t tail_of(part *it) {
    pthread_mutex_lock(&lock);
    it->seen = it->log->count;
    pthread_mutex_unlock(&lock);
    return it->seen;
}
uint32_t confluo_raw_tail(confluo_raw_reader *reader, uint32_t *tail) {
    if (!reader->full_private) return CONFLUO_NOTHING;
    *tail = tail_of(reader->at_private);
    return CONFLUO_OK;
}
uint32_t confluo_raw_ask_seen(confluo_raw_reader *reader, uint32_t question, confluo_head *head) {
    if (!reader->full_private) return CONFLUO_NOTHING;
    if (question >= LOG(reader)->questions) return CONFLUO_NO_QUESTION;
    return answer(reader->at_private, &LOG(reader)->question[question], head);
}
uint32_t confluo_raw_ask(confluo_raw_reader *reader, uint32_t question, confluo_head *head) {
    uint32_t tail, code = confluo_raw_tail(reader, &tail);
    return code ? code : confluo_raw_ask_seen(reader, question, head);
}
uint32_t confluo_raw_ask_text(confluo_raw_reader *reader, const uint8_t *line, size_t line_len, confluo_head *head, confluo_fault *fault) {
    uint32_t tail, code = confluo_raw_tail(reader, &tail);
    if (code) return code;
    if (line_len == 0 || memchr(line, '\n', line_len)) return CONFLUO_NO_QUESTION;
    if (!memchr(line, ' ', line_len)) {
        *fault = (confluo_fault){9, 3}; /* as if it stood behind eight lines */
        return CONFLUO_SETUP;
    }
    return answer(reader->at_private, &(thing){.kind = 0}, head);
}
uint32_t confluo_raw_groups(confluo_raw_reader *reader, uint32_t lane, confluo_head *head) {
    (void)lane, (void)head;
    return reader->full_private ? CONFLUO_NO_LANE : CONFLUO_NOTHING;
}
uint32_t confluo_raw_merge(const uint64_t *one, size_t one_len, const uint64_t *other, size_t other_len, uint64_t *out, size_t out_len,
                           size_t *count) {
    if (one_len % 5 || other_len % 5) return CONFLUO_NO_GROUPS;
    if (one_len + other_len > out_len) return CONFLUO_SIZES;
    memcpy(out, one, one_len * sizeof *out);
    memcpy(out + one_len, other, other_len * sizeof *out);
    *count = one_len + other_len;
    return CONFLUO_OK;
}
static uint32_t row_of(const spanned *span, uint32_t offset, uint32_t *number, confluo_value *values, size_t values_len, size_t *count) {
    if (offset >= seen_by(span)) return CONFLUO_NO_ROW;
    const record *it = record_at(span, offset);
    *number = it->number, *count = span->parts[0]->log->attributes;
    for (size_t k = 0; k < *count && k < values_len; k++) values[k] = (confluo_value){.number = it->values[k]};
    return CONFLUO_OK;
}
uint32_t confluo_raw_row(confluo_raw_reader *reader, uint32_t offset, uint32_t *number, confluo_value *values, size_t values_len,
                         size_t *count) {
    if (!reader->full_private) return CONFLUO_NOTHING;
    return row_of(&(spanned){{reader->at_private}, 1}, offset, number, values, values_len, count);
}
static size_t words_of(const part *it, size_t from, uint64_t *out, size_t out_len) {
    const size_t left = it && from < it->count ? it->count - from : 0, count = left < out_len ? left : out_len;
    if (count) memcpy(out, it->words + from, count * sizeof *out);
    return count;
}
size_t confluo_raw_words(confluo_raw_reader *reader, size_t from, uint64_t *out, size_t out_len) {
    return words_of(reader->full_private ? reader->at_private : NULL, from, out, out_len);
}

void confluo_raw_free_span(confluo_raw_span *span) {
    spanned *it = span->full_private ? span->at_private : NULL;
    for (size_t k = 0; it && k < it->count; k++) confluo_raw_free_reader(&(confluo_raw_reader){true, it->parts[k]});
    free(it);
    *span = (confluo_raw_span){false, NULL};
}
uint32_t confluo_raw_span_of(confluo_raw_reader *reader, confluo_raw_span *span) {
    if (!reader->full_private) return CONFLUO_NOTHING;
    spanned *made = calloc(1, sizeof *made);
    made->parts[0] = reader->at_private, made->count = 1;
    *reader = (confluo_raw_reader){false, NULL};
    confluo_raw_free_span(span);
    *span = (confluo_raw_span){true, made};
    return CONFLUO_OK;
}
uint32_t confluo_raw_span_add(confluo_raw_span *span, confluo_raw_reader *reader) {
    if (!span->full_private || !reader->full_private) return CONFLUO_NOTHING;
    spanned *it = span->at_private;
    const shared *one = it->parts[0]->log, *other = LOG(reader);
    const bool is_like = one->capacity == other->capacity && one->writers == other->writers && one->attributes == other->attributes;
    if (!is_like || one->questions != other->questions) return CONFLUO_UNLIKE;
    if (it->count == MOST_LOGS || (it->count + 1) * one->capacity > 1 << 20) return CONFLUO_FULL;
    it->parts[it->count++] = reader->at_private;
    *reader = (confluo_raw_reader){false, NULL};
    return CONFLUO_OK;
}
uint32_t confluo_raw_span_drop_first(confluo_raw_span *span) {
    if (!span->full_private) return CONFLUO_NOTHING;
    spanned *it = span->at_private;
    part *first = it->parts[0];
    if (it->count == 1) return CONFLUO_ONE_LOG;
    memmove(it->parts, it->parts + 1, --it->count * sizeof *it->parts);
    uint64_t *const words = it->parts[0]->words;
    it->parts[0]->words = first->words, it->parts[0]->count = first->count, first->words = words;
    confluo_raw_free_reader(&(confluo_raw_reader){true, first});
    return CONFLUO_OK;
}
uint32_t confluo_raw_span_logs(confluo_raw_span *span, size_t *logs) {
    if (!span->full_private) return CONFLUO_NOTHING;
    *logs = ((spanned *)span->at_private)->count;
    return CONFLUO_OK;
}
uint32_t confluo_raw_span_tail(confluo_raw_span *span, uint32_t *tail) {
    if (!span->full_private) return CONFLUO_NOTHING;
    spanned *it = span->at_private;
    for (size_t k = 0; k < it->count && tail_of(it->parts[k]) == it->parts[k]->log->capacity;) k++;
    *tail = seen_by(it);
    return CONFLUO_OK;
}
uint32_t confluo_raw_span_ask_seen(confluo_raw_span *span, uint32_t question, confluo_head *head) {
    if (!span->full_private) return CONFLUO_NOTHING;
    const spanned *it = span->at_private;
    const shared *log = it->parts[0]->log;
    return question < log->questions ? answer_of(it, &log->question[question], head) : (uint32_t)CONFLUO_NO_QUESTION;
}
uint32_t confluo_raw_span_ask(confluo_raw_span *span, uint32_t question, confluo_head *head) {
    uint32_t tail, code = confluo_raw_span_tail(span, &tail);
    return code ? code : confluo_raw_span_ask_seen(span, question, head);
}
uint32_t confluo_raw_span_groups(confluo_raw_span *span, uint32_t lane, confluo_head *head) {
    (void)lane, (void)head;
    return span->full_private ? CONFLUO_NO_LANE : CONFLUO_NOTHING;
}
uint32_t confluo_raw_span_row(confluo_raw_span *span, uint32_t offset, uint32_t *number, confluo_value *values, size_t values_len,
                              size_t *count) {
    if (!span->full_private) return CONFLUO_NOTHING;
    return row_of(span->at_private, offset, number, values, values_len, count);
}
size_t confluo_raw_span_words(confluo_raw_span *span, size_t from, uint64_t *out, size_t out_len) {
    return words_of(span->full_private ? ((spanned *)span->at_private)->parts[0] : NULL, from, out, out_len);
}
static uint32_t report_of(uint32_t seen, uint8_t *text, size_t text_len, size_t *count) {
    char said[40];
    snprintf(said, sizeof said, "records %u\n", seen);
    *count = strlen(said);
    copied(said, 0, text, text_len);
    return CONFLUO_OK;
}
uint32_t confluo_raw_report(confluo_raw_reader *reader, uint8_t *text, size_t text_len, size_t *count) {
    if (!reader->full_private) return CONFLUO_NOTHING;
    return report_of(((part *)reader->at_private)->seen, text, text_len, count);
}
uint32_t confluo_raw_span_report(confluo_raw_span *span, uint8_t *text, size_t text_len, size_t *count) {
    if (!span->full_private) return CONFLUO_NOTHING;
    return report_of(seen_by(span->at_private), text, text_len, count);
}

static thing *named(shared *log, uint32_t sort, uint32_t number) {
    if (sort == CONFLUO_ATTRIBUTES && number < log->attributes) return &log->attribute[number];
    return sort == CONFLUO_QUESTIONS && number < log->questions ? &log->question[number] : NULL;
}
uint32_t confluo_raw_name(confluo_raw_log *log, uint32_t sort, uint32_t number, uint8_t *name, size_t name_len, size_t *count) {
    if (!log->full_private) return CONFLUO_NOTHING;
    const thing *it = named(LOG(log), sort, number);
    if (!it) return CONFLUO_NO_NAME;
    *count = strlen(it->name);
    copied(it->name, 0, name, name_len);
    return CONFLUO_OK;
}
uint32_t confluo_raw_tell(confluo_raw_log *log, uint32_t sort, uint32_t number, confluo_about *about) {
    if (!log->full_private) return CONFLUO_NOTHING;
    const thing *it = named(LOG(log), sort, number);
    if (!it) return CONFLUO_NO_NAME;
    *about = (confluo_about){.kind = it->kind, .of = it->of};
    return CONFLUO_OK;
}
uint32_t confluo_raw_question(confluo_raw_log *log, const uint8_t *name, size_t name_len, uint32_t *number) {
    if (!log->full_private) return CONFLUO_NOTHING;
    for (uint32_t k = 0; k < LOG(log)->questions; k++) {
        const char *had = LOG(log)->question[k].name;
        if (strlen(had) == name_len && !memcmp(had, name, name_len)) {
            *number = k;
            return CONFLUO_OK;
        }
    }
    return CONFLUO_NO_QUESTION;
}
uint32_t confluo_raw_width(confluo_raw_log *log, uint64_t *width) {
    if (!log->full_private) return CONFLUO_NOTHING;
    *width = 1000000000;
    return CONFLUO_OK;
}
