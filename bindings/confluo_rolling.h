/* confluo_rolling.h: a confluo log that goes on in its next segment by itself.
**
** MODEL
**
**   A log of confluo.h takes at most 65,536 records. A rolling log is a list of such logs, its segments, all of one setup and the same sizes.
**   A writer that finds its segment full opens the next one, unless another writer has, and goes on there. A reader asks the segments as one
**   log. With `keep` 0 all segments are kept, 2^20 records in all, and then the rolling log is full. Else the last `keep` segments are, the
**   newest and those before it, and there is no end.
**   A record has a place, 0, 1, 2 and so on, among all records that the rolling log ever took. What a reader sees begins with its first
**   segment: its offsets and tails count from there, as those of a span do. The place of its offset 0 is `before` (confluo_rolling_segments).
**   A reader looks for new segments, and lets the first ones go, when it looks at the tail: in confluo_rolling_tail, _ask and _wait.
**   A reader sees the records of a segment once it has seen all that the segment before it takes. So a writer that is slow to finish a record
**   delays what comes after it, and nothing is lost, unless its segment is let go meanwhile.
**
** EXAMPLE
**
**   const char *setup = "schema records ts:u64,len:u32\nask all total len *\n";
**   const confluo_sizes sizes = {.capacity = 4096, .writers = 1, .nodes = 64, .reserved = 0};
**   confluo_rolling *rolling = NULL;
**   confluo_rolling_writer *writer = NULL;
**   confluo_rolling_reader *reader = NULL;
**   if (confluo_rolling_open_str(&rolling, setup, &sizes, 3, NULL)) return 1;              // the last 3 segments
**   if (confluo_rolling_take_writer(rolling, &writer, NULL) || confluo_rolling_take_reader(rolling, &reader)) return 1;
**
**   uint64_t place = 0;                                                                     // in the writer's thread
**   for (uint64_t k = 0; k < 100000; k++) {
**       const uint64_t values[] = {1000 * k, 60};
**       if (confluo_rolling_append_values(writer, 0, values, 2, &place)) return 1;
**   }
**
**   confluo_head head;                                                                      // in the reader's thread
**   uint64_t quad[4], before;
**   size_t segments;
**   if (confluo_rolling_ask(reader, 0, &head) || confluo_rolling_words(reader, 0, quad, 4) != 4) return 1;
**   confluo_rolling_segments(reader, &segments, &before);
**   printf("%u records after %u, %u bytes\n", head.tail, (unsigned)before, (unsigned)quad[1]);
**
**   confluo_free_rolling_writer(writer), confluo_free_rolling_reader(reader), confluo_free_rolling(rolling);    // in any order
**
** WHAT IS PROVED
**
**   Each call of the library that this header makes is proved, as confluo.h says: what a log and a span answer. This header is not. It is
**   tested (bindings/tests/rolling.c), also by the sanitizers of compilers: the list of segments, which atomic words join, and when each is
**   freed.
**
** THREADS
**
**   A rolling log may be in calls of any number of threads at a time. A writer and a reader are in one call at a time each; different ones
**   may be in calls at the same time. All may go to other threads as the handles of confluo.h do. No call takes a lock, and none waits for
**   another thread, but confluo_rolling_wait, which sleeps. The duties of confluo.h are those of this header.
**
** WHAT IT COSTS
**
**   An append within a segment: two loads more than one of a log. The next segment: confluo_open, with all writers and 64 readers, by the
**   writer that finds its segment full, within its append: 60 microseconds for 4,096 records. Writers that come at the same time open one
**   each, of which one stays. The nodes of a writer are those of a segment: it has all of them again in the next one.
**   A question goes through all segments: one by an index through the tree of each, one over all records through as many as they have.
**   Memory: each segment takes as many bytes as confluo_check says, and 10 KiB. There are the last `keep` segments; the one of each writer
**   that has not appended since; at most `keep` of each reader that has not looked at the tail since; and, for readers that are freed, at
**   most `keep` together.
*/
#ifndef CONFLUO_ROLLING_H
#define CONFLUO_ROLLING_H
#include "confluo.h"

/* A rolling log, which all threads share; a writer of it, one for each thread that appends; a reader, one for each thread that asks. */
typedef struct confluo_rolling confluo_rolling;
typedef struct confluo_rolling_writer confluo_rolling_writer;
typedef struct confluo_rolling_reader confluo_rolling_reader;

/* Opens a rolling log, whose segments have these sizes, and puts it at `rolling`. `keep` is how many segments are kept; 0: all, as many as
** take at most 2^20 records. Any thread, at any time.
**
**   CONFLUO_SETUP      the text is no setup; `fault` says where
**   CONFLUO_SIZES      a size is out of range, or keep + 1 segments take more than 2^20 records and `keep` is not 0
**   CONFLUO_MEMORY */
static inline CONFLUO_CHECKED CONFLUO_NEEDS(1, 4) uint32_t
confluo_rolling_open(confluo_rolling **rolling, const char *setup, size_t setup_len, const confluo_sizes *sizes, uint32_t keep,
                     confluo_fault *fault);
static inline CONFLUO_CHECKED CONFLUO_NEEDS(1, 2, 3) uint32_t
confluo_rolling_open_str(confluo_rolling **rolling, const char *setup, const confluo_sizes *sizes, uint32_t keep, confluo_fault *fault);

/* Takes a writer that is not taken, puts it at `writer`, and says its number, which it has in all segments: the greatest that is free, from
** sizes->writers - 1 down to 0. A writer that was freed can be taken again. Any thread.
**
**   CONFLUO_NOTHING    `rolling` is NULL
**   CONFLUO_NO_WRITER  all are taken
**   CONFLUO_MEMORY */
static inline CONFLUO_CHECKED CONFLUO_NEEDS(2) uint32_t
confluo_rolling_take_writer(confluo_rolling *rolling, confluo_rolling_writer **writer, uint32_t *number);

/* Takes a reader of all segments that are kept, and puts it at `reader`. It has seen the records that are below the tail now, and has no
** answer yet. There are at most 64. One that was freed can be taken again, which is quick. Any thread.
**
**   CONFLUO_NOTHING    `rolling` is NULL
**   CONFLUO_BUSY       64 are taken
**   CONFLUO_MEMORY */
static inline CONFLUO_CHECKED CONFLUO_NEEDS(2) uint32_t
confluo_rolling_take_reader(confluo_rolling *rolling, confluo_rolling_reader **reader);

/* Frees a handle, or does nothing with NULL: in any order. Writers and readers go on without the rolling log, whose memory goes with the
** last of them. The thread that has the handle. */
static inline void confluo_free_rolling(confluo_rolling *rolling);
static inline void confluo_free_rolling_writer(confluo_rolling_writer *writer);
static inline void confluo_free_rolling_reader(confluo_rolling_reader *reader);

/* As the calls of a writer with these names: a captured frame, numbers, values, and many frames. If the segment is full, the record goes
** to the next one. `place`, which may be NULL, is the record's place among all that the rolling log ever took. The thread that has `writer`.
**
**   CONFLUO_NOTHING    `writer` is NULL
**   CONFLUO_SIZES, CONFLUO_UNFIT, CONFLUO_FRAME    as for those calls
**   CONFLUO_NODES      the writer has too few nodes left in this segment for this row. In the next segment it has all again; until the
**                      others fill this one, it appends the rows that need no new node
**   CONFLUO_FULL       all segments are kept, and have no room for another: now and for good
**   CONFLUO_MEMORY     also for the next segment. The same call may be made again */
static inline CONFLUO_CHECKED CONFLUO_NEEDS(2) uint32_t
confluo_rolling_append(confluo_rolling_writer *writer, const confluo_capture *capture, const uint8_t *bytes, size_t bytes_len,
                       uint64_t *place);
static inline CONFLUO_CHECKED uint32_t
confluo_rolling_append_values(confluo_rolling_writer *writer, uint32_t number, const uint64_t *values, size_t values_len, uint64_t *place);
static inline CONFLUO_CHECKED uint32_t
confluo_rolling_append_row(confluo_rolling_writer *writer, uint32_t number, const confluo_value *values, size_t values_len, uint64_t *place);
static inline CONFLUO_CHECKED CONFLUO_NEEDS(8) uint32_t
confluo_rolling_append_many(confluo_rolling_writer *writer, const confluo_frame *frames, size_t frames_len, const uint8_t *bytes,
                            size_t bytes_len, uint64_t *places, size_t places_len, size_t *done);

/* Says how many records are below the tail now, from the reader's first segment on. First it adds the segments that are new, and lets those
** go that are beyond the last `keep`. The thread that has `reader`.
**
**   CONFLUO_NOTHING    `reader` is NULL
**   CONFLUO_MEMORY     some new segments may have been added. The same call may be made again */
static inline CONFLUO_CHECKED CONFLUO_NEEDS(2) uint32_t confluo_rolling_tail(confluo_rolling_reader *reader, uint32_t *tail);

/* Asks a question of the setup at that tail. Codes as for confluo_rolling_tail and confluo_ask. */
static inline CONFLUO_CHECKED CONFLUO_NEEDS(3) uint32_t
confluo_rolling_ask(confluo_rolling_reader *reader, uint32_t question, confluo_head *head);

/* As the calls of a span with these names, on what the reader has seen. The segments stay as they are. */
static inline CONFLUO_CHECKED CONFLUO_NEEDS(3) uint32_t
confluo_rolling_ask_seen(confluo_rolling_reader *reader, uint32_t question, confluo_head *head);
static inline CONFLUO_CHECKED CONFLUO_NEEDS(3) uint32_t
confluo_rolling_groups(confluo_rolling_reader *reader, uint32_t lane, confluo_head *head);
static inline CONFLUO_CHECKED CONFLUO_NEEDS(6) uint32_t
confluo_rolling_row(confluo_rolling_reader *reader, uint32_t offset, uint32_t *number, confluo_value *values, size_t values_len,
                    size_t *count);
static inline size_t confluo_rolling_words(confluo_rolling_reader *reader, size_t from, uint64_t *out, size_t out_len);
static inline CONFLUO_CHECKED CONFLUO_NEEDS(4) uint32_t
confluo_rolling_report(confluo_rolling_reader *reader, char *text, size_t text_len, size_t *count);
static inline CONFLUO_CHECKED CONFLUO_NEEDS(2) uint32_t
confluo_rolling_make_report(confluo_rolling_reader *reader, char **text, size_t *count);

/* Says how many segments the reader has, and, unless `before` is NULL, the place of its offset 0: how many records are in the segments
** before. The thread that has `reader`.
**
**   CONFLUO_NOTHING    `reader` is NULL */
static inline CONFLUO_NEEDS(2) uint32_t confluo_rolling_segments(confluo_rolling_reader *reader, size_t *segments, uint64_t *before);

/* Waits until a record at the place `after`, or behind it, is below the tail, or so many nanoseconds have gone by. `end` is the place that
** the tail has then: `before` and the tail together. So a loop waits with the `end` of the wait before, from 0 on. It sleeps in the kernel
** meanwhile, and each call that appends wakes it. The thread that has `reader`. Codes as for confluo_rolling_tail. */
static inline CONFLUO_CHECKED CONFLUO_NEEDS(4) uint32_t
confluo_rolling_wait(confluo_rolling_reader *reader, uint64_t after, uint64_t nanoseconds, uint64_t *end);

/* Gives a log of one record of the same setup, for confluo_question, confluo_name, confluo_tell, confluo_width, confluo_reads_link and
** confluo_log_setup. It is the reader's, and freed with it. The thread that has `reader`.
**
**   CONFLUO_NOTHING    `reader` is NULL
**   CONFLUO_MEMORY */
static inline CONFLUO_CHECKED CONFLUO_NEEDS(2) uint32_t confluo_rolling_names(confluo_rolling_reader *reader, confluo_log **names);

/* INLINE
**
**   A segment owns the handles of its log, which it takes when it is opened, as a log is in one call at a time: a writer for each number of
**   a rolling writer, with a reader that says whether the segment is full; and a reader for each number of a rolling reader, which goes to
**   its span. Whoever has a number uses what is under it, and nobody else does. A rolling reader that is freed stays parked under its number,
**   for the next one that has it, since it has taken readers out of segments; it is freed when these are gone.
**
**   The list: `first` leads to the first segment that is kept, and each segment to the next. A segment of the list has one holder for that;
**   each rolling writer and reader in a segment is another. Without holders it is freed.
**
**   A thread that goes along the list says so by `inside`. Who lets a first segment go puts it on `gone`, and a segment of that is left by
**   whoever has taken it off there and then found nobody inside: all who could still have met it on their way hold it, if they need it. */
enum { CONFLUO_MOST_READERS_PRIVATE = 64, CONFLUO_MOST_WRITERS_PRIVATE = 15, CONFLUO_MOST_RECORDS_PRIVATE = 1 << 20 };

typedef struct confluo_segment_private {
    struct confluo_segment_private *next_private, *gone_private;
    uint64_t number_private;
    uint32_t holders_private;
    confluo_writer *writers_private[CONFLUO_MOST_WRITERS_PRIVATE];
    confluo_reader *probes_private[CONFLUO_MOST_WRITERS_PRIVATE];
    confluo_reader *readers_private[CONFLUO_MOST_READERS_PRIVATE];
} confluo_segment_private;

struct confluo_rolling {
    confluo_sizes sizes_private;
    uint64_t keep_private;
    confluo_shared_private *shared_private; /* the setup's text, and who waits */
    confluo_segment_private *first_private, *gone_private;
    uint64_t writing_private, reading_private; /* the numbers that are taken, as bits */
    uint32_t inside_private, owners_private;
    confluo_rolling_reader *parked_private[CONFLUO_MOST_READERS_PRIVATE];
};
struct confluo_rolling_writer {
    confluo_rolling *rolling_private;
    confluo_segment_private *segment_private;
    uint32_t number_private;
};
struct confluo_rolling_reader {
    confluo_rolling *rolling_private;
    confluo_segment_private *segment_private; /* the last one of the span */
    confluo_span *span_private;
    confluo_log *names_private;
    uint64_t segments_private; /* how many the span has */
    uint32_t number_private;
    bool has_answer_private;
};

/* A thread that holds a segment is in it no more. */
static inline void confluo_leave_private(confluo_segment_private *segment) {
    int k;
    if (__atomic_sub_fetch(&segment->holders_private, 1, __ATOMIC_ACQ_REL) != 0) return;
    for (k = 0; k < CONFLUO_MOST_WRITERS_PRIVATE; k++) {
        confluo_free_writer(segment->writers_private[k]);
        confluo_free_reader(segment->probes_private[k]);
    }
    for (k = 0; k < CONFLUO_MOST_READERS_PRIVATE; k++) confluo_free_reader(segment->readers_private[k]);
    free(segment);
}
static inline confluo_segment_private *confluo_next_private(confluo_segment_private *segment) {
    return __atomic_load_n(&segment->next_private, __ATOMIC_SEQ_CST);
}
/* Opens a segment, with one holder. Nobody else sees it yet. */
static inline uint32_t confluo_open_segment_private(const confluo_rolling *rolling, uint64_t number, confluo_fault *fault,
                                                    confluo_segment_private **segment) {
    const confluo_shared_private *text = rolling->shared_private;
    confluo_segment_private *made = (confluo_segment_private *)confluo_made_private(sizeof *made);
    confluo_log *log = NULL;
    uint32_t k, code;
    if (made == NULL) return CONFLUO_MEMORY;
    made->number_private = number, made->holders_private = 1;
    code = confluo_open(&log, (const char *)confluo_text_of_private(text), text->length_private, &rolling->sizes_private, fault);
    for (k = 0; code == CONFLUO_OK && k < rolling->sizes_private.writers; k++) {
        confluo_writer *writer = NULL;
        uint32_t its = 0;
        code = confluo_take_writer(log, &writer, &its);
        if (code != CONFLUO_OK) break;
        made->writers_private[its] = writer;
        code = confluo_take_reader(log, &made->probes_private[its]);
    }
    for (k = 0; code == CONFLUO_OK && k < CONFLUO_MOST_READERS_PRIVATE; k++) code = confluo_take_reader(log, &made->readers_private[k]);
    confluo_free_log(log);
    if (code == CONFLUO_OK)
        *segment = made;
    else
        confluo_leave_private(made);
    return code;
}
static inline void confluo_put_gone_private(confluo_rolling *rolling, confluo_segment_private *segment) {
    segment->gone_private = __atomic_load_n(&rolling->gone_private, __ATOMIC_SEQ_CST);
    while (!__atomic_compare_exchange_n(&rolling->gone_private, &segment->gone_private, segment, false, __ATOMIC_SEQ_CST, __ATOMIC_SEQ_CST)) {
    }
}
static inline void confluo_leave_gone_private(confluo_rolling *rolling) {
    confluo_segment_private *next, *segment;
    bool is_free;
    if (__atomic_load_n(&rolling->gone_private, __ATOMIC_SEQ_CST) == NULL) return;
    segment = __atomic_exchange_n(&rolling->gone_private, (confluo_segment_private *)NULL, __ATOMIC_SEQ_CST);
    is_free = __atomic_load_n(&rolling->inside_private, __ATOMIC_SEQ_CST) == 0;
    for (; segment != NULL; segment = next) {
        next = segment->gone_private;
        if (is_free)
            confluo_leave_private(segment);
        else
            confluo_put_gone_private(rolling, segment);
    }
}
/* Goes to the list, whose first segment this is. Until the caller comes back it may go along the list from there. */
static inline confluo_segment_private *confluo_go_inside_private(confluo_rolling *rolling) {
    (void)__atomic_add_fetch(&rolling->inside_private, 1, __ATOMIC_SEQ_CST);
    return __atomic_load_n(&rolling->first_private, __ATOMIC_SEQ_CST);
}
static inline void confluo_come_back_private(confluo_rolling *rolling) {
    (void)__atomic_sub_fetch(&rolling->inside_private, 1, __ATOMIC_SEQ_CST);
    confluo_leave_gone_private(rolling);
}
/* The first segment or the newest one, held for the caller. */
static inline confluo_segment_private *confluo_hold_private(confluo_rolling *rolling, bool is_newest) {
    confluo_segment_private *next, *segment = confluo_go_inside_private(rolling);
    while (is_newest && (next = confluo_next_private(segment)) != NULL) segment = next;
    (void)__atomic_add_fetch(&segment->holders_private, 1, __ATOMIC_SEQ_CST);
    confluo_come_back_private(rolling);
    return segment;
}
/* The segment after one that the caller holds, or the first one if that is farther, held for the caller; NULL if there is none. */
static inline confluo_segment_private *confluo_after_private(confluo_rolling *rolling, confluo_segment_private *segment) {
    confluo_segment_private *found;
    if (confluo_next_private(segment) == NULL) return NULL;
    found = confluo_go_inside_private(rolling);
    if (found->number_private <= segment->number_private) found = confluo_next_private(segment);
    (void)__atomic_add_fetch(&found->holders_private, 1, __ATOMIC_SEQ_CST);
    confluo_come_back_private(rolling);
    return found;
}
/* Takes a number that is free, the greatest. Answers how many are below it and itself; 0 if none is free. */
static inline uint32_t confluo_take_number_private(uint64_t *taken, uint32_t most) {
    uint64_t was = __atomic_load_n(taken, __ATOMIC_SEQ_CST);
    uint32_t number;
    do {
        for (number = most; number > 0 && (was >> (number - 1) & 1) != 0;) number--;
        if (number == 0) break;
    } while (!__atomic_compare_exchange_n(taken, &was, was | (uint64_t)1 << (number - 1), false, __ATOMIC_SEQ_CST, __ATOMIC_SEQ_CST));
    return number;
}
static inline void confluo_free_number_private(uint64_t *taken, uint32_t number) {
    (void)__atomic_fetch_and(taken, ~((uint64_t)1 << number), __ATOMIC_SEQ_CST);
}
static inline void confluo_unmake_reader_private(confluo_rolling_reader *reader) {
    confluo_free_span(reader->span_private);
    confluo_leave_private(reader->segment_private);
    free(reader);
}
/* Frees the parked readers all of whose segments are gone, since those behind this one are. */
static inline void confluo_clear_parked_private(confluo_rolling *rolling, uint64_t gone) {
    uint32_t k;
    for (k = 0; k < CONFLUO_MOST_READERS_PRIVATE; k++) {
        const uint64_t bit = (uint64_t)1 << k;
        if ((__atomic_fetch_or(&rolling->reading_private, bit, __ATOMIC_SEQ_CST) & bit) != 0) continue;
        if (rolling->parked_private[k] != NULL && rolling->parked_private[k]->segment_private->number_private <= gone) {
            confluo_unmake_reader_private(rolling->parked_private[k]);
            rolling->parked_private[k] = NULL;
        }
        confluo_free_number_private(&rolling->reading_private, k);
    }
}
/* Lets the first segments go that are beyond the last ones which are kept. */
static inline void confluo_roll_private(confluo_rolling *rolling, uint64_t newest) {
    confluo_segment_private *first = confluo_go_inside_private(rolling);
    while (rolling->keep_private != 0 && first->number_private + rolling->keep_private <= newest) {
        confluo_segment_private *const was = first;
        if (!__atomic_compare_exchange_n(&rolling->first_private, &first, confluo_next_private(was), false, __ATOMIC_SEQ_CST, __ATOMIC_SEQ_CST))
            continue;
        first = confluo_next_private(was);
        confluo_put_gone_private(rolling, was);
    }
    confluo_come_back_private(rolling);
    if (rolling->keep_private != 0 && rolling->keep_private <= newest) confluo_clear_parked_private(rolling, newest - rolling->keep_private);
}
/* Opens the segment after one that the caller holds, unless it is there. */
static inline uint32_t confluo_extend_private(confluo_rolling *rolling, confluo_segment_private *segment) {
    confluo_segment_private *none = NULL, *made = NULL;
    const uint64_t number = segment->number_private + 1;
    uint32_t code;
    if (confluo_next_private(segment) != NULL) return CONFLUO_OK;
    if (rolling->keep_private == 0 && (number + 1) * rolling->sizes_private.capacity > CONFLUO_MOST_RECORDS_PRIVATE) return CONFLUO_FULL;
    code = confluo_open_segment_private(rolling, number, NULL, &made);
    if (code != CONFLUO_OK) return confluo_next_private(segment) != NULL ? (uint32_t)CONFLUO_OK : code;
    if (__atomic_compare_exchange_n(&segment->next_private, &none, made, false, __ATOMIC_SEQ_CST, __ATOMIC_SEQ_CST))
        confluo_roll_private(rolling, number);
    else
        confluo_leave_private(made);
    return code;
}

static inline void confluo_free_rolling(confluo_rolling *rolling) {
    confluo_segment_private *next, *segment;
    int k;
    if (rolling == NULL || __atomic_sub_fetch(&rolling->owners_private, 1, __ATOMIC_ACQ_REL) != 0) return;
    for (k = 0; k < CONFLUO_MOST_READERS_PRIVATE; k++)
        if (rolling->parked_private[k] != NULL) confluo_unmake_reader_private(rolling->parked_private[k]);
    confluo_leave_gone_private(rolling);
    for (segment = rolling->first_private; segment != NULL; segment = next) {
        next = segment->next_private;
        confluo_leave_private(segment);
    }
    confluo_release_private(rolling->shared_private);
    free(rolling);
}
static inline confluo_rolling *confluo_own_private(confluo_rolling *rolling) {
    (void)__atomic_add_fetch(&rolling->owners_private, 1, __ATOMIC_RELAXED);
    return rolling;
}
static inline uint32_t confluo_rolling_open(confluo_rolling **rolling, const char *setup, size_t setup_len, const confluo_sizes *sizes,
                                            uint32_t keep, confluo_fault *fault) {
    confluo_rolling *made = (confluo_rolling *)confluo_made_private(sizeof *made);
    uint32_t code = CONFLUO_MEMORY;
    if (made == NULL) return code;
    made->sizes_private = *sizes, made->keep_private = keep, made->owners_private = 1;
    made->shared_private = confluo_shared_of_private(setup, setup_len);
    if (made->shared_private != NULL) code = confluo_open_segment_private(made, 0, fault, &made->first_private);
    if (code == CONFLUO_OK && keep != 0 && (keep + (uint64_t)1) * sizes->capacity > CONFLUO_MOST_RECORDS_PRIVATE) {
        confluo_leave_private(made->first_private);
        code = CONFLUO_SIZES;
    }
    if (code == CONFLUO_OK) {
        *rolling = made;
        return code;
    }
    if (made->shared_private != NULL) confluo_release_private(made->shared_private);
    free(made);
    return code;
}
static inline uint32_t confluo_rolling_open_str(confluo_rolling **rolling, const char *setup, const confluo_sizes *sizes, uint32_t keep,
                                                confluo_fault *fault) {
    return confluo_rolling_open(rolling, setup, strlen(setup), sizes, keep, fault);
}

static inline uint32_t confluo_rolling_take_writer(confluo_rolling *rolling, confluo_rolling_writer **writer, uint32_t *number) {
    confluo_rolling_writer *made;
    uint32_t found;
    if (rolling == NULL) return CONFLUO_NOTHING;
    made = (confluo_rolling_writer *)confluo_made_private(sizeof *made);
    if (made == NULL) return CONFLUO_MEMORY;
    found = confluo_take_number_private(&rolling->writing_private, rolling->sizes_private.writers);
    if (found == 0) {
        free(made);
        return CONFLUO_NO_WRITER;
    }
    made->number_private = found - 1;
    made->rolling_private = confluo_own_private(rolling);
    made->segment_private = confluo_hold_private(rolling, true); /* whoever had the number came no farther */
    if (number != NULL) *number = found - 1;
    *writer = made;
    return CONFLUO_OK;
}
static inline void confluo_free_rolling_writer(confluo_rolling_writer *writer) {
    if (writer == NULL) return;
    confluo_free_number_private(&writer->rolling_private->writing_private, writer->number_private);
    confluo_leave_private(writer->segment_private);
    confluo_free_rolling(writer->rolling_private);
    free(writer);
}

static inline confluo_writer *confluo_here_private(const confluo_rolling_writer *writer) {
    return writer->segment_private->writers_private[writer->number_private];
}
/* Whether a call with that answer is to be made again, in the segment to which the writer has gone now. */
static inline bool confluo_goes_on_private(confluo_rolling_writer *writer, uint32_t *code) {
    confluo_segment_private *const segment = writer->segment_private;
    uint32_t tail = 0;
    if (*code != CONFLUO_FULL && *code != CONFLUO_NODES) return false;
    if (*code == CONFLUO_NODES && confluo_next_private(segment) == NULL) { /* a full log may say so too */
        (void)confluo_tail(segment->probes_private[writer->number_private], &tail);
        if (tail < writer->rolling_private->sizes_private.capacity) return false;
    }
    *code = confluo_extend_private(writer->rolling_private, segment);
    if (*code != CONFLUO_OK) return false;
    writer->segment_private = confluo_hold_private(writer->rolling_private, true);
    confluo_leave_private(segment);
    return true;
}
static inline uint64_t confluo_place_private(const confluo_rolling_writer *writer, uint32_t offset) {
    return writer->segment_private->number_private * writer->rolling_private->sizes_private.capacity + offset;
}
/* What a call that appended one record answers; who waits is woken. */
static inline uint32_t confluo_placed_private(const confluo_rolling_writer *writer, uint32_t code, uint32_t offset, uint64_t *place) {
    if (code == CONFLUO_OK && place != NULL) *place = confluo_place_private(writer, offset);
    confluo_wake_private(writer->rolling_private->shared_private);
    return code;
}
static inline uint32_t confluo_rolling_append(confluo_rolling_writer *writer, const confluo_capture *capture, const uint8_t *bytes,
                                              size_t bytes_len, uint64_t *place) {
    uint32_t code, offset = 0;
    if (writer == NULL) return CONFLUO_NOTHING;
    do {
        code = confluo_append(confluo_here_private(writer), capture, bytes, bytes_len, &offset);
    } while (confluo_goes_on_private(writer, &code));
    return confluo_placed_private(writer, code, offset, place);
}
static inline uint32_t confluo_rolling_append_values(confluo_rolling_writer *writer, uint32_t number, const uint64_t *values,
                                                     size_t values_len, uint64_t *place) {
    uint32_t code, offset = 0;
    if (writer == NULL) return CONFLUO_NOTHING;
    do {
        code = confluo_append_values(confluo_here_private(writer), number, values, values_len, &offset);
    } while (confluo_goes_on_private(writer, &code));
    return confluo_placed_private(writer, code, offset, place);
}
static inline uint32_t confluo_rolling_append_row(confluo_rolling_writer *writer, uint32_t number, const confluo_value *values,
                                                  size_t values_len, uint64_t *place) {
    uint32_t code, offset = 0;
    if (writer == NULL) return CONFLUO_NOTHING;
    do {
        code = confluo_append_row(confluo_here_private(writer), number, values, values_len, &offset);
    } while (confluo_goes_on_private(writer, &code));
    return confluo_placed_private(writer, code, offset, place);
}
static inline uint32_t confluo_rolling_append_many(confluo_rolling_writer *writer, const confluo_frame *frames, size_t frames_len,
                                                   const uint8_t *bytes, size_t bytes_len, uint64_t *places, size_t places_len,
                                                   size_t *done) {
    uint32_t code, offsets[256];
    *done = 0;
    if (writer == NULL) return CONFLUO_NOTHING;
    if (places != NULL && places_len < frames_len) return CONFLUO_SIZES;
    do {
        size_t k, count = 0, part = frames_len - *done < 256 ? frames_len - *done : 256;
        code = confluo_append_many(confluo_here_private(writer), part != 0 ? frames + *done : NULL, part, bytes, bytes_len, offsets, 256,
                                   &count);
        for (k = 0; k < count && places != NULL; k++) places[*done + k] = confluo_place_private(writer, offsets[k]);
        *done += count;
    } while (code == CONFLUO_OK ? *done < frames_len : confluo_goes_on_private(writer, &code));
    return confluo_placed_private(writer, code, 0, NULL);
}

/* Adds the segments that are new to the span, and lets the first ones go. */
static inline uint32_t confluo_follow_private(confluo_rolling_reader *reader) {
    uint32_t code = CONFLUO_OK;
    confluo_segment_private *next;
    while ((next = confluo_after_private(reader->rolling_private, reader->segment_private)) != NULL) {
        const bool is_next = next->number_private == reader->segment_private->number_private + 1;
        const uint64_t keep = is_next ? reader->rolling_private->keep_private : 1;
        code = confluo_span_add(reader->span_private, &next->readers_private[reader->number_private]);
        if (code != CONFLUO_OK) {
            confluo_leave_private(next);
            break;
        }
        confluo_leave_private(reader->segment_private);
        reader->segment_private = next;
        for (reader->segments_private++; keep != 0 && reader->segments_private > keep; reader->segments_private--)
            if (confluo_span_drop_first(reader->span_private) != CONFLUO_OK) break; /* (the last one stays) */
    }
    return code;
}
static inline uint32_t confluo_rolling_tail(confluo_rolling_reader *reader, uint32_t *tail) {
    uint32_t code = CONFLUO_NOTHING;
    if (reader != NULL) code = confluo_follow_private(reader);
    return code == CONFLUO_OK ? confluo_span_tail(reader->span_private, tail) : code;
}
static inline void confluo_free_rolling_reader(confluo_rolling_reader *reader) {
    confluo_rolling *rolling;
    if (reader == NULL) return;
    rolling = reader->rolling_private;
    confluo_free_log(reader->names_private);
    reader->names_private = NULL;
    rolling->parked_private[reader->number_private] = reader;
    confluo_free_number_private(&rolling->reading_private, reader->number_private);
    confluo_free_rolling(rolling);
}
/* A reader of that number, parked, with the first segment. Nobody has had the number since that came. */
static inline uint32_t confluo_make_reader_private(confluo_rolling *rolling, uint32_t number) {
    confluo_rolling_reader *made = (confluo_rolling_reader *)confluo_made_private(sizeof *made);
    uint32_t code;
    if (made == NULL) return CONFLUO_MEMORY;
    made->rolling_private = rolling, made->number_private = number, made->segments_private = 1;
    made->segment_private = confluo_hold_private(rolling, false);
    code = confluo_span_of(&made->segment_private->readers_private[number], &made->span_private);
    if (code == CONFLUO_OK)
        rolling->parked_private[number] = made;
    else
        confluo_unmake_reader_private(made);
    return code;
}
static inline uint32_t confluo_rolling_take_reader(confluo_rolling *rolling, confluo_rolling_reader **reader) {
    confluo_rolling_reader *taken;
    uint32_t tail, number, code = CONFLUO_OK;
    if (rolling == NULL) return CONFLUO_NOTHING;
    number = confluo_take_number_private(&rolling->reading_private, CONFLUO_MOST_READERS_PRIVATE);
    if (number-- == 0) return CONFLUO_BUSY;
    if (rolling->parked_private[number] == NULL) code = confluo_make_reader_private(rolling, number);
    if (code != CONFLUO_OK) {
        confluo_free_number_private(&rolling->reading_private, number);
        return code;
    }
    taken = rolling->parked_private[number];
    rolling->parked_private[number] = NULL, taken->has_answer_private = false;
    (void)confluo_own_private(rolling);
    code = confluo_rolling_tail(taken, &tail);
    if (code == CONFLUO_OK)
        *reader = taken;
    else
        confluo_free_rolling_reader(taken);
    return code;
}

/* What a call answers that gave an answer, if it is CONFLUO_OK. */
static inline uint32_t confluo_answered_private(confluo_rolling_reader *reader, uint32_t code) {
    if (code == CONFLUO_OK) reader->has_answer_private = true;
    return code;
}
static inline uint32_t confluo_rolling_ask(confluo_rolling_reader *reader, uint32_t question, confluo_head *head) {
    uint32_t code = CONFLUO_NOTHING;
    if (reader != NULL) code = confluo_follow_private(reader);
    return code == CONFLUO_OK ? confluo_answered_private(reader, confluo_span_ask(reader->span_private, question, head)) : code;
}
static inline uint32_t confluo_rolling_ask_seen(confluo_rolling_reader *reader, uint32_t question, confluo_head *head) {
    if (reader == NULL) return CONFLUO_NOTHING;
    return confluo_answered_private(reader, confluo_span_ask_seen(reader->span_private, question, head));
}
static inline uint32_t confluo_rolling_groups(confluo_rolling_reader *reader, uint32_t lane, confluo_head *head) {
    if (reader == NULL) return CONFLUO_NOTHING;
    return confluo_answered_private(reader, confluo_span_groups(reader->span_private, lane, head));
}
static inline uint32_t confluo_rolling_row(confluo_rolling_reader *reader, uint32_t offset, uint32_t *number, confluo_value *values,
                                           size_t values_len, size_t *count) {
    return confluo_span_row(reader != NULL ? reader->span_private : NULL, offset, number, values, values_len, count);
}
static inline size_t confluo_rolling_words(confluo_rolling_reader *reader, size_t from, uint64_t *out, size_t out_len) {
    return reader != NULL && reader->has_answer_private ? confluo_span_words(reader->span_private, from, out, out_len) : 0;
}
static inline uint32_t confluo_rolling_report(confluo_rolling_reader *reader, char *text, size_t text_len, size_t *count) {
    return confluo_span_report(reader != NULL ? reader->span_private : NULL, text, text_len, count);
}
static inline uint32_t confluo_rolling_make_report(confluo_rolling_reader *reader, char **text, size_t *count) {
    return confluo_span_make_report(reader != NULL ? reader->span_private : NULL, text, count);
}
static inline uint64_t confluo_before_private(const confluo_rolling_reader *reader) {
    return (reader->segment_private->number_private + 1 - reader->segments_private) * reader->rolling_private->sizes_private.capacity;
}
static inline uint32_t confluo_rolling_segments(confluo_rolling_reader *reader, size_t *segments, uint64_t *before) {
    if (reader == NULL) return CONFLUO_NOTHING;
    *segments = (size_t)reader->segments_private;
    if (before != NULL) *before = confluo_before_private(reader);
    return CONFLUO_OK;
}
static inline uint32_t confluo_end_of_private(confluo_rolling_reader *reader, uint64_t *end) {
    uint32_t tail = 0;
    const uint32_t code = confluo_rolling_tail(reader, &tail);
    if (code == CONFLUO_OK) *end = confluo_before_private(reader) + tail;
    return code;
}
static inline uint32_t confluo_rolling_wait(confluo_rolling_reader *reader, uint64_t after, uint64_t nanoseconds, uint64_t *end) {
    uint64_t until, found = 0;
    confluo_shared_private *shared;
    uint32_t code = confluo_end_of_private(reader, &found);
    if (code == CONFLUO_OK && found <= after && nanoseconds != 0) {
        shared = reader->rolling_private->shared_private, until = confluo_now_private();
        until = nanoseconds < UINT64_MAX / 2 - until ? until + nanoseconds : UINT64_MAX / 2;
        (void)__atomic_add_fetch(&shared->waiters_private, 1, __ATOMIC_SEQ_CST);
        for (;;) {
            const uint32_t events = __atomic_load_n(&shared->events_private, __ATOMIC_SEQ_CST);
            const int64_t time[2] = {(int64_t)(until / 1000000000), (int64_t)(until % 1000000000)};
            code = confluo_end_of_private(reader, &found);
            if (code != CONFLUO_OK || found > after || confluo_now_private() >= until) break;
            (void)confluo_futex_private(202, &shared->events_private, 137 /* FUTEX_WAIT_BITSET_PRIVATE */, events, time, NULL, UINT32_MAX);
        }
        (void)__atomic_sub_fetch(&shared->waiters_private, 1, __ATOMIC_SEQ_CST);
    }
    if (code == CONFLUO_OK) *end = found;
    return code;
}
static inline uint32_t confluo_rolling_names(confluo_rolling_reader *reader, confluo_log **names) {
    const confluo_sizes sizes = {1, 1, 0, 0};
    uint32_t code = CONFLUO_OK;
    size_t length;
    const char *text;
    if (reader == NULL) return CONFLUO_NOTHING;
    text = confluo_setup_private(reader->rolling_private->shared_private, &length);
    if (reader->names_private == NULL) code = confluo_open(&reader->names_private, text, length, &sizes, NULL);
    if (code == CONFLUO_OK) *names = reader->names_private;
    return code;
}
#endif
