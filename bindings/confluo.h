/* confluo.h: the confluo log, kept and asked by a program of your own.
**
** MODEL
**
**   A log is opened from the text of a setup (docs/FORMATS.md, "Setup"): a schema, indexes, filters, aggregates, tallies, triggers and
**   questions. It takes a fixed number of records, at most 65,536.
**   A writer appends records. A log has 1 to 15 writers, each for one thread at a time. A writer that is freed can be taken again.
**   A reader asks the questions of the setup, numbered from 0 in the order of their lines. Take as many readers as you like.
**   Writers and readers of one log run at the same time in different threads. None takes a lock.
**   Each record has an offset, 0, 1, 2 and so on. A reader sees all records below the tail, which only rises. A finished record may wait
**   for an earlier one whose writer has not finished it.
**   An answer is exactly the question's meaning on the records below the tail that it was asked at (confluo_head.tail). It is as if one
**   thread had appended these records and then asked.
**   All questions of a report can have one tail: look at it once (confluo_tail), and ask of what was seen (confluo_ask_seen). A reader
**   need not look again and again: confluo_wait sleeps until records come.
**   When all writers are freed a log can be closed (confluo_close), which leaves a reader of all its records and their report.
**   A log that is full stays open to readers. Open the next one, of the same setup and sizes, take its writers, and go on there. A span
**   asks such logs as if one log had the records of all, one after another: make it of a reader of the first log (confluo_span_of), and add
**   a reader of each next one (confluo_span_add). A rolling log keeps the last so many: let the first go then (confluo_span_drop_first),
**   and free its other handles. Each thread that asks has a span of its own. What an aggregate or a tally measured in any logs can be
**   merged (confluo_groups, confluo_merge).
**
** EXAMPLE
**
**   const char *setup = "schema packet\nindex sources src\nask from_one find sources 10.0.0.1 10.0.0.1\n";
**   const confluo_sizes sizes = {.capacity = 65536, .writers = 1, .nodes = 4096};
**   confluo_log *log = NULL;
**   confluo_writer *writer = NULL;
**   confluo_reader *reader = NULL;
**   uint32_t offset;
**   if (confluo_open_str(&log, setup, &sizes, NULL)) return 1;
**   if (confluo_take_writer(log, &writer, NULL) || confluo_take_reader(log, &reader)) return 1;
**
**   confluo_capture capture = {.ns = now, .number = 0, .length = sizeof frame, .link = 1};
**   uint32_t code = confluo_append(writer, &capture, frame, sizeof frame, &offset);    // in the writer's thread
**
**   confluo_head head;
**   uint64_t places[100];
**   if (confluo_ask(reader, 0, &head) == CONFLUO_OK)                                   // in the reader's thread
**       for (size_t k = 0, n = confluo_words(reader, 0, places, 100); k < n; k++) printf("record %u\n", (unsigned)places[k]);
**
**   confluo_span *span = NULL;                                                         // the last 8 logs, as one
**   size_t logs = 0;
**   if (confluo_span_of(&reader, &span)) return 1;                                     // the span has the reader now
**   if (code == CONFLUO_FULL) {                                                        // go on in a next log
**       confluo_free_writer(writer), confluo_free_log(log), writer = NULL, log = NULL;
**       if (confluo_open_str(&log, setup, &sizes, NULL)) return 1;
**       if (confluo_take_writer(log, &writer, NULL) || confluo_take_reader(log, &reader)) return 1;
**       if (confluo_span_add(span, &reader) || confluo_span_logs(span, &logs)) return 1;
**       if (logs > 8 && confluo_span_drop_first(span)) return 1;
**   }
**   if (confluo_span_ask(span, 0, &head)) return 1;                                    // of the records of all its logs
**
**   confluo_free_writer(writer), confluo_free_span(span), confluo_free_log(log);       // in any order
**
**   bindings/example.c is a whole program with three threads. Link libconfluo.a or libconfluo.so, and nothing else.
**
** HANDLES
**
**   A log, a writer, a reader and a span are pointers that a call gives and another one frees. NULL is a handle that leads to nothing: each
**   call answers CONFLUO_NOTHING to it, and freeing it does nothing.
**   In C and C++ all calls are inline functions of this header around the library's own calls, which "THE LIBRARY'S OWN CALLS" below lists
**   for other languages. What that costs: one malloc for each handle, of at most 48 bytes; a copy of the setup's text for each log; and in
**   each call a load and a store (see THREADS), which take about 10 nanoseconds together.
**
** THREADS
**
**   A handle is in one call at a time. Different handles may be in calls at the same time, also those of one log.
**   A handle may go from one thread to another by any means that shows the second thread what the first one wrote before, as starting or
**   joining a thread, a lock, a queue, a ring, a pipe and a semaphore all do: each call begins with a sequentially consistent load of a
**   word of its handle, and ends with such a store.
**   No call is made from a signal handler, nor in the forked child of a process that had threads. Do not cancel a thread
**   (pthread_cancel) in a call, and do not jump out of one (longjmp): a record that is half appended holds the tail back for good.
**   The deepest call takes less than 64 KiB of stack.
**
** DUTIES
**
**   What the library's own calls do is proved (docs/PROVED.md); the inline functions are tested, and that the caller keeps these duties is
**   not checked.
**
**   - A handle is NULL, or a call gave it and it has not been freed since. Its fields, whose names end with _private, are the library's.
**   - A pointer is to memory of its type, and a length counts what is there. NULL may stand for a handle, for bytes, frames, values, words
**     or a text whose length is 0, and for `fault`, `number`, `offset` and `offsets` if you do not want to know them; nowhere else. A
**     compiler that knows `nonnull` warns.
**   - Memory that one call writes overlaps nothing else that the call is given.
**   - malloc, realloc and free are one allocator, and align to 16 bytes. Arrays of uint64_t are aligned to 8.
**   - No other function of the program begins with confluo_.
**
** ERRORS
**
**   A call answers CONFLUO_OK, which is 0, or the code of the first reason, in the order of the list at the call, why it did nothing. Then
**   what it would have written is as it was, also a pointer to a handle, unless said otherwise. confluo_error_name gives a code's text.
**   errno means nothing. All calls by a handle answer CONFLUO_NOTHING first if it leads to nothing: if it is NULL, or a log that is closed.
**   CONFLUO_MEMORY may come whenever a call that lists it needs memory; the same call may be made again. A question that is refused so may
**   have looked at the tail, on which confluo_ask_seen asks.
*/
#ifndef CONFLUO_H
#define CONFLUO_H
#include <stdbool.h>
#include <stddef.h>
#include <stdint.h>
#include <stdlib.h>
#include <string.h>

/* (gcc, clang, and what has their names of symbols and their atomic functions) */
#define CONFLUO_CHECKED __attribute__((warn_unused_result))
#define CONFLUO_NEEDS(...) __attribute__((nonnull(__VA_ARGS__)))
#define CONFLUO_CALL(name) __asm__("confluo_" #name ".inline")

/* The version of this text, of the library and of its bindings, which is that of the release: 1,000,000 for the major number, 1,000 for the
** minor one, 1 for the patch. What a program was built with stays while the soname (libconfluo.so.0) is the same: a later release only adds
** calls and codes, and mends what was not as this text says. If anything else changes, also below 1.0, the soname's number is raised. abi.txt,
** next to this file in the sources, lists what C sees, and a test compares. A later text may ask for changes in the source of a program;
** CHANGELOG.md names them. The library is for Linux on x86-64. */
#define CONFLUO_VERSION 24000

/* A log, a writer and a reader, and a span of readers. */
typedef struct confluo_log confluo_log;
typedef struct confluo_writer confluo_writer;
typedef struct confluo_reader confluo_reader;
typedef struct confluo_span confluo_span;

/* What calls answer. The calls' type is uint32_t, as a later library may answer another one: switch ((confluo_code)code) has the compiler
** look for cases that are missing. */
typedef enum confluo_code {
    CONFLUO_OK = 0,
    CONFLUO_MEMORY = 1,       /* out of memory */
    CONFLUO_SIZES = 2,        /* a size is out of range, a reserved field is not 0, or an array is too short */
    CONFLUO_SETUP = 3,        /* the setup is faulty; confluo_fault says where */
    CONFLUO_NOTHING = 4,      /* the handle is NULL, or a log that is closed */
    CONFLUO_NO_WRITER = 5,    /* all writers of the log are taken */
    CONFLUO_FULL = 6,         /* the log is full: it has taken as many records as it can; or a span would take more than 2^20 */
    CONFLUO_NODES = 7,        /* the writer has too few nodes for this row, and none left now; a row that needs no new one still fits */
    CONFLUO_UNFIT = 8,        /* the row does not fit the schema of the log */
    CONFLUO_FRAME = 9,        /* the frame has 2^32 bytes or more, its link is not read, it is not in the buffer, or a reserved field is not 0 */
    CONFLUO_NO_QUESTION = 10, /* the setup has no question of that number or name, or the line says none */
    CONFLUO_NO_LANE = 11,     /* the setup has no lane of that number, it measures nothing, or it is an aggregate by a key */
    CONFLUO_NO_ROW = 12,      /* the reader has seen no record at that offset */
    CONFLUO_NO_NAME = 13,     /* the setup has nothing of that sort and number */
    CONFLUO_NO_GROUPS = 14,   /* the words are no list of groups, or both lists have more than 2^20 numbers together */
    CONFLUO_BUSY = 15,        /* a writer of the log is taken */
    CONFLUO_UNLIKE = 16,      /* the log of the reader has another setup or other sizes than those of the span */
    CONFLUO_ONE_LOG = 17      /* the span has one log, which stays */
} confluo_code;

/* How large a log is. */
typedef struct confluo_sizes {
    uint32_t capacity; /* records, 1 to 65,536 */
    uint32_t writers;  /* 1 to 15 */
    uint32_t nodes;    /* nodes of each writer, 0 to 65,536: one for each proper prefix of a key that an index or another lane meets;
                          docs/GUIDE.md says how many a capture needs */
    uint32_t reserved; /* 0 */
} confluo_sizes;

/* The first faulty line of a setup, from 1 (0: the whole text is too long), and what is wrong with it: a code of docs/FORMATS.md, which
** confluo_fault_rule puts in words. */
typedef struct confluo_fault { uint32_t line, code; } confluo_fault;

/* What a captured frame has besides its bytes. */
typedef struct confluo_capture {
    uint64_t ns;       /* when it was captured, in nanoseconds since the epoch */
    uint32_t number;   /* a number of yours, which the record keeps; it need not ascend */
    uint32_t length;   /* its length on the wire, in bytes */
    uint32_t link;     /* its link-layer header type, LINKTYPE_..: 1 is Ethernet; confluo_append says which are read */
    uint32_t reserved; /* 0 */
} confluo_capture;

/* A frame of a batch: what is said of it, and where its captured bytes stand in the batch's buffer. */
typedef struct confluo_frame {
    confluo_capture capture;
    uint64_t from;  /* how many bytes of the buffer stand before them */
    uint64_t count; /* how many bytes they are */
} confluo_frame;

/* The value of an attribute: a number, or a string of at most 16 bytes. */
typedef struct confluo_value {
    uint64_t number;   /* the number; 0 of a string */
    uint32_t kind;     /* CONFLUO_NUMBER or CONFLUO_BYTES */
    uint32_t length;   /* how many bytes the string has; 0 of a number */
    uint8_t bytes[16]; /* its bytes, then zeros; all 0 of a number */
} confluo_value;

typedef enum confluo_value_kind { CONFLUO_NUMBER = 0, CONFLUO_BYTES = 1 } confluo_value_kind;

/* What a log has room for, and a writer of it. */
typedef struct confluo_room {
    uint32_t capacity;   /* how many records the log takes in all */
    uint32_t covered;    /* how many of them are below the tail, as far as this writer knows */
    uint32_t nodes_left; /* how many nodes the writer has left */
    uint32_t reserved;   /* 0 */
} confluo_room;

/* An answer: how many records it is about, what kind of body it has, and how many words. */
typedef struct confluo_head {
    uint32_t tail;
    uint32_t kind;
    uint64_t count;
} confluo_head;

/* The kinds of bodies, and what their words are. */
typedef enum confluo_kind {
    CONFLUO_PLACES = 0, /* list, find, between: offsets, ascending */
    CONFLUO_QUAD = 1,   /* measure, total: count, sum, least, greatest; of no record four times 0 */
    CONFLUO_MARKS = 2,  /* fired: pairs of a bucket and its value, by ascending bucket */
    CONFLUO_TOPS = 3,   /* top: pairs of a key and its value, the heaviest first, ties by ascending key */
    CONFLUO_GROUPS = 4, /* groups, confluo_groups: a bucket or key, count, sum, least, greatest, and so on, by ascending bucket or key */
    CONFLUO_KEYED_MARKS = 5, /* fired, of an aggregate by a key: a bucket, a key and its value, and so on, ascending */
    CONFLUO_KEYED_GROUPS = 6 /* groups, of an aggregate by a key: a bucket, a key, count, sum, least, greatest, and so on, ascending */
} confluo_kind;

/* What a setup names. Each sort is numbered from 0, in the order of the lines. */
typedef enum confluo_sort {
    CONFLUO_ATTRIBUTES = 0, /* the attributes of the schema */
    CONFLUO_LANES = 1,      /* indexes, filters, aggregates and tallies, all in one order */
    CONFLUO_TRIGGERS = 2,
    CONFLUO_QUESTIONS = 3
} confluo_sort;

/* What the setup says of a thing that it names. Fields that are not listed for its sort are 0.
**
**   attribute    kind: 8, 16, 32 or 64 for a number of so many bits, or 0 for a string of bytes; size: how many bytes the string has
**   lane         kind: 0 index, 1 filter, 2 aggregate, 3 tally, 4 aggregate by a key; of: the attribute of the keys (0, 3, 4); size: the
**                attribute that is measured (2, 3, 4)
**   trigger      of: the lane of its aggregate; part; op; low: its number
**   question     kind: 0 list, 1 find, 2 between, 3 measure, 4 fired, 5 top, 6 total, 7 groups; of: the lane it is about, of a total the
**                attribute, of a list 0; part: of a fired or a top; op: of a fired; low: the least value of its range, of a fired the number; high: the
**                greatest value of its range; size: of a top how many keys
**
** `part` is 0 count, 1 sum, 2 least, 3 greatest; `op` is 0 ==, 1 !=, 2 <, 3 <=, 4 >, 5 >=. */
typedef struct confluo_about {
    uint32_t kind;
    uint32_t of;
    uint32_t part;
    uint32_t op;
    uint64_t low;
    uint64_t high;
    uint32_t size;
    uint32_t reserved;
} confluo_about;

/* The text of a code. Any thread, at any time. */
static inline const char *confluo_error_name(uint32_t code) {
    static const char *const texts[] = {"done",
                                        "out of memory",
                                        "a size is out of range, or an array is too short",
                                        "the setup is faulty",
                                        "the handle leads to nothing",
                                        "all writers are taken",
                                        "the log is full",
                                        "the writer's nodes are used",
                                        "the row does not fit the log's schema",
                                        "the frame is too long, not in the buffer, or of a link not read",
                                        "the setup has no such question, or the line says none",
                                        "the setup has no such lane, it measures nothing or is by a key",
                                        "the reader has seen no record at that offset",
                                        "the setup has nothing of that sort and number",
                                        "the words are no groups, or of too many numbers",
                                        "a writer of the log is taken",
                                        "the reader's log has another setup or size than the span's",
                                        "the span has one log, which stays"};
    return code < sizeof texts / sizeof *texts ? texts[code] : "no code of confluo";
}

/* The rule that a line breaks, by the code of a confluo_fault: "line 2: " and this is a sentence for a user. Any thread, at any time. */
static inline const char *confluo_fault_rule(uint32_t code) {
    static const char *const rules[] = {"no fault",
                                        "each byte of a line is printed ASCII",
                                        "the first word begins a statement; the schema comes first and once, `width` at most once",
                                        "a statement has its words, its fixed words are spelled as shown, and a new name is a name",
                                        "the list of `schema records` is NAME:KIND with commas between, at most 24, and has `ts:u64`",
                                        "no name is given twice, and a question is `live` once",
                                        "a name stands for an attribute, or for a thing of that kind on a line above",
                                        "a number or value has its form and range",
                                        "an index, a tally and `by` are over numbers; measured are numbers below 2^32",
                                        "at most 16 indexes, filters, aggregates and tallies, 16 triggers, 32 questions, 65536 bytes",
                                        "the expression can be read: comparisons joined by && and ||, no parentheses",
                                        "the names in an expression are attributes",
                                        "the operators suit: == != < <= > >= in, not in; of bytes only == and !=",
                                        "the values in an expression are in their attribute's range",
                                        "an expression has at most 32 comparisons"};
    return code < sizeof rules / sizeof *rules ? rules[code] : "no fault of confluo";
}

/* The version of the library, as CONFLUO_VERSION is that of the header. Any thread, at any time. */
static inline uint32_t confluo_version(void) CONFLUO_CALL(version);

/* Says whether confluo_open would take this setup and these sizes, and how many bytes the words of the log would take. Nothing is opened.
** Any thread, at any time.
**
**   CONFLUO_SETUP    the text is no setup; `fault` says where
**   CONFLUO_SIZES    the text is a setup, and a size is out of range
**   CONFLUO_MEMORY */
static inline CONFLUO_CHECKED CONFLUO_NEEDS(3, 4) uint32_t
confluo_check(const char *setup, size_t setup_len, const confluo_sizes *sizes, uint64_t *bytes, confluo_fault *fault) CONFLUO_CALL(check);

/* Opens a log, and puts it at `log`. Any thread, at any time.
**
**   CONFLUO_SETUP, CONFLUO_SIZES, CONFLUO_MEMORY    as for confluo_check */
static inline CONFLUO_CHECKED CONFLUO_NEEDS(1, 4) uint32_t
confluo_open(confluo_log **log, const char *setup, size_t setup_len, const confluo_sizes *sizes, confluo_fault *fault) CONFLUO_CALL(open);

/* Takes a writer of the log that is not taken, puts it at `writer`, and says its number: the greatest that is free, from writers - 1 down
** to 0. A writer that was freed, in whatever thread, can be taken again: it goes on with the nodes that it had used. The thread that has
** `log`.
**
**   CONFLUO_NOTHING    `log` leads to nothing
**   CONFLUO_NO_WRITER  all are taken
**   CONFLUO_MEMORY */
static inline CONFLUO_CHECKED CONFLUO_NEEDS(2) uint32_t
confluo_take_writer(confluo_log *log, confluo_writer **writer, uint32_t *number) CONFLUO_CALL(take_writer);

/* Takes a reader of the log, and puts it at `reader`. The thread that has `log`.
**
**   CONFLUO_NOTHING    `log` leads to nothing
**   CONFLUO_MEMORY */
static inline CONFLUO_CHECKED CONFLUO_NEEDS(2) uint32_t
confluo_take_reader(confluo_log *log, confluo_reader **reader) CONFLUO_CALL(take_reader);

/* Closes the log, once all its writers are freed: no record comes to it any more. `log` leads to nothing then, and is to be freed as ever.
** At `reader` is a reader that has seen every record of the log. confluo_ask_seen asks it for the final answers, and confluo_report gives
** them with the history of the log. Other readers may stay; they see the whole log when they ask next. The thread that has `log`.
**
**   CONFLUO_NOTHING    `log` leads to nothing
**   CONFLUO_BUSY       a writer is taken; the log stays open
**   CONFLUO_MEMORY     the log stays open */
static inline CONFLUO_CHECKED CONFLUO_NEEDS(2) uint32_t
confluo_close(confluo_log *log, confluo_reader **reader) CONFLUO_CALL(close);

/* Frees a handle, or does nothing with NULL. Handles of one log are freed in any order: its memory goes with the last of them. A writer that
** is freed can be taken again, by confluo_take_writer. The thread that has the handle. */
static inline void confluo_free_log(confluo_log *log) CONFLUO_CALL(free_log);
static inline void confluo_free_writer(confluo_writer *writer) CONFLUO_CALL(free_writer);
static inline void confluo_free_reader(confluo_reader *reader) CONFLUO_CALL(free_reader);
static inline void confluo_free_span(confluo_span *span) CONFLUO_CALL(free_span);

/* Appends the record of a captured frame, and says its offset. `bytes` are the captured bytes of the frame; they are read within the call,
** and neither copied nor kept. The call needs no memory. A frame whose headers cannot be read is a record all the same, with 0 in those
** fields. The schema `packet` reads the links 1 (Ethernet) and 113 (LINUX_SLL); `packet6` also 276 (LINUX_SLL2), 101 (RAW), 228 (IPV4), 229 (IPV6), 0 (NULL) and 108 (LOOP).
** The thread that has `writer`.
**
**   CONFLUO_NOTHING    `writer` leads to nothing
**   CONFLUO_UNFIT      the schema of the log is not that of packets, whatever its attributes are
**   CONFLUO_FRAME      bytes_len is 2^32 or more, the schema does not read capture->link, or capture->reserved is not 0
**   CONFLUO_NODES      the writer has too few nodes for this row. It used those that it had on the way, so it has none left: from now on it
**                      appends the rows that need no new node, since it or another writer has met their keys
**   CONFLUO_FULL       the log is full, now and for good. A writer that had this answer has it for each row that fits. Another may have
**                      CONFLUO_NODES from a full log: the tail of a full log is its capacity, once each record is finished */
static inline CONFLUO_CHECKED CONFLUO_NEEDS(2) uint32_t
confluo_append(confluo_writer *writer, const confluo_capture *capture, const uint8_t *bytes, size_t bytes_len,
               uint32_t *offset) CONFLUO_CALL(append);

/* Says whether confluo_append takes the frames of a link, by a log of one record with the same setup, which it opens and frees. The thread
** that has `log`.
**
**   CONFLUO_NOTHING    `log` leads to nothing
**   CONFLUO_UNFIT      the schema of the log is not that of packets
**   CONFLUO_FRAME      the schema does not read the link
**   CONFLUO_MEMORY */
static inline CONFLUO_CHECKED uint32_t confluo_reads_link(confluo_log *log, uint32_t link);

/* Appends a record of numbers, one for each attribute of the schema in its order, and says its offset. `number` is yours. The thread that
** has `writer`.
**
**   CONFLUO_NOTHING    `writer` leads to nothing
**   CONFLUO_UNFIT      there are too few or too many numbers, one is too large for its attribute, or an attribute takes bytes
**   CONFLUO_MEMORY
**   CONFLUO_NODES, CONFLUO_FULL    as for confluo_append */
static inline CONFLUO_CHECKED uint32_t
confluo_append_values(confluo_writer *writer, uint32_t number, const uint64_t *values, size_t values_len,
                      uint32_t *offset) CONFLUO_CALL(append_values);

/* Appends the records of many frames, each as confluo_append does, until one is refused. `bytes` is the buffer in which the frames' bytes
** stand; frames may share bytes. `done` is how many were appended, whatever the answer is, and 0 if none was; the first so many of
** `offsets` are their offsets, and the others are as they were; `offsets` may be NULL. The answer is CONFLUO_OK if all were appended, and
** else why the next one was not: you may go on with that one. A writer that appends in such calls finds its way faster, the more so where a
** frame's keys are near those of the frame before. The thread that has `writer`.
**
**   CONFLUO_NOTHING    `writer` leads to nothing
**   CONFLUO_SIZES      `offsets` is not NULL, and offsets_len is less than frames_len
**   CONFLUO_UNFIT      as for confluo_append
**   CONFLUO_FRAME      as for confluo_append, or the frame's bytes do not all stand in the buffer
**   CONFLUO_NODES, CONFLUO_FULL    as for confluo_append */
static inline CONFLUO_CHECKED CONFLUO_NEEDS(8) uint32_t
confluo_append_many(confluo_writer *writer, const confluo_frame *frames, size_t frames_len, const uint8_t *bytes, size_t bytes_len,
                    uint32_t *offsets, size_t offsets_len, size_t *done) CONFLUO_CALL(append_many);

/* Appends a record of values, one for each attribute of the schema in its order, and says its offset. `number` is yours. The thread that has
** `writer`.
**
**   CONFLUO_NOTHING    `writer` leads to nothing
**   CONFLUO_MEMORY
**   CONFLUO_UNFIT      there are too few or too many values, one is not of its attribute's kind, a number is too large, a string has another
**                      length than its attribute's, or a byte after it is not 0
**   CONFLUO_NODES, CONFLUO_FULL    as for confluo_append */
static inline CONFLUO_CHECKED uint32_t
confluo_append_row(confluo_writer *writer, uint32_t number, const confluo_value *values, size_t values_len,
                   uint32_t *offset) CONFLUO_CALL(append_row);

/* Says what the log of a writer has room for, and the writer. The thread that has `writer`.
**
**   CONFLUO_NOTHING    `writer` leads to nothing */
static inline CONFLUO_NEEDS(2) uint32_t confluo_room_of(confluo_writer *writer, confluo_room *room) CONFLUO_CALL(room_of);

/* Asks a question of the setup. The reader keeps the words of the answer until its next answer; if the call is refused, those that it has.
** The thread that has `reader`.
**
**   CONFLUO_NOTHING      `reader` leads to nothing
**   CONFLUO_NO_QUESTION  the setup has no question of that number
**   CONFLUO_MEMORY */
static inline CONFLUO_CHECKED CONFLUO_NEEDS(3) uint32_t
confluo_ask(confluo_reader *reader, uint32_t question, confluo_head *head) CONFLUO_CALL(ask);

/* Asks the question that a line of the setup's language says, such as "ask late find sources 10.0.0.1 10.0.0.1", without an end of line.
** It is read as one more line of the log's setup, whose names it may use, and its own name must be new; so a setup that has 32 questions
** has no room for it. The setup and the numbers of its questions stay as they are. All else is as for confluo_ask.
** Each call reads the setup's text again.
**
**   CONFLUO_NOTHING      `reader` leads to nothing
**   CONFLUO_NO_QUESTION  the line is more than one line, says nothing, or states something else
**   CONFLUO_SETUP        the line is faulty; `fault` says what is wrong with it: of line 1, which is this one, or of line 0 if there is no
**                        room after the setup's text, with 65,536 bytes in all
**   CONFLUO_MEMORY */
static inline CONFLUO_CHECKED CONFLUO_NEEDS(4) uint32_t
confluo_ask_text(confluo_reader *reader, const char *line, size_t line_len, confluo_head *head, confluo_fault *fault) CONFLUO_CALL(ask_text);

/* Asks a question of the setup on the records that the reader has seen: those below the tail that its last confluo_ask, confluo_ask_text
** or confluo_tail found, which is 0 at first. The tail is not looked at again, so that all questions of a report have one tail: call
** confluo_tail once, and then this for each question. All else is as for confluo_ask, with the same codes. */
static inline CONFLUO_CHECKED CONFLUO_NEEDS(3) uint32_t
confluo_ask_seen(confluo_reader *reader, uint32_t question, confluo_head *head) CONFLUO_CALL(ask_seen);

/* Gives the groups of an aggregate or a tally on the records that the reader has seen, as for confluo_ask_seen: for each bucket of the
** aggregate, or each key of the tally, that a record has which it selects, what it measures. These are the words of an answer of kind
** CONFLUO_GROUPS, which the reader keeps. Groups of several logs can be merged; marks and tops cannot. Groups of an aggregate by a key are
** the answer to a question of the kind groups, and cannot be merged. The thread that has `reader`.
**
**   CONFLUO_NOTHING    `reader` leads to nothing
**   CONFLUO_NO_LANE    the setup has no lane of that number, or it is an index, a filter or an aggregate by a key
**   CONFLUO_MEMORY */
static inline CONFLUO_CHECKED CONFLUO_NEEDS(3) uint32_t
confluo_groups(confluo_reader *reader, uint32_t lane, confluo_head *head) CONFLUO_CALL(groups);

/* Merges two lists of groups, as confluo_groups and this call give them: those of one key become one, and they ascend by key, in whatever
** order they stood. The merged list goes to `out`, in as many words as `count` says; one_len + other_len words are always room enough. Of
** groups of an aggregate, or of a tally, of several logs with one setup, this makes the groups of all their records. Any thread, at any
** time.
**
**   CONFLUO_NO_GROUPS  the words of a list are not five for each group, or four of them are no quad (of no number all four are 0; the sum
**                      is at most 2^32 - 1 for each number, and so is each number); or both lists have more than 2^20 numbers (the sum of
**                      all counts) together: the records of 16 full logs
**   CONFLUO_MEMORY
**   CONFLUO_SIZES      the merged list has more words than `out` */
static inline CONFLUO_CHECKED CONFLUO_NEEDS(7) uint32_t
confluo_merge(const uint64_t *one, size_t one_len, const uint64_t *other, size_t other_len, uint64_t *out, size_t out_len,
              size_t *count) CONFLUO_CALL(merge);

/* Reads back the record at an offset that the reader has seen: the number that it was appended with, and its values, of which as many are
** copied to `values` as there is room for. `count` is how many values a record has, at most 32. The thread that has `reader`.
**
**   CONFLUO_NOTHING    `reader` leads to nothing
**   CONFLUO_NO_ROW     the offset is not below the tail that the reader saw last; confluo_tail looks again
**   CONFLUO_MEMORY */
static inline CONFLUO_CHECKED CONFLUO_NEEDS(6) uint32_t
confluo_row(confluo_reader *reader, uint32_t offset, uint32_t *number, confluo_value *values, size_t values_len,
            size_t *count) CONFLUO_CALL(row);

/* Copies words of the reader's last answer to `out`, from word `from` on, as far as there is room. Answers how many: none if there was no
** answer yet, if `from` is past the last word, and if `reader` is NULL. The thread that has `reader`. */
static inline size_t confluo_words(confluo_reader *reader, size_t from, uint64_t *out, size_t out_len) CONFLUO_CALL(words);

/* Makes a span of the log of one reader, puts it at `span`, and makes the reader's pointer NULL: the span has the reader now, with what it
** has seen and the words of its last answer. The thread that has the reader.
**
**   CONFLUO_NOTHING    the reader is NULL
**   CONFLUO_MEMORY     the reader stays, with what it has seen and its words */
static inline CONFLUO_CHECKED CONFLUO_NEEDS(1, 2) uint32_t confluo_span_of(confluo_reader **reader, confluo_span **span) CONFLUO_CALL(span_of);

/* Adds the reader of the log that comes next, behind the others, and makes the reader's pointer NULL. From now on the span looks at that log
** too, as soon as it has seen all records that the log before it takes: a log that is left before it is full hides those behind it. So give
** the writers nodes enough. The thread that has `span` and the reader.
**
**   CONFLUO_NOTHING    `span` or the reader is NULL
**   CONFLUO_UNLIKE     the log was opened from another text of a setup or with other sizes than those of the span; the reader stays
**   CONFLUO_FULL       the logs would take more than 2^20 records together, as 16 of 65,536 do; the reader stays
**   CONFLUO_MEMORY     the reader stays */
static inline CONFLUO_CHECKED CONFLUO_NEEDS(2) uint32_t confluo_span_add(confluo_span *span, confluo_reader **reader) CONFLUO_CALL(span_add);

/* Lets the first log go, with the span's reader of it. What the span sees begins with the log behind it, whose first record has the offset 0
** then. The words of the last answer stay. The thread that has `span`.
**
**   CONFLUO_NOTHING    `span` leads to nothing
**   CONFLUO_ONE_LOG    it is the only one, and stays */
static inline CONFLUO_CHECKED uint32_t confluo_span_drop_first(confluo_span *span) CONFLUO_CALL(span_drop_first);

/* Says how many logs the span has. The thread that has `span`.
**
**   CONFLUO_NOTHING    `span` leads to nothing */
static inline CONFLUO_NEEDS(2) uint32_t confluo_span_logs(confluo_span *span, size_t *logs) CONFLUO_CALL(span_logs);

/* As the calls of a reader with these names, on the records of all logs of the span, one after another: offsets count from the first record
** of its first log, and a tail is how many records are seen together. What is seen is always the beginning of one history. The numbers of
** questions and lanes are those of the setup, which all its logs have. The thread that has `span`; codes as for those calls. */
static inline CONFLUO_NEEDS(2) uint32_t confluo_span_tail(confluo_span *span, uint32_t *tail) CONFLUO_CALL(span_tail);
static inline CONFLUO_CHECKED CONFLUO_NEEDS(3) uint32_t
confluo_span_ask(confluo_span *span, uint32_t question, confluo_head *head) CONFLUO_CALL(span_ask);
static inline CONFLUO_CHECKED CONFLUO_NEEDS(3) uint32_t
confluo_span_ask_seen(confluo_span *span, uint32_t question, confluo_head *head) CONFLUO_CALL(span_ask_seen);
static inline CONFLUO_CHECKED CONFLUO_NEEDS(3) uint32_t
confluo_span_groups(confluo_span *span, uint32_t lane, confluo_head *head) CONFLUO_CALL(span_groups);
static inline CONFLUO_CHECKED CONFLUO_NEEDS(6) uint32_t
confluo_span_row(confluo_span *span, uint32_t offset, uint32_t *number, confluo_value *values, size_t values_len,
                 size_t *count) CONFLUO_CALL(span_row);
static inline size_t confluo_span_words(confluo_span *span, size_t from, uint64_t *out, size_t out_len) CONFLUO_CALL(span_words);

/* Copies the report of the records that the reader has seen to `text`, as far as there is room, with a byte 0 after it if there is room
** for that too, and says in `count` how many bytes it has. It is the text that `confluo run` prints of these records: how many they are,
** what each question and trigger of the setup means on them (records are shown by the numbers that they were appended with), and the
** order in which the writers appended them. The answers and that order are one legal history of a list that one thread appends to and
** asks. The tail is not looked at again: call this with no room, and then with as much as `count` says. Each call makes the whole text.
** The thread that has `reader`.
**
**   CONFLUO_NOTHING    `reader` leads to nothing
**   CONFLUO_MEMORY */
static inline CONFLUO_CHECKED CONFLUO_NEEDS(4) uint32_t
confluo_report(confluo_reader *reader, char *text, size_t text_len, size_t *count) CONFLUO_CALL(report);

/* The same report in memory from malloc, which is yours to free, with a byte 0 after it; `count` may be NULL. Codes as for confluo_report. */
static inline CONFLUO_CHECKED CONFLUO_NEEDS(2) uint32_t confluo_make_report(confluo_reader *reader, char **text, size_t *count);

/* The same reports of the records that the span has seen: each is that of one log with the records of all its logs, one after another. The
** words of the span's last answer stay. The thread that has `span`; codes as for confluo_report. */
static inline CONFLUO_CHECKED CONFLUO_NEEDS(4) uint32_t
confluo_span_report(confluo_span *span, char *text, size_t text_len, size_t *count) CONFLUO_CALL(span_report);
static inline CONFLUO_CHECKED CONFLUO_NEEDS(2) uint32_t confluo_span_make_report(confluo_span *span, char **text, size_t *count);

/* Says how many records are below the tail now. The thread that has `reader`.
**
**   CONFLUO_NOTHING    `reader` leads to nothing */
static inline CONFLUO_NEEDS(2) uint32_t confluo_tail(confluo_reader *reader, uint32_t *tail) CONFLUO_CALL(tail);

/* Waits until more than `after` records are below the tail, the log is closed, or so many nanoseconds have gone by, and says how many are
** below the tail then. It sleeps in the kernel meanwhile, and each call that appends wakes it. To end a wait early, close the log, or give
** it little time and look at a flag of yours. The thread that has `reader`.
**
**   CONFLUO_NOTHING    `reader` leads to nothing */
static inline CONFLUO_NEEDS(4) uint32_t confluo_wait(confluo_reader *reader, uint32_t after, uint64_t nanoseconds, uint32_t *tail);

/* Copies the name of what the setup of the log has of that sort at that number (CONFLUO_ATTRIBUTES and so on), as far as there is room, with
** a byte 0 after it if there is room for that too, and says in `count` how many bytes the name has: at most 32, all ASCII. The thread
** that has `log`.
**
**   CONFLUO_NOTHING    `log` leads to nothing
**   CONFLUO_NO_NAME    there is no such sort, or the setup has nothing of it at that number: count up from 0 until this comes */
static inline CONFLUO_CHECKED CONFLUO_NEEDS(6) uint32_t
confluo_name(confluo_log *log, uint32_t sort, uint32_t number, char *name, size_t name_len, size_t *count) CONFLUO_CALL(name);

/* Says what the setup of the log says of that. The thread that has `log`; codes as for confluo_name. */
static inline CONFLUO_CHECKED CONFLUO_NEEDS(4) uint32_t
confluo_tell(confluo_log *log, uint32_t sort, uint32_t number, confluo_about *about) CONFLUO_CALL(tell);

/* Says the number of the question of that name. The thread that has `log`.
**
**   CONFLUO_NOTHING      `log` leads to nothing
**   CONFLUO_NO_QUESTION  the setup has no question of that name */
static inline CONFLUO_CHECKED CONFLUO_NEEDS(4) uint32_t
confluo_question(confluo_log *log, const char *name, size_t name_len, uint32_t *number) CONFLUO_CALL(question);

/* Says how wide a bucket is, in nanoseconds. The thread that has `log`.
**
**   CONFLUO_NOTHING    `log` leads to nothing */
static inline CONFLUO_NEEDS(2) uint32_t confluo_width(confluo_log *log, uint64_t *width) CONFLUO_CALL(width);

/* The same for the thread that has a reader, also when the log is closed or freed. The first such call of a reader reads the setup's text
** again.
**
**   CONFLUO_NOTHING, CONFLUO_NO_NAME    as for confluo_name
**   CONFLUO_MEMORY */
static inline CONFLUO_CHECKED CONFLUO_NEEDS(6) uint32_t
confluo_reader_name(confluo_reader *reader, uint32_t sort, uint32_t number, char *name, size_t name_len, size_t *count);
static inline CONFLUO_CHECKED CONFLUO_NEEDS(4) uint32_t
confluo_reader_tell(confluo_reader *reader, uint32_t sort, uint32_t number, confluo_about *about);
static inline CONFLUO_CHECKED CONFLUO_NEEDS(2) uint32_t confluo_reader_width(confluo_reader *reader, uint64_t *width);

/* Says the number of what has that name, which ends with a byte 0, among those of a sort: of a question for confluo_ask, of a lane for
** confluo_groups, of an attribute for its place among the values of confluo_row. The thread that has `reader`; codes as for
** confluo_reader_name. */
static inline CONFLUO_CHECKED CONFLUO_NEEDS(3, 4) uint32_t
confluo_reader_number(confluo_reader *reader, uint32_t sort, const char *name, uint32_t *number);

/* The text of the setup, with a byte 0 after it, and its length, which may be NULL. It stays as long as a handle of the log;
** NULL if the handle is. The thread that has the handle. */
static inline const char *confluo_log_setup(const confluo_log *log, size_t *length);
static inline const char *confluo_reader_setup(const confluo_reader *reader, size_t *length);

/* The calls that take a text, with one that ends with a byte 0. */
static inline CONFLUO_CHECKED CONFLUO_NEEDS(1, 2, 3) uint32_t
confluo_check_str(const char *setup, const confluo_sizes *sizes, uint64_t *bytes, confluo_fault *fault);
static inline CONFLUO_CHECKED CONFLUO_NEEDS(1, 2, 3) uint32_t
confluo_open_str(confluo_log **log, const char *setup, const confluo_sizes *sizes, confluo_fault *fault);
static inline CONFLUO_CHECKED CONFLUO_NEEDS(2, 3) uint32_t
confluo_ask_str(confluo_reader *reader, const char *line, confluo_head *head, confluo_fault *fault);
static inline CONFLUO_CHECKED CONFLUO_NEEDS(2, 3) uint32_t
confluo_question_str(confluo_log *log, const char *name, uint32_t *number);

/* THE LIBRARY'S OWN CALLS
**
** What follows is not for programs in C and C++.
**
** These are the symbols that the library exports, which the packages for Rust and Python call. A handle is 16 bytes of the caller's there:
** all 0 at first, and then as the last call left it; if two copies of it are used, that is a double free. What a handle led to is freed
** by the call that puts another thing there. A call owes memory for each pointer, NULL is allowed nowhere, and a batch needs room for all
** offsets. The line of confluo_ask_text counts on from those of the setup. A handle goes to another thread by starting or joining a thread,
** by a lock, or by a sequentially consistent atomic. All else is as above. confluo_message copies the text of a code to `out`, from byte
** `from` on, as far as there is room: it is ASCII and at most 64 bytes. */
typedef struct confluo_raw_log { bool full_private; void *at_private; } confluo_raw_log;
typedef struct confluo_raw_writer { bool full_private; void *at_private; } confluo_raw_writer;
typedef struct confluo_raw_reader { bool full_private; void *at_private; } confluo_raw_reader;
typedef struct confluo_raw_span { bool full_private; void *at_private; } confluo_raw_span;

#ifdef __cplusplus
extern "C" {
#endif
uint32_t confluo_raw_version(void) __asm__("confluo_version");
size_t confluo_raw_message(uint32_t code, size_t from, uint8_t *out, size_t out_len) __asm__("confluo_message");
uint32_t confluo_raw_check(const uint8_t *setup, size_t setup_len, const confluo_sizes *sizes, uint64_t *bytes,
                           confluo_fault *fault) __asm__("confluo_check");
uint32_t confluo_raw_open(confluo_raw_log *log, const uint8_t *setup, size_t setup_len, const confluo_sizes *sizes,
                          confluo_fault *fault) __asm__("confluo_open");
uint32_t confluo_raw_take_writer(confluo_raw_log *log, confluo_raw_writer *writer, uint32_t *number) __asm__("confluo_take_writer");
uint32_t confluo_raw_take_reader(confluo_raw_log *log, confluo_raw_reader *reader) __asm__("confluo_take_reader");
uint32_t confluo_raw_close(confluo_raw_log *log, confluo_raw_reader *reader) __asm__("confluo_close");
uint32_t confluo_raw_append(confluo_raw_writer *writer, const confluo_capture *capture, const uint8_t *bytes, size_t bytes_len,
                            uint32_t *offset) __asm__("confluo_append");
uint32_t confluo_raw_append_values(confluo_raw_writer *writer, uint32_t number, const uint64_t *values, size_t values_len,
                                   uint32_t *offset) __asm__("confluo_append_values");
uint32_t confluo_raw_append_many(confluo_raw_writer *writer, const confluo_frame *frames, size_t frames_len, const uint8_t *bytes,
                                 size_t bytes_len, uint32_t *offsets, size_t offsets_len, size_t *done) __asm__("confluo_append_many");
uint32_t confluo_raw_append_row(confluo_raw_writer *writer, uint32_t number, const confluo_value *values, size_t values_len,
                                uint32_t *offset) __asm__("confluo_append_row");
uint32_t confluo_raw_room_of(confluo_raw_writer *writer, confluo_room *room) __asm__("confluo_room_of");
uint32_t confluo_raw_ask(confluo_raw_reader *reader, uint32_t question, confluo_head *head) __asm__("confluo_ask");
uint32_t confluo_raw_ask_text(confluo_raw_reader *reader, const uint8_t *line, size_t line_len, confluo_head *head,
                              confluo_fault *fault) __asm__("confluo_ask_text");
uint32_t confluo_raw_ask_seen(confluo_raw_reader *reader, uint32_t question, confluo_head *head) __asm__("confluo_ask_seen");
uint32_t confluo_raw_groups(confluo_raw_reader *reader, uint32_t lane, confluo_head *head) __asm__("confluo_groups");
uint32_t confluo_raw_merge(const uint64_t *one, size_t one_len, const uint64_t *other, size_t other_len, uint64_t *out, size_t out_len,
                           size_t *count) __asm__("confluo_merge");
uint32_t confluo_raw_row(confluo_raw_reader *reader, uint32_t offset, uint32_t *number, confluo_value *values, size_t values_len,
                         size_t *count) __asm__("confluo_row");
size_t confluo_raw_words(confluo_raw_reader *reader, size_t from, uint64_t *out, size_t out_len) __asm__("confluo_words");
uint32_t confluo_raw_span_of(confluo_raw_reader *reader, confluo_raw_span *span) __asm__("confluo_span_of");
uint32_t confluo_raw_span_add(confluo_raw_span *span, confluo_raw_reader *reader) __asm__("confluo_span_add");
uint32_t confluo_raw_span_drop_first(confluo_raw_span *span) __asm__("confluo_span_drop_first");
uint32_t confluo_raw_span_logs(confluo_raw_span *span, size_t *logs) __asm__("confluo_span_logs");
uint32_t confluo_raw_span_tail(confluo_raw_span *span, uint32_t *tail) __asm__("confluo_span_tail");
uint32_t confluo_raw_span_ask(confluo_raw_span *span, uint32_t question, confluo_head *head) __asm__("confluo_span_ask");
uint32_t confluo_raw_span_ask_seen(confluo_raw_span *span, uint32_t question, confluo_head *head) __asm__("confluo_span_ask_seen");
uint32_t confluo_raw_span_groups(confluo_raw_span *span, uint32_t lane, confluo_head *head) __asm__("confluo_span_groups");
uint32_t confluo_raw_span_row(confluo_raw_span *span, uint32_t offset, uint32_t *number, confluo_value *values, size_t values_len,
                              size_t *count) __asm__("confluo_span_row");
size_t confluo_raw_span_words(confluo_raw_span *span, size_t from, uint64_t *out, size_t out_len) __asm__("confluo_span_words");
uint32_t confluo_raw_report(confluo_raw_reader *reader, uint8_t *text, size_t text_len, size_t *count) __asm__("confluo_report");
uint32_t confluo_raw_span_report(confluo_raw_span *span, uint8_t *text, size_t text_len, size_t *count) __asm__("confluo_span_report");
uint32_t confluo_raw_tail(confluo_raw_reader *reader, uint32_t *tail) __asm__("confluo_tail");
uint32_t confluo_raw_name(confluo_raw_log *log, uint32_t sort, uint32_t number, uint8_t *name, size_t name_len,
                          size_t *count) __asm__("confluo_name");
uint32_t confluo_raw_tell(confluo_raw_log *log, uint32_t sort, uint32_t number, confluo_about *about) __asm__("confluo_tell");
uint32_t confluo_raw_question(confluo_raw_log *log, const uint8_t *name, size_t name_len, uint32_t *number) __asm__("confluo_question");
uint32_t confluo_raw_width(confluo_raw_log *log, uint64_t *width) __asm__("confluo_width");
void confluo_raw_free_log(confluo_raw_log *log) __asm__("confluo_free_log");
void confluo_raw_free_writer(confluo_raw_writer *writer) __asm__("confluo_free_writer");
void confluo_raw_free_reader(confluo_raw_reader *reader) __asm__("confluo_free_reader");
void confluo_raw_free_span(confluo_raw_span *span) __asm__("confluo_free_span");
/* (of the C library, whose headers do not show these in strict modes) */
long confluo_futex_private(long number, ...) __asm__("syscall");
int confluo_clock_private(int clock, int64_t *seconds_and_nanoseconds) __asm__("clock_gettime");
#ifdef __cplusplus
}
#endif

/* INLINE: what the calls for C and C++ do around those. */

/* What the handles of a log share and own together; the text of its setup follows. */
typedef struct confluo_shared_private {
    size_t length_private, owners_private;
    uint32_t waiters_private, events_private, closed_private;
} confluo_shared_private;

struct confluo_log { confluo_raw_log raw_private; confluo_shared_private *shared_private; uint32_t passed_private; };
struct confluo_writer { confluo_raw_writer raw_private; confluo_shared_private *shared_private; uint32_t passed_private; };
struct confluo_reader {
    confluo_raw_reader raw_private;
    confluo_raw_log names_private; /* a log of one record, once names are wanted */
    confluo_shared_private *shared_private;
    uint32_t passed_private;
};
struct confluo_span { confluo_raw_span raw_private; uint32_t passed_private; };

/* A handle that was in another thread is seen as that one's last call left it. */
static inline void confluo_begin_private(const uint32_t *passed) { (void)__atomic_load_n(passed, __ATOMIC_SEQ_CST); }
static inline void confluo_end_private(uint32_t *passed) { __atomic_store_n(passed, 1, __ATOMIC_SEQ_CST); }

/* Answers what a call by a handle answers, and `nothing` if it is NULL. */
#define CONFLUO_BY(handle, type, nothing, call)       \
    type answer = nothing;                            \
    if (handle == NULL) return answer;                \
    confluo_begin_private(&(handle)->passed_private); \
    answer = call;                                    \
    confluo_end_private(&(handle)->passed_private);   \
    return answer

/* The same for a call that appends: it wakes the readers that wait. */
#define CONFLUO_APPEND(call)                          \
    uint32_t answer = CONFLUO_NOTHING;                \
    if (writer == NULL) return answer;                \
    confluo_begin_private(&writer->passed_private);   \
    answer = call;                                    \
    confluo_end_private(&writer->passed_private);     \
    confluo_wake_private(writer->shared_private);     \
    return answer

/* Memory of zeros. */
static inline void *confluo_made_private(size_t size) {
    void *made = malloc(size);
    return made != NULL ? memset(made, 0, size) : NULL;
}

/* What is given, or memory in the place of nothing. */
static inline const uint8_t *confluo_bytes_private(const void *bytes, size_t length) {
    static const uint8_t none = 0;
    return length != 0 ? (const uint8_t *)bytes : &none;
}
static inline const uint64_t *confluo_numbers_private(const uint64_t *numbers, size_t length) {
    static const uint64_t none = 0;
    return length != 0 ? numbers : &none;
}
static inline const confluo_value *confluo_values_private(const confluo_value *values, size_t length) {
    static const confluo_value none = {0, 0, 0, {0}};
    return length != 0 ? values : &none;
}
static inline const uint8_t *confluo_text_of_private(const confluo_shared_private *shared) { return (const uint8_t *)(shared + 1); }
static inline confluo_shared_private *confluo_share_private(confluo_shared_private *shared) {
    (void)__atomic_add_fetch(&shared->owners_private, 1, __ATOMIC_RELAXED);
    return shared;
}
static inline void confluo_release_private(confluo_shared_private *shared) {
    if (__atomic_sub_fetch(&shared->owners_private, 1, __ATOMIC_ACQ_REL) == 0) free(shared);
}

/* Readers that wait sleep in the kernel, by a futex on `events`. A writer says that it is done before it looks whether one waits, and a
** reader says that it waits before it looks at the tail, so one of them sees the other. */
static inline void confluo_wake_private(confluo_shared_private *shared) {
    if (__atomic_load_n(&shared->waiters_private, __ATOMIC_SEQ_CST) == 0) return;
    (void)__atomic_add_fetch(&shared->events_private, 1, __ATOMIC_SEQ_CST);
    (void)confluo_futex_private(202, &shared->events_private, 129 /* FUTEX_WAKE_PRIVATE */, INT32_MAX, NULL, NULL, 0);
}
static inline uint64_t confluo_now_private(void) {
    int64_t now[2] = {0, 0};
    (void)confluo_clock_private(1 /* CLOCK_MONOTONIC */, now);
    return (uint64_t)now[0] * 1000000000 + (uint64_t)now[1];
}

static inline uint32_t confluo_version(void) { return confluo_raw_version(); }
static inline uint32_t confluo_check(const char *setup, size_t setup_len, const confluo_sizes *sizes, uint64_t *bytes,
                                     confluo_fault *fault) {
    confluo_fault no_fault;
    return confluo_raw_check(confluo_bytes_private(setup, setup_len), setup_len, sizes, bytes, fault != NULL ? fault : &no_fault);
}
/* What the handles of a log of this setup share, with one owner; NULL if there is no memory. */
static inline confluo_shared_private *confluo_shared_of_private(const char *setup, size_t setup_len) {
    confluo_shared_private *shared = (confluo_shared_private *)confluo_made_private(sizeof *shared + setup_len + 1);
    if (shared == NULL) return NULL;
    shared->length_private = setup_len, shared->owners_private = 1;
    memcpy(shared + 1, confluo_bytes_private(setup, setup_len), setup_len);
    return shared;
}
static inline uint32_t confluo_open(confluo_log **log, const char *setup, size_t setup_len, const confluo_sizes *sizes,
                                    confluo_fault *fault) {
    confluo_fault no_fault;
    confluo_log *made = (confluo_log *)confluo_made_private(sizeof *made);
    uint32_t code;
    if (made == NULL) return CONFLUO_MEMORY;
    code = confluo_raw_open(&made->raw_private, confluo_bytes_private(setup, setup_len), setup_len, sizes, fault != NULL ? fault : &no_fault);
    if (code == CONFLUO_OK) {
        made->shared_private = confluo_shared_of_private(setup, setup_len);
        if (made->shared_private == NULL) code = (confluo_raw_free_log(&made->raw_private), CONFLUO_MEMORY);
    }
    if (code != CONFLUO_OK) {
        free(made);
        return code;
    }
    confluo_end_private(&made->passed_private);
    *log = made;
    return code;
}
static inline uint32_t confluo_take_writer(confluo_log *log, confluo_writer **writer, uint32_t *number) {
    uint32_t no_number, code;
    confluo_writer *made;
    if (log == NULL) return CONFLUO_NOTHING;
    made = (confluo_writer *)confluo_made_private(sizeof *made);
    if (made == NULL) return CONFLUO_MEMORY;
    confluo_begin_private(&log->passed_private);
    code = confluo_raw_take_writer(&log->raw_private, &made->raw_private, number != NULL ? number : &no_number);
    confluo_end_private(&log->passed_private);
    confluo_end_private(&made->passed_private);
    if (code != CONFLUO_OK) {
        free(made);
        return code;
    }
    made->shared_private = confluo_share_private(log->shared_private);
    *writer = made;
    return code;
}
/* A reader of the log, by closing it or not. */
static inline uint32_t confluo_read_private(confluo_log *log, confluo_reader **reader, bool closes) {
    uint32_t code;
    confluo_reader *made;
    if (log == NULL) return CONFLUO_NOTHING;
    made = (confluo_reader *)confluo_made_private(sizeof *made);
    if (made == NULL) return CONFLUO_MEMORY;
    confluo_begin_private(&log->passed_private);
    code = closes ? confluo_raw_close(&log->raw_private, &made->raw_private) : confluo_raw_take_reader(&log->raw_private, &made->raw_private);
    confluo_end_private(&log->passed_private);
    confluo_end_private(&made->passed_private);
    if (code != CONFLUO_OK) {
        free(made);
        return code;
    }
    made->shared_private = confluo_share_private(log->shared_private);
    if (closes) {
        __atomic_store_n(&log->shared_private->closed_private, 1, __ATOMIC_SEQ_CST);
        confluo_wake_private(log->shared_private);
    }
    *reader = made;
    return code;
}
static inline uint32_t confluo_take_reader(confluo_log *log, confluo_reader **reader) { return confluo_read_private(log, reader, false); }
static inline uint32_t confluo_close(confluo_log *log, confluo_reader **reader) { return confluo_read_private(log, reader, true); }
static inline void confluo_free_log(confluo_log *log) {
    if (log == NULL) return;
    confluo_begin_private(&log->passed_private);
    confluo_raw_free_log(&log->raw_private);
    confluo_release_private(log->shared_private);
    free(log);
}
static inline void confluo_free_writer(confluo_writer *writer) {
    if (writer == NULL) return;
    confluo_begin_private(&writer->passed_private);
    confluo_raw_free_writer(&writer->raw_private);
    confluo_release_private(writer->shared_private);
    free(writer);
}
static inline void confluo_free_reader(confluo_reader *reader) {
    if (reader == NULL) return;
    confluo_begin_private(&reader->passed_private);
    confluo_raw_free_reader(&reader->raw_private);
    confluo_raw_free_log(&reader->names_private);
    confluo_release_private(reader->shared_private);
    free(reader);
}
static inline void confluo_free_span(confluo_span *span) {
    if (span == NULL) return;
    confluo_begin_private(&span->passed_private);
    confluo_raw_free_span(&span->raw_private);
    free(span);
}

static inline uint32_t confluo_append(confluo_writer *writer, const confluo_capture *capture, const uint8_t *bytes, size_t bytes_len,
                                      uint32_t *offset) {
    uint32_t no_offset;
    CONFLUO_APPEND(confluo_raw_append(&writer->raw_private, capture, confluo_bytes_private(bytes, bytes_len), bytes_len,
                                      offset != NULL ? offset : &no_offset));
}
static inline uint32_t confluo_append_values(confluo_writer *writer, uint32_t number, const uint64_t *values, size_t values_len,
                                             uint32_t *offset) {
    uint32_t no_offset;
    CONFLUO_APPEND(confluo_raw_append_values(&writer->raw_private, number, confluo_numbers_private(values, values_len), values_len,
                                             offset != NULL ? offset : &no_offset));
}
static inline uint32_t confluo_append_row(confluo_writer *writer, uint32_t number, const confluo_value *values, size_t values_len,
                                          uint32_t *offset) {
    uint32_t no_offset;
    CONFLUO_APPEND(confluo_raw_append_row(&writer->raw_private, number, confluo_values_private(values, values_len), values_len,
                                          offset != NULL ? offset : &no_offset));
}
/* Frames whose offsets nobody wants, in parts of 256. */
static inline uint32_t confluo_append_all_private(confluo_raw_writer *writer, const confluo_frame *frames, size_t frames_len,
                                                  const uint8_t *bytes, size_t bytes_len, size_t *done) {
    uint32_t offsets[256], code;
    size_t count, part;
    *done = 0;
    do {
        count = 0, part = frames_len - *done < 256 ? frames_len - *done : 256;
        code = confluo_raw_append_many(writer, frames + *done, part, bytes, bytes_len, offsets, 256, &count);
        *done += count;
    } while (code == CONFLUO_OK && *done < frames_len);
    return code;
}
static inline uint32_t confluo_append_many(confluo_writer *writer, const confluo_frame *frames, size_t frames_len, const uint8_t *bytes,
                                           size_t bytes_len, uint32_t *offsets, size_t offsets_len, size_t *done) {
    static const confluo_frame no_frame = {{0, 0, 0, 0, 0}, 0, 0};
    uint32_t no_offset;
    *done = 0;
    if (frames_len == 0) frames = &no_frame;
    bytes = confluo_bytes_private(bytes, bytes_len);
    CONFLUO_APPEND(frames_len != 0 && offsets == NULL
                       ? confluo_append_all_private(&writer->raw_private, frames, frames_len, bytes, bytes_len, done)
                       : confluo_raw_append_many(&writer->raw_private, frames, frames_len, bytes, bytes_len,
                                                 offsets_len != 0 && offsets != NULL ? offsets : &no_offset,
                                                 offsets != NULL ? offsets_len : 0, done));
}
static inline uint32_t confluo_room_of(confluo_writer *writer, confluo_room *room) {
    CONFLUO_BY(writer, uint32_t, CONFLUO_NOTHING, confluo_raw_room_of(&writer->raw_private, room));
}
/* An empty frame of the link goes to a log of its own. */
static inline uint32_t confluo_try_private(const confluo_shared_private *text, uint32_t link) {
    const confluo_sizes sizes = {1, 1, 0, 0};
    const confluo_capture capture = {0, 0, 0, link, 0};
    confluo_raw_log log = {false, NULL};
    confluo_raw_writer writer = {false, NULL};
    confluo_fault fault;
    uint32_t out;
    uint32_t code = confluo_raw_open(&log, confluo_text_of_private(text), text->length_private, &sizes, &fault);
    if (code == CONFLUO_OK) code = confluo_raw_take_writer(&log, &writer, &out);
    if (code == CONFLUO_OK) code = confluo_raw_append(&writer, &capture, confluo_bytes_private(NULL, 0), 0, &out);
    confluo_raw_free_writer(&writer);
    confluo_raw_free_log(&log);
    return code == CONFLUO_NODES ? (uint32_t)CONFLUO_OK : code;
}
static inline uint32_t confluo_reads_link(confluo_log *log, uint32_t link) {
    CONFLUO_BY(log, uint32_t, CONFLUO_NOTHING, log->raw_private.full_private ? confluo_try_private(log->shared_private, link) : answer);
}

static inline uint32_t confluo_ask(confluo_reader *reader, uint32_t question, confluo_head *head) {
    CONFLUO_BY(reader, uint32_t, CONFLUO_NOTHING, confluo_raw_ask(&reader->raw_private, question, head));
}
static inline uint32_t confluo_ask_seen(confluo_reader *reader, uint32_t question, confluo_head *head) {
    CONFLUO_BY(reader, uint32_t, CONFLUO_NOTHING, confluo_raw_ask_seen(&reader->raw_private, question, head));
}
static inline uint32_t confluo_line_private(confluo_raw_reader *reader, const char *line, size_t line_len, confluo_head *head,
                                            confluo_fault *fault) {
    const uint32_t code = confluo_raw_ask_text(reader, confluo_bytes_private(line, line_len), line_len, head, fault);
    if (code == CONFLUO_SETUP && fault->line != 0) fault->line = 1; /* it was counted on from the setup's lines */
    return code;
}
static inline uint32_t confluo_ask_text(confluo_reader *reader, const char *line, size_t line_len, confluo_head *head,
                                        confluo_fault *fault) {
    confluo_fault no_fault;
    CONFLUO_BY(reader, uint32_t, CONFLUO_NOTHING,
               confluo_line_private(&reader->raw_private, line, line_len, head, fault != NULL ? fault : &no_fault));
}
static inline uint32_t confluo_groups(confluo_reader *reader, uint32_t lane, confluo_head *head) {
    CONFLUO_BY(reader, uint32_t, CONFLUO_NOTHING, confluo_raw_groups(&reader->raw_private, lane, head));
}
static inline uint32_t confluo_merge(const uint64_t *one, size_t one_len, const uint64_t *other, size_t other_len, uint64_t *out,
                                     size_t out_len, size_t *count) {
    uint64_t no_out;
    return confluo_raw_merge(confluo_numbers_private(one, one_len), one_len, confluo_numbers_private(other, other_len), other_len,
                             out_len != 0 ? out : &no_out, out_len, count);
}
static inline uint32_t confluo_row(confluo_reader *reader, uint32_t offset, uint32_t *number, confluo_value *values, size_t values_len,
                                   size_t *count) {
    confluo_value no_value;
    uint32_t no_number;
    CONFLUO_BY(reader, uint32_t, CONFLUO_NOTHING,
               confluo_raw_row(&reader->raw_private, offset, number != NULL ? number : &no_number, values_len != 0 ? values : &no_value,
                               values_len, count));
}
static inline size_t confluo_words(confluo_reader *reader, size_t from, uint64_t *out, size_t out_len) {
    uint64_t no_out;
    CONFLUO_BY(reader, size_t, 0, confluo_raw_words(&reader->raw_private, from, out_len != 0 ? out : &no_out, out_len));
}
/* A reader that a span has taken: what is left of it is freed. */
static inline void confluo_taken_private(confluo_reader **reader) {
    confluo_free_reader(*reader);
    *reader = NULL;
}
static inline uint32_t confluo_span_of(confluo_reader **reader, confluo_span **span) {
    confluo_span *made;
    uint32_t code;
    if (*reader == NULL) return CONFLUO_NOTHING;
    made = (confluo_span *)confluo_made_private(sizeof *made);
    if (made == NULL) return CONFLUO_MEMORY;
    confluo_begin_private(&(*reader)->passed_private);
    code = confluo_raw_span_of(&(*reader)->raw_private, &made->raw_private);
    confluo_end_private(&(*reader)->passed_private);
    confluo_end_private(&made->passed_private);
    if (code != CONFLUO_OK) {
        free(made);
        return code;
    }
    confluo_taken_private(reader);
    *span = made;
    return code;
}
static inline uint32_t confluo_span_add(confluo_span *span, confluo_reader **reader) {
    uint32_t code;
    if (span == NULL || *reader == NULL) return CONFLUO_NOTHING;
    confluo_begin_private(&span->passed_private);
    confluo_begin_private(&(*reader)->passed_private);
    code = confluo_raw_span_add(&span->raw_private, &(*reader)->raw_private);
    confluo_end_private(&(*reader)->passed_private);
    confluo_end_private(&span->passed_private);
    if (code == CONFLUO_OK) confluo_taken_private(reader);
    return code;
}
static inline uint32_t confluo_span_drop_first(confluo_span *span) {
    CONFLUO_BY(span, uint32_t, CONFLUO_NOTHING, confluo_raw_span_drop_first(&span->raw_private));
}
static inline uint32_t confluo_span_logs(confluo_span *span, size_t *logs) {
    CONFLUO_BY(span, uint32_t, CONFLUO_NOTHING, confluo_raw_span_logs(&span->raw_private, logs));
}
static inline uint32_t confluo_span_tail(confluo_span *span, uint32_t *tail) {
    CONFLUO_BY(span, uint32_t, CONFLUO_NOTHING, confluo_raw_span_tail(&span->raw_private, tail));
}
static inline uint32_t confluo_span_ask(confluo_span *span, uint32_t question, confluo_head *head) {
    CONFLUO_BY(span, uint32_t, CONFLUO_NOTHING, confluo_raw_span_ask(&span->raw_private, question, head));
}
static inline uint32_t confluo_span_ask_seen(confluo_span *span, uint32_t question, confluo_head *head) {
    CONFLUO_BY(span, uint32_t, CONFLUO_NOTHING, confluo_raw_span_ask_seen(&span->raw_private, question, head));
}
static inline uint32_t confluo_span_groups(confluo_span *span, uint32_t lane, confluo_head *head) {
    CONFLUO_BY(span, uint32_t, CONFLUO_NOTHING, confluo_raw_span_groups(&span->raw_private, lane, head));
}
static inline uint32_t confluo_span_row(confluo_span *span, uint32_t offset, uint32_t *number, confluo_value *values, size_t values_len,
                                        size_t *count) {
    confluo_value no_value;
    uint32_t no_number;
    CONFLUO_BY(span, uint32_t, CONFLUO_NOTHING,
               confluo_raw_span_row(&span->raw_private, offset, number != NULL ? number : &no_number,
                                    values_len != 0 ? values : &no_value, values_len, count));
}
static inline size_t confluo_span_words(confluo_span *span, size_t from, uint64_t *out, size_t out_len) {
    uint64_t no_out;
    CONFLUO_BY(span, size_t, 0, confluo_raw_span_words(&span->raw_private, from, out_len != 0 ? out : &no_out, out_len));
}
static inline uint32_t confluo_ended_private(uint32_t code, char *text, size_t room, const size_t *count) {
    if (code == CONFLUO_OK && *count < room) text[*count] = 0;
    return code;
}
static inline uint32_t confluo_report(confluo_reader *reader, char *text, size_t text_len, size_t *count) {
    uint8_t no_text;
    CONFLUO_BY(reader, uint32_t, CONFLUO_NOTHING,
               confluo_ended_private(
                   confluo_raw_report(&reader->raw_private, text_len != 0 ? (uint8_t *)text : &no_text, text_len, count), text, text_len, count));
}
static inline uint32_t confluo_span_report(confluo_span *span, char *text, size_t text_len, size_t *count) {
    uint8_t no_text;
    CONFLUO_BY(span, uint32_t, CONFLUO_NOTHING,
               confluo_ended_private(confluo_raw_span_report(&span->raw_private, text_len != 0 ? (uint8_t *)text : &no_text, text_len, count),
                                     text, text_len, count));
}

/* Makes the text that a call copies by this handle, in new memory. What the handle has seen stays, so the second text is the first one. */
#define CONFLUO_MADE(handle, call, text, count)                                                  \
    size_t room = 65536, length = 0;                                                             \
    uint32_t code = handle != NULL ? CONFLUO_OK : CONFLUO_NOTHING;                               \
    while (code == CONFLUO_OK) {                                                                 \
        char *made = (char *)malloc(room);                                                       \
        code = made != NULL ? call(handle, made, room, &length) : (uint32_t)CONFLUO_MEMORY;      \
        if (code == CONFLUO_OK && length < room) {                                               \
            *text = made;                                                                        \
            if (count != NULL) *count = length;                                                  \
            return code;                                                                         \
        }                                                                                        \
        free(made);                                                                              \
        room = length + 1;                                                                       \
    }                                                                                            \
    return code
static inline uint32_t confluo_make_report(confluo_reader *reader, char **text, size_t *count) {
    CONFLUO_MADE(reader, confluo_report, text, count);
}
static inline uint32_t confluo_span_make_report(confluo_span *span, char **text, size_t *count) {
    CONFLUO_MADE(span, confluo_span_report, text, count);
}
#undef CONFLUO_MADE
static inline uint32_t confluo_tail(confluo_reader *reader, uint32_t *tail) {
    CONFLUO_BY(reader, uint32_t, CONFLUO_NOTHING, confluo_raw_tail(&reader->raw_private, tail));
}

static inline uint32_t confluo_wait(confluo_reader *reader, uint32_t after, uint64_t nanoseconds, uint32_t *tail) {
    const uint32_t code = confluo_tail(reader, tail);
    confluo_shared_private *shared;
    uint64_t until;
    if (code != CONFLUO_OK || *tail > after || nanoseconds == 0) return code;
    shared = reader->shared_private, until = confluo_now_private();
    until = nanoseconds < UINT64_MAX / 2 - until ? until + nanoseconds : UINT64_MAX / 2;
    (void)__atomic_add_fetch(&shared->waiters_private, 1, __ATOMIC_SEQ_CST);
    for (;;) {
        const uint32_t events = __atomic_load_n(&shared->events_private, __ATOMIC_SEQ_CST);
        const bool is_closed = __atomic_load_n(&shared->closed_private, __ATOMIC_SEQ_CST) != 0;
        const int64_t time[2] = {(int64_t)(until / 1000000000), (int64_t)(until % 1000000000)};
        (void)confluo_tail(reader, tail);
        if (*tail > after || is_closed || confluo_now_private() >= until) break;
        (void)confluo_futex_private(202, &shared->events_private, 137 /* FUTEX_WAIT_BITSET_PRIVATE */, events, time, NULL, UINT32_MAX);
    }
    (void)__atomic_sub_fetch(&shared->waiters_private, 1, __ATOMIC_SEQ_CST);
    return code;
}

static inline uint32_t confluo_named_private(confluo_raw_log *log, uint32_t sort, uint32_t number, char *name, size_t name_len,
                                             size_t *count) {
    uint8_t no_name;
    return confluo_ended_private(confluo_raw_name(log, sort, number, name_len != 0 ? (uint8_t *)name : &no_name, name_len, count), name,
                                 name_len, count);
}
static inline uint32_t confluo_name(confluo_log *log, uint32_t sort, uint32_t number, char *name, size_t name_len, size_t *count) {
    CONFLUO_BY(log, uint32_t, CONFLUO_NOTHING, confluo_named_private(&log->raw_private, sort, number, name, name_len, count));
}
static inline uint32_t confluo_tell(confluo_log *log, uint32_t sort, uint32_t number, confluo_about *about) {
    CONFLUO_BY(log, uint32_t, CONFLUO_NOTHING, confluo_raw_tell(&log->raw_private, sort, number, about));
}
static inline uint32_t confluo_question(confluo_log *log, const char *name, size_t name_len, uint32_t *number) {
    CONFLUO_BY(log, uint32_t, CONFLUO_NOTHING,
               confluo_raw_question(&log->raw_private, confluo_bytes_private(name, name_len), name_len, number));
}
static inline uint32_t confluo_width(confluo_log *log, uint64_t *width) {
    CONFLUO_BY(log, uint32_t, CONFLUO_NOTHING, confluo_raw_width(&log->raw_private, width));
}

/* Opens the log of one record, in which a reader looks for names, if it is not open. */
static inline uint32_t confluo_names_private(confluo_reader *reader) {
    const confluo_sizes sizes = {1, 1, 0, 0};
    const confluo_shared_private *text = reader->shared_private;
    confluo_fault fault;
    if (reader->names_private.full_private) return CONFLUO_OK;
    return confluo_raw_open(&reader->names_private, confluo_text_of_private(text), text->length_private, &sizes, &fault);
}
static inline uint32_t confluo_reader_name(confluo_reader *reader, uint32_t sort, uint32_t number, char *name, size_t name_len,
                                           size_t *count) {
    CONFLUO_BY(reader, uint32_t, CONFLUO_NOTHING,
               confluo_names_private(reader) != CONFLUO_OK
                   ? (uint32_t)CONFLUO_MEMORY
                   : confluo_named_private(&reader->names_private, sort, number, name, name_len, count));
}
static inline uint32_t confluo_reader_tell(confluo_reader *reader, uint32_t sort, uint32_t number, confluo_about *about) {
    CONFLUO_BY(reader, uint32_t, CONFLUO_NOTHING,
               confluo_names_private(reader) != CONFLUO_OK ? (uint32_t)CONFLUO_MEMORY
                                                           : confluo_raw_tell(&reader->names_private, sort, number, about));
}
static inline uint32_t confluo_reader_width(confluo_reader *reader, uint64_t *width) {
    CONFLUO_BY(reader, uint32_t, CONFLUO_NOTHING,
               confluo_names_private(reader) != CONFLUO_OK ? (uint32_t)CONFLUO_MEMORY
                                                           : confluo_raw_width(&reader->names_private, width));
}
static inline uint32_t confluo_reader_number(confluo_reader *reader, uint32_t sort, const char *name, uint32_t *number) {
    uint32_t k, code = CONFLUO_OK;
    size_t count;
    char found[33];
    for (k = 0; code == CONFLUO_OK; k++) {
        code = confluo_reader_name(reader, sort, k, found, sizeof found, &count);
        if (code != CONFLUO_OK || strcmp(found, name) != 0) continue;
        *number = k;
        break;
    }
    return code;
}

static inline const char *confluo_setup_private(const confluo_shared_private *text, size_t *length) {
    if (length != NULL) *length = text->length_private;
    return (const char *)(text + 1);
}
static inline const char *confluo_log_setup(const confluo_log *log, size_t *length) {
    return log != NULL ? confluo_setup_private(log->shared_private, length) : NULL;
}
static inline const char *confluo_reader_setup(const confluo_reader *reader, size_t *length) {
    return reader != NULL ? confluo_setup_private(reader->shared_private, length) : NULL;
}

static inline uint32_t confluo_check_str(const char *setup, const confluo_sizes *sizes, uint64_t *bytes, confluo_fault *fault) {
    return confluo_check(setup, strlen(setup), sizes, bytes, fault);
}
static inline uint32_t confluo_open_str(confluo_log **log, const char *setup, const confluo_sizes *sizes, confluo_fault *fault) {
    return confluo_open(log, setup, strlen(setup), sizes, fault);
}
static inline uint32_t confluo_ask_str(confluo_reader *reader, const char *line, confluo_head *head, confluo_fault *fault) {
    return confluo_ask_text(reader, line, strlen(line), head, fault);
}
static inline uint32_t confluo_question_str(confluo_log *log, const char *name, uint32_t *number) {
    return confluo_question(log, name, strlen(name), number);
}
#undef CONFLUO_BY
#undef CONFLUO_APPEND
#undef CONFLUO_CALL

/* What the library was built with. A compiler that lays these out in another way cannot use it. */
#if defined(__cplusplus) ? __cplusplus >= 201103L : defined(__STDC_VERSION__) && __STDC_VERSION__ >= 201112L
#ifdef __cplusplus
#define CONFLUO_IS(holds) static_assert(holds, #holds)
#else
#define CONFLUO_IS(holds) _Static_assert(holds, #holds)
#endif
CONFLUO_IS(sizeof(bool) == 1 && sizeof(void *) == 8 && sizeof(size_t) == 8);
CONFLUO_IS(sizeof(confluo_raw_log) == 16 && sizeof(confluo_raw_writer) == 16 && sizeof(confluo_raw_reader) == 16);
CONFLUO_IS(offsetof(confluo_raw_log, at_private) == 8 && offsetof(confluo_raw_writer, at_private) == 8);
CONFLUO_IS(sizeof(confluo_raw_span) == 16 && offsetof(confluo_raw_reader, at_private) == 8 && offsetof(confluo_raw_span, at_private) == 8);
CONFLUO_IS(sizeof(confluo_sizes) == 16 && sizeof(confluo_fault) == 8 && sizeof(confluo_capture) == 24);
CONFLUO_IS(sizeof(confluo_frame) == 40 && sizeof(confluo_value) == 32 && sizeof(confluo_about) == 40);
CONFLUO_IS(sizeof(confluo_room) == 16 && sizeof(confluo_head) == 16 && offsetof(confluo_head, count) == 8);
#undef CONFLUO_IS
#endif
#endif
