/*
 * The plain twin: the words and steps of the shared log in plain C, with nothing proved and nothing answered.
 *
 *     cc -std=c11 -O2 -pthread -o plain_twin bench/plain_twin.c
 *     ./plain_twin --records 65536 --lanes 4 --writers 2 --batch 4096
 *     ./plain_twin --records 65536 --lanes 1 --chains 16 --finds 1000
 *
 * It says what the log's own steps cost on this machine. Each record takes a ticket by one addition to the write tail,
 * stores its 21 words (20 of a packet, one tag), links itself in front of one chain a lane, is marked finished, and
 * moves the read tail past all finished records. Record k is written by writer k mod W. Every step is sequentially
 * consistent, as in the log. What the log has besides is left out: trees above the chains, cells of aggregates, reading
 * a capture, questions, the report.
 *
 * It prints one line, `records N lanes L writers W batch B seconds S`, and ends with 0; with 1 if the log that came out
 * is not whole (a record missing, a chain cut); with 2 for a faulty command line or want of memory. With `--finds F` it
 * prints before that `finds F links K seconds S`: F times the chains of one key in the first lane are walked, from the
 * newest record to the oldest, and the first word of each is read in the order in which they came; K links in all.
 */
#define _POSIX_C_SOURCE 200809L

#include <errno.h>
#include <pthread.h>
#include <stdatomic.h>
#include <stdbool.h>
#include <stdint.h>
#include <stdio.h>
#include <stdlib.h>
#include <string.h>
#include <time.h>

enum {
    ROW_WORDS = 21,
    MAX_LANES = 16,
    MAX_WRITERS = 15,
};

typedef _Atomic uint64_t word;

/* A log and what is to be appended to it. */
struct log {
    uint64_t records;
    uint64_t lanes;
    uint64_t writers;
    uint64_t batch;
    uint64_t chains; /* of one lane and writer */
    uint64_t finds;
    word write_tail;
    word read_tail;
    word *tickets;  /* of each record its words, then one link a lane, then whether it is finished */
    word *heads;    /* of each lane, chain and writer the newest offset plus 1, 0 for none */
    uint64_t *rows; /* the words that are stored */
};

/* What one thread does: one writer's records of one batch. */
struct job {
    struct log *log;
    uint64_t writer;
    uint64_t from;
    uint64_t to;
};

static uint64_t ticket_words(const struct log *log) { return ROW_WORDS + log->lanes + 1; }

static word *head_at(const struct log *log, uint64_t lane, uint64_t key, uint64_t writer) {
    return &log->heads[(lane * log->chains + key % log->chains) * log->writers + writer];
}

/* Moves the read tail past each finished record. */
static void move_tail(struct log *log) {
    const uint64_t words = ticket_words(log);
    uint64_t tail = atomic_load(&log->read_tail);
    while (tail < log->records && atomic_load(&log->tickets[tail * words + words - 1]) != 0) {
        uint64_t expected = tail;
        atomic_compare_exchange_strong(&log->read_tail, &expected, tail + 1);
        tail += 1;
    }
}

static void append(struct log *log, uint64_t writer, const uint64_t *row) {
    const uint64_t offset = atomic_fetch_add(&log->write_tail, 1);
    word *ticket = &log->tickets[offset * ticket_words(log)];
    for (uint64_t i = 0; i < ROW_WORDS; i++) {
        atomic_store(&ticket[i], row[i]);
    }
    for (uint64_t lane = 0; lane < log->lanes; lane++) {
        atomic_store(&ticket[ROW_WORDS + lane], atomic_load(head_at(log, lane, row[lane], writer)));
    }
    for (uint64_t lane = 0; lane < log->lanes; lane++) {
        atomic_store(head_at(log, lane, row[lane], writer), offset + 1);
    }
    atomic_store(&ticket[ROW_WORDS + log->lanes], 1);
    move_tail(log);
}

static void *write_records(void *argument) {
    const struct job *job = argument;
    for (uint64_t k = job->from; k < job->to; k++) {
        if (k % job->log->writers == job->writer) {
            append(job->log, job->writer, &job->log->rows[k * ROW_WORDS]);
        }
    }
    return NULL;
}

/* All writers append their records of a batch, the first in this thread. */
static int write_batch(struct log *log, uint64_t from, uint64_t to) {
    pthread_t threads[MAX_WRITERS];
    struct job jobs[MAX_WRITERS];
    for (uint64_t w = 0; w < log->writers; w++) {
        jobs[w] = (struct job){.log = log, .writer = w, .from = from, .to = to};
    }
    int fault = 0;
    uint64_t started = 1;
    while (started < log->writers && fault == 0) {
        fault = pthread_create(&threads[started], NULL, write_records, &jobs[started]);
        started += fault == 0;
    }
    write_records(&jobs[0]);
    for (uint64_t w = 1; w < started; w++) {
        pthread_join(threads[w], NULL);
    }
    return fault;
}

/* Whether each record is finished and stands in one chain of each lane. */
static bool is_whole(const struct log *log) {
    if (atomic_load(&log->read_tail) != log->records || atomic_load(&log->write_tail) != log->records) {
        return false;
    }
    for (uint64_t lane = 0; lane < log->lanes; lane++) {
        uint64_t linked = 0;
        for (uint64_t chain = 0; chain < log->chains * log->writers; chain++) {
            uint64_t next = atomic_load(&log->heads[lane * log->chains * log->writers + chain]);
            while (next != 0) {
                linked += 1;
                next = atomic_load(&log->tickets[(next - 1) * ticket_words(log) + ROW_WORDS + lane]);
            }
        }
        if (linked != log->records) {
            return false;
        }
    }
    return true;
}

static int by_offset(const void *low, const void *high) {
    const uint32_t first = *(const uint32_t *)low, second = *(const uint32_t *)high;
    return (first > second) - (first < second);
}

/* Puts the offsets of a key's records in the first lane in order, and answers how many these are. */
static uint64_t find_key(const struct log *log, uint64_t key, uint32_t *found) {
    const uint64_t words = ticket_words(log);
    uint64_t count = 0;
    for (uint64_t writer = 0; writer < log->writers; writer++) {
        uint64_t next = atomic_load(head_at(log, 0, key, writer));
        while (next != 0) {
            found[count++] = (uint32_t)(next - 1);
            next = atomic_load(&log->tickets[(next - 1) * words + ROW_WORDS]);
        }
    }
    if (log->writers > 1) {
        qsort(found, count, sizeof *found, by_offset);
        return count;
    }
    for (uint64_t i = 0; i < count / 2; i++) {
        const uint32_t other = found[i];
        found[i] = found[count - 1 - i];
        found[count - 1 - i] = other;
    }
    return count;
}

/* Finds keys, one after another, and reads a word of each record. Answers how many links were followed. */
static uint64_t find_keys(const struct log *log, uint32_t *found, uint64_t *words) {
    uint64_t links = 0;
    for (uint64_t i = 0; i < log->finds; i++) {
        const uint64_t count = find_key(log, i % log->chains, found);
        for (uint64_t k = 0; k < count; k++) {
            words[k] = atomic_load(&log->tickets[found[k] * ticket_words(log)]);
        }
        links += count;
    }
    return links;
}

/* Takes memory, and touches it, so that no page is new while time is taken. */
static void *touched(uint64_t count, size_t size) {
    void *memory = malloc((size_t)count * size);
    if (memory != NULL) {
        memset(memory, 0, (size_t)count * size);
    }
    return memory;
}

static bool open_log(struct log *log) {
    log->tickets = touched(log->records * ticket_words(log) + 1, sizeof *log->tickets);
    log->heads = touched(log->lanes * log->chains * log->writers + 1, sizeof *log->heads);
    log->rows = touched(log->records * ROW_WORDS + 1, sizeof *log->rows);
    if (log->tickets == NULL || log->heads == NULL || log->rows == NULL) {
        return false;
    }
    uint64_t state = 1; /* Knuth's linear congruential generator */
    for (uint64_t i = 0; i < log->records * ROW_WORDS; i++) {
        state = state * UINT64_C(6364136223846793005) + UINT64_C(1442695040888963407);
        log->rows[i] = state >> 32;
    }
    return true;
}

static void close_log(struct log *log) {
    free((void *)log->tickets);
    free((void *)log->heads);
    free(log->rows);
}

static double seconds(void) {
    struct timespec now;
    clock_gettime(CLOCK_MONOTONIC, &now);
    return (double)now.tv_sec + (double)now.tv_nsec * 1e-9;
}

/* The number that the text spells, if it is one from `least` to `most`. */
static bool number_of(const char *text, uint64_t least, uint64_t most, uint64_t *number) {
    char *end = NULL;
    errno = 0;
    const unsigned long long found = strtoull(text, &end, 10);
    if (errno != 0 || *text < '0' || *text > '9' || *end != '\0' || found < least || found > most) {
        return false;
    }
    *number = found;
    return true;
}

static bool read_words(int count, char **words, struct log *log) {
    for (int i = 1; i + 1 < count; i += 2) {
        bool read = false;
        if (strcmp(words[i], "--records") == 0) {
            read = number_of(words[i + 1], 1, UINT64_C(1) << 24, &log->records);
        } else if (strcmp(words[i], "--lanes") == 0) {
            read = number_of(words[i + 1], 0, MAX_LANES, &log->lanes);
        } else if (strcmp(words[i], "--writers") == 0) {
            read = number_of(words[i + 1], 1, MAX_WRITERS, &log->writers);
        } else if (strcmp(words[i], "--batch") == 0) {
            read = number_of(words[i + 1], 1, UINT64_C(1) << 24, &log->batch);
        } else if (strcmp(words[i], "--chains") == 0) {
            read = number_of(words[i + 1], 1, 65536, &log->chains);
        } else if (strcmp(words[i], "--finds") == 0) {
            read = number_of(words[i + 1], 1, UINT64_C(1) << 24, &log->finds);
        }
        if (!read) {
            return false;
        }
    }
    return count % 2 == 1;
}

/* Times the finding of keys, if it is asked for. */
static bool time_finds(const struct log *log) {
    if (log->finds == 0 || log->lanes == 0) {
        return true;
    }
    uint32_t *found = touched(log->records, sizeof *found);
    uint64_t *words = touched(log->records, sizeof *words);
    const bool has_memory = found != NULL && words != NULL;
    if (has_memory) {
        const double begun = seconds();
        const uint64_t links = find_keys(log, found, words);
        printf("finds %llu links %llu seconds %.6f\n", (unsigned long long)log->finds, (unsigned long long)links,
               seconds() - begun);
    }
    free(found);
    free(words);
    return has_memory;
}

int main(int count, char **words) {
    struct log log = {.records = 65536, .lanes = 4, .writers = 1, .batch = 4096, .chains = 256};
    if (!read_words(count, words, &log)) {
        fputs(
            "usage: plain_twin [--records N] [--lanes 0..16] [--writers 1..15] [--batch B] [--chains C] [--finds F]\n",
            stderr);
        return 2;
    }
    if (!open_log(&log)) {
        fputs("plain_twin: out of memory\n", stderr);
        close_log(&log);
        return 2;
    }
    const double begun = seconds();
    int fault = 0;
    for (uint64_t from = 0; from < log.records && fault == 0; from += log.batch) {
        const uint64_t left = log.records - from;
        fault = write_batch(&log, from, from + (left < log.batch ? left : log.batch));
    }
    const double taken = seconds() - begun;
    const bool whole = fault == 0 && is_whole(&log) && time_finds(&log);
    printf("records %llu lanes %llu writers %llu batch %llu seconds %.6f\n", (unsigned long long)log.records,
           (unsigned long long)log.lanes, (unsigned long long)log.writers, (unsigned long long)log.batch, taken);
    close_log(&log);
    if (!whole) {
        fputs("plain_twin: the log is not whole\n", stderr);
    }
    return whole ? 0 : 1;
}
