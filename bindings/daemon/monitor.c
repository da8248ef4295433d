/* confluo-monitor: an example of the library's calls in a program of two threads. Operators run `confluo watch`, which loses no packet
 * between logs, answers over a window of time, and has units, JSON and a proved text.
 *
 *     confluo-monitor -s SETUP (-i DEVICE | -r FILE) [-c CAPACITY] [-m NODES] [-n SECONDS] [FILTER..]
 *
 * One thread captures and appends, and the main one asks. It prints the report of the log each SECONDS, and a last time when the log is
 * full; then both go on with a new log, and what comes meanwhile waits in the buffer of the capture. It ends on SIGINT and SIGTERM, and
 * at the end of FILE. FILTER is as for tcpdump. The status is 0; 1 if the capture ends by an error, with pcap's words; 2 if it cannot
 * begin, in particular if the setup does not read the capture's link. */
#define _GNU_SOURCE
#include "confluo.h"
#include <err.h>
#include <pcap/pcap.h>
#include <pthread.h>
#include <signal.h>
#include <stdatomic.h>
#include <stdio.h>
#include <stdlib.h>
#include <string.h>
#include <time.h>
#include <unistd.h>

static const char *setup_name, *device, *file;
static confluo_sizes sizes = {.capacity = 65536, .writers = 1, .nodes = 16384};
static uint32_t seconds;
static char setup[65537];
static size_t setup_length;
static pcap_t *source;
static uint32_t link_type;
static pthread_t main_thread;
static atomic_bool stopped;
static uint64_t frames, appended, lost;
static const char *failure; /* pcap's words, if the capture ended by an error */

/* What the threads tell each other, under the lock. The writer is the capture's while `state` is RUNNING. */
static pthread_mutex_t lock = PTHREAD_MUTEX_INITIALIZER;
static pthread_cond_t changed = PTHREAD_COND_INITIALIZER;
static enum { RUNNING, LEFT, ENDED } state;
static confluo_writer *writer;

static void must(uint32_t code, const char *call) {
    if (code != CONFLUO_OK) errx(2, "%s: %s", call, confluo_error_name(code));
}

static void open_log(confluo_log **log, confluo_reader **reader) {
    confluo_fault fault;
    const uint32_t code = confluo_open(log, setup, setup_length, &sizes, &fault);
    if (code == CONFLUO_SETUP) errx(2, "%s, line %u: %s", setup_name, fault.line, confluo_fault_rule(fault.code));
    must(code, "open");
    must(confluo_take_writer(*log, &writer, NULL), "writer");
    must(confluo_take_reader(*log, reader), "reader");
}

/* Lets the writer go, and wakes the main thread. Unless the capture has ended, waits for another writer. */
static void leave_log(int next) {
    confluo_free_writer(writer);
    pthread_mutex_lock(&lock);
    state = next;
    pthread_kill(main_thread, SIGUSR1);
    while (state == LEFT) pthread_cond_wait(&changed, &lock);
    pthread_mutex_unlock(&lock);
}

static void *capture_frames(void *given) {
    struct pcap_pkthdr *header;
    const u_char *bytes;
    int found = 0;
    while (!stopped && (found = pcap_next_ex(source, &header, &bytes)) >= 0) {
        if (found == 0) continue; /* nothing came for a while */
        const uint64_t ns = (uint64_t)header->ts.tv_sec * 1000000000 + (uint64_t)header->ts.tv_usec;
        const confluo_capture capture = {.ns = ns, .number = (uint32_t)frames++, .length = header->len, .link = link_type};
        uint32_t code = confluo_append(writer, &capture, bytes, header->caplen, NULL);
        if (code == CONFLUO_FULL || code == CONFLUO_NODES) {
            leave_log(LEFT);
            code = confluo_append(writer, &capture, bytes, header->caplen, NULL);
        }
        code == CONFLUO_OK ? appended++ : lost++;
    }
    if (found == PCAP_ERROR && !stopped) failure = pcap_geterr(source);
    leave_log(ENDED);
    return given;
}

static void report(confluo_reader *reader) {
    char *text = NULL;
    must(confluo_make_report(reader, &text, NULL), "report");
    fputs(text, stdout), fflush(stdout);
    free(text);
}

/* Waits for a signal: at most a second, and less if the capture is to stop. */
static void rest(const sigset_t *signals) {
    const struct timespec second = {1, 0}, moment = {0, 50000000};
    const int came = sigtimedwait(signals, NULL, stopped ? &moment : &second);
    if (came == SIGINT || came == SIGTERM) stopped = true;
}

static void ask(const sigset_t *signals) {
    pthread_t capturer;
    confluo_log *log = NULL;
    confluo_reader *reader = NULL;
    pthread_mutex_lock(&lock);
    open_log(&log, &reader);
    pthread_mutex_unlock(&lock);
    const uint32_t code = confluo_reads_link(log, link_type);
    if (code == CONFLUO_FRAME) errx(2, "the schema of %s does not read link %u of the capture", setup_name, link_type);
    must(code, setup_name);
    pthread_create(&capturer, NULL, capture_frames, NULL);
    for (time_t due = time(NULL) + seconds;;) {
        uint32_t tail;
        rest(signals);
        if (stopped) pcap_breakloop(source), pthread_kill(capturer, SIGUSR2); /* ends a read that waits */
        pthread_mutex_lock(&lock);
        const bool has_ended = state == ENDED;
        if (state != RUNNING) {
            confluo_free_reader(reader), reader = NULL;
            must(confluo_close(log, &reader), "close");
            report(reader);
            confluo_free_reader(reader), confluo_free_log(log), reader = NULL, log = NULL;
            if (!has_ended) open_log(&log, &reader), state = RUNNING;
            pthread_cond_signal(&changed);
        }
        pthread_mutex_unlock(&lock);
        if (has_ended) break;
        if (!seconds || time(NULL) < due) continue;
        due += seconds;
        must(confluo_tail(reader, &tail), "tail");
        report(reader);
    }
    pthread_join(capturer, NULL);
}

static void open_source(const char *filter) {
    char error[PCAP_ERRBUF_SIZE] = "";
    struct bpf_program program;
    source = file ? pcap_open_offline_with_tstamp_precision(file, PCAP_TSTAMP_PRECISION_NANO, error) : pcap_create(device, error);
    if (!source) errx(2, "%s", error);
    if (device) {
        pcap_set_snaplen(source, 256), pcap_set_promisc(source, 1), pcap_set_timeout(source, 50);
        pcap_set_buffer_size(source, 16 << 20), pcap_set_tstamp_precision(source, PCAP_TSTAMP_PRECISION_NANO);
        const int status = pcap_activate(source);
        if (status) warnx("%s: %s", device, *pcap_geterr(source) ? pcap_geterr(source) : pcap_statustostr(status));
        if (status < 0) exit(2);
    }
    link_type = pcap_datalink(source) == DLT_RAW ? 101 : (uint32_t)pcap_datalink(source); /* raw IP has another number in files */
    if (!*filter) return;
    if (pcap_compile(source, &program, filter, 1, PCAP_NETMASK_UNKNOWN) || pcap_setfilter(source, &program))
        errx(2, "%s: %s", filter, pcap_geterr(source));
    pcap_freecode(&program);
}

static uint32_t number_of(const char *word) {
    char *end;
    const unsigned long number = strtoul(word, &end, 10);
    if (*word < '0' || *word > '9' || *end || number > UINT32_MAX) errx(2, "%s is not a number of 32 bits", word);
    return (uint32_t)number;
}

static void read_words(int count, char **words, char *filter, size_t room) {
    bool is_right = true;
    for (int o; (o = getopt(count, words, "+s:i:r:c:m:n:")) != -1;) {
        if (o == 's')
            setup_name = optarg;
        else if (o == 'i')
            device = optarg;
        else if (o == 'r')
            file = optarg;
        else if (o == 'c')
            sizes.capacity = number_of(optarg);
        else if (o == 'm')
            sizes.nodes = number_of(optarg);
        else if (o == 'n')
            seconds = number_of(optarg);
        else
            is_right = false;
    }
    if (!is_right || !setup_name || !device == !file)
        errx(2, "usage: confluo-monitor -s SETUP (-i DEVICE | -r FILE) [-c CAPACITY] [-m NODES] [-n SECONDS] [FILTER..]");
    for (; optind < count; optind++) {
        const size_t length = strlen(filter);
        if (snprintf(filter + length, room - length, "%s ", words[optind]) >= (int)(room - length)) errx(2, "the filter is too long");
    }
    FILE *held = fopen(setup_name, "rb");
    if (!held) err(2, "%s", setup_name);
    setup_length = fread(setup, 1, sizeof setup, held);
    fclose(held);
}

static void no_more(int number) { (void)number; }

int main(int count, char **words) {
    char filter[4096] = "";
    struct pcap_stat stat = {.ps_drop = 0};
    sigset_t signals;
    read_words(count, words, filter, sizeof filter);
    open_source(filter);
    main_thread = pthread_self();
    sigemptyset(&signals), sigaddset(&signals, SIGINT), sigaddset(&signals, SIGTERM), sigaddset(&signals, SIGUSR1);
    pthread_sigmask(SIG_BLOCK, &signals, NULL);
    sigaction(SIGUSR2, &(struct sigaction){.sa_handler = no_more}, NULL);
    ask(&signals);
    if (device) pcap_stats(source, &stat);
    fprintf(stderr, "frames %llu appended %llu lost %llu dropped %u\n", (unsigned long long)frames, (unsigned long long)appended,
            (unsigned long long)lost, stat.ps_drop);
    if (failure) warnx("%s: %s", file ? file : device, failure);
    pcap_close(source);
    return failure ? 1 : 0;
}
