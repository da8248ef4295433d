/* chase.c: what a link of a chain costs where nothing is checked.
**
**   cc -O2 bench/chase.c -o chase && ./chase [WORDS]
**
** Of 65,536 records of WORDS words (27, as in a log of the usual setup) about every sixteenth names the one before it
** in its chain, as the records of one of sixteen senders do in a log. The chain is followed 20,000 times from its end,
** and the time for each link is printed. `find` of the library cannot be faster while it follows such links.
*/
#include <stdint.h>
#include <stdio.h>
#include <stdlib.h>
#include <time.h>

enum { RECORDS = 65536, SENDERS = 16, ROUNDS = 20000, LINK = 3 };

static double seconds(void) {
    struct timespec now;
    timespec_get(&now, TIME_UTC);
    return (double)now.tv_sec + (double)now.tv_nsec * 1e-9;
}

/* Draws which records the chain has, and answers how many. */
static uint64_t draw(uint64_t *words, size_t width, uint64_t *last) {
    uint64_t links = 0, seed = 1;
    for (uint64_t k = 1; k < RECORDS; k++) {
        seed = seed * 6364136223846793005u + 1442695040888963407u;
        if ((seed >> 33) % SENDERS == 0) {
            words[k * width + LINK] = *last;
            *last = k;
            links++;
        }
    }
    return links;
}

int main(int count, char **given) {
    const long width = count > 1 ? atol(given[1]) : 27;
    if (count > 2 || width <= LINK || width > 1024) {
        fputs("usage: chase [WORDS], 4 to 1024\n", stderr);
        return 2;
    }
    uint64_t *words = calloc((size_t)width * RECORDS, sizeof *words);
    if (!words) {
        fputs("chase: out of memory\n", stderr);
        return 1;
    }
    uint64_t last = 0, sum = 0;
    const uint64_t links = draw(words, (size_t)width, &last);
    const double began = seconds();
    for (int round = 0; round < ROUNDS; round++) {
        for (uint64_t k = last; k; k = words[k * (uint64_t)width + LINK]) {
            sum += k;
        }
    }
    const double each = (seconds() - began) / ROUNDS / (double)links;
    printf("%ld words, %llu links: %.1f nanoseconds a link\n", width, (unsigned long long)links, each * 1e9);
    free(words);
    return sum == 0;
}
