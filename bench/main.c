/* Times our library beside OpenSSL's portable and hardware paths, and prints the tables of docs/BENCH.md.
   bench [ROUNDS]: every piece of work by every side in turn, ROUNDS times (45 where none is given), and the median of the rounds. */
#define _POSIX_C_SOURCE 200809L
#include "worker.h"

#include <signal.h>
#include <stdio.h>
#include <stdlib.h>
#include <string.h>

enum { OURS, PLAIN, PORTABLE, HARDWARE, SIDES };
#define MOST_ROUNDS 999

static const size_t sizes[] = {64, 256, 512, 1200, 1500};
#define SIZES (sizeof sizes / sizeof *sizes)

struct task {
    enum kind kind;
    size_t size;
    unsigned long times[SIDES];
    double rounds[SIDES][MOST_ROUNDS]; /* nanoseconds */
    double median[SIDES];
};

static struct worker workers[SIDES];
static struct task tasks[64];
static size_t count;
static int rounds = 45;
static uint8_t packets[SIZES][MOST_BYTES];

static void add(enum kind kind, size_t size) { tasks[count++] = (struct task){.kind = kind, .size = size}; }

static struct task *find(enum kind kind, size_t size) {
    for (size_t i = 0; i < count; i++)
        if (tasks[i].kind == kind && tasks[i].size == size) return &tasks[i];
    give_up("no such task");
    return NULL;
}

static const uint8_t *packet_of(size_t size) {
    for (size_t i = 0; i < SIZES; i++)
        if (sizes[i] == size) return packets[i];
    return packets[0];
}

static int does(int side, enum kind kind) { return side != PLAIN || kind == BLOCKS || kind == GHASH; }

/* Every side gives the same bytes, or nothing is timed. */
static void compare(const struct task *t) {
    static uint8_t first[MOST_BYTES], other[MOST_BYTES];
    size_t length = answer_of(workers[OURS], t->kind, t->size, packet_of(t->size), first);
    for (int side = 1; side < SIDES; side++) {
        if (!does(side, t->kind)) continue;
        size_t n = answer_of(workers[side], t->kind, t->size, packet_of(t->size), other);
        if (n == 0 || n != length || memcmp(first, other, n) != 0) {
            fprintf(stderr, "bench: work %d over %zu bytes: side %d gives other bytes\n", (int)t->kind, t->size, side);
            exit(1);
        }
    }
}

static int ascending(const void *a, const void *b) {
    double x = *(const double *)a, y = *(const double *)b;
    return (x > y) - (x < y);
}

static void measure(void) {
    for (int r = 0; r < rounds; r++)
        for (size_t i = 0; i < count; i++)
            for (int side = 0; side < SIDES; side++)
                if (does(side, tasks[i].kind))
                    tasks[i].rounds[side][r] = time_of(workers[side], tasks[i].kind, tasks[i].size, packet_of(tasks[i].size), &tasks[i].times[side]);
    for (size_t i = 0; i < count; i++)
        for (int side = 0; side < SIDES; side++) {
            qsort(tasks[i].rounds[side], (size_t)rounds, sizeof(double), ascending);
            tasks[i].median[side] = tasks[i].rounds[side][rounds / 2];
        }
}

/* ---- tables */

static double rate(const struct task *t, int side) { return 1000 * (double)t->size / t->median[side]; } /* MB/s */

/* How often one side does the work while another does it once. */
static double share(const struct task *t, int side, int other) { return t->median[other] / t->median[side]; }

static void inner_row(const char *words, enum kind kind, size_t size, int side) {
    const struct task *t = find(kind, size);
    printf("| %s | %.2f | %.0f | %.0f | %.0f | %.2f | %.3f |\n", words, t->median[side] / 1000, rate(t, side), rate(t, PORTABLE), rate(t, HARDWARE),
           share(t, side, PORTABLE), share(t, side, HARDWARE));
}

static void quick_row(const char *words, enum kind kind, size_t size) {
    const struct task *t = find(kind, size);
    printf("| %s | %.2f | %.2f | %.1f |\n", words, t->median[OURS] / 1000, t->median[PLAIN] / 1000, share(t, OURS, PLAIN));
}

static void inner_parts(void) {
    printf("### Inner parts\n\n");
    printf("| work | ours, µs | ours, MB/s | portable, MB/s | hardware, MB/s | ours to portable | ours to hardware |\n|---|---|---|---|---|---|---|\n");
    inner_row("AES-128 on words, 1,200 bytes in counter mode, two blocks at a time", COUNTER, 1200, OURS);
    inner_row("AES-128 on words, 1,200 bytes as blocks, one at a time", BLOCKS, 1200, OURS);
    inner_row("AES-128 on bytes, 1,200 bytes as blocks", BLOCKS, 1200, PLAIN);
    inner_row("GHASH, 1,200 bytes, table made afresh", GHASH, 1200, OURS);
    inner_row("GHASH, 64 bytes, table made afresh", GHASH, 64, OURS);
    inner_row("GCM, 1,200 bytes, key expanded once", GCM_KEPT, 1200, OURS);
    inner_row("GCM, 1,200 bytes, key expanded each time", GCM_FRESH, 1200, OURS);
    printf("\n| the quick way and the plain one | quick, µs | plain, µs | quick to plain |\n|---|---|---|---|\n");
    quick_row("AES-128 of 1,200 bytes: on words; on bytes", BLOCKS, 1200);
    quick_row("GHASH of 1,200 bytes: by the table; bit by bit", GHASH, 1200);
    quick_row("GHASH of 64 bytes: by the table; bit by bit", GHASH, 64);
}

static void packet_row(const char *words, enum kind kind) {
    const struct task *t = find(kind, 1200);
    printf("| %s", words);
    for (int side = 0; side < SIDES; side++)
        if (side != PLAIN) printf(" | %.0f; %.0f", 1e9 / t->median[side], rate(t, side));
    printf(" | %.2f | %.3f |\n", share(t, OURS, PORTABLE), share(t, OURS, HARDWARE));
}

static void packets_of_1200(void) {
    const struct task *keys = find(KEYS, 0);
    printf("\n### Initial packets of 1,200 bytes\n\n");
    printf("Packets a second; MB/s.\n\n");
    printf("| work | ours | OpenSSL, portable | OpenSSL, hardware | ours to portable | ours to hardware |\n|---|---|---|---|---|---|\n");
    packet_row("seal, keys made once", SEAL_KEPT);
    packet_row("seal, keys made afresh", SEAL_FRESH);
    packet_row("open, keys made once", OPEN_KEPT);
    packet_row("open, keys made afresh", OPEN_FRESH);
    printf("\nOne side's Initial keys alone: ours %.2f µs, OpenSSL portable %.2f, hardware %.2f.\n", keys->median[OURS] / 1000, keys->median[PORTABLE] / 1000,
           keys->median[HARDWARE] / 1000);
}

static void growth(void) {
    static const enum kind kinds[] = {SEAL_KEPT, OPEN_KEPT, SEAL_FRESH, OPEN_FRESH};
    static const char *const words[] = {"seal, keys made once", "open, keys made once", "seal, keys made afresh", "open, keys made afresh"};
    printf("\n### How the cost grows\n\nMicroseconds for a packet: ours; OpenSSL portable; OpenSSL hardware.\n\n| bytes");
    for (int k = 0; k < 4; k++) printf(" | %s", words[k]);
    printf(" |\n|---|---|---|---|---|\n");
    for (size_t i = 0; i < SIZES; i++) {
        printf("| %zu", sizes[i]);
        for (int k = 0; k < 4; k++) {
            const struct task *t = find(kinds[k], sizes[i]);
            printf(" | %.2f; %.2f; %.2f", t->median[OURS] / 1000, t->median[PORTABLE] / 1000, t->median[HARDWARE] / 1000);
        }
        printf(" |\n");
    }
    printf("| a byte more, ns");
    for (int k = 0; k < 4; k++) {
        const struct task *least = find(kinds[k], sizes[0]), *most = find(kinds[k], sizes[SIZES - 1]);
        for (int side = 0; side < SIDES; side++)
            if (side != PLAIN) printf("%s%.2f", side == OURS ? " | " : "; ", (most->median[side] - least->median[side]) / (double)(most->size - least->size));
    }
    printf(" |\n");
}

/* How far the rounds lie apart: of each measurement, the middle half of its rounds against their median. */
static void spread(void) {
    double all[64 * SIDES], portable = find(GCM_KEPT, 1200)->median[PORTABLE], hardware = find(GCM_KEPT, 1200)->median[HARDWARE];
    size_t n = 0;
    for (size_t i = 0; i < count; i++)
        for (int side = 0; side < SIDES; side++)
            if (does(side, tasks[i].kind)) all[n++] = (tasks[i].rounds[side][rounds * 3 / 4] - tasks[i].rounds[side][rounds / 4]) / tasks[i].median[side];
    qsort(all, n, sizeof(double), ascending);
    printf("\nThe median of %d rounds of at least 10 ms. The middle half of the rounds lies within %.1f %% of its median in half of the %zu measurements,\n"
           "and within %.1f %% in all.\n",
           rounds, 100 * all[n / 2], n, 100 * all[n - 1]);
    if (portable < 1.2 * hardware) printf("OpenSSL's two paths are equally fast here: this processor has no hardware path, or the portable one was not taken.\n");
}

int main(int argc, char **argv) {
    make_input();
    if (argc == 3 && strcmp(argv[1], "--worker") == 0) return be_worker(argv[2]);
    if (argc == 2) rounds = atoi(argv[1]);
    if (argc > 2 || rounds < 1 || rounds > MOST_ROUNDS) give_up("usage: bench [ROUNDS], 1 to 999");
    signal(SIGPIPE, SIG_IGN); /* a worker that has ended is told in words */
    workers[OURS] = start_worker(argv[0], "ours", 0);
    workers[PLAIN] = start_worker(argv[0], "plain", 0);
    workers[PORTABLE] = start_worker(argv[0], "openssl", 1);
    workers[HARDWARE] = start_worker(argv[0], "openssl", 0);
    add(BLOCKS, 1200), add(COUNTER, 1200), add(GHASH, 1200), add(GHASH, 64), add(GCM_KEPT, 1200), add(GCM_FRESH, 1200), add(KEYS, 0);
    for (size_t i = 0; i < SIZES; i++) {
        answer_of(workers[OURS], SEAL_KEPT, sizes[i], packets[i], packets[i]);
        for (enum kind k = SEAL_KEPT; k <= OPEN_FRESH; k++) add(k, sizes[i]);
    }
    for (size_t i = 0; i < count; i++) compare(&tasks[i]);
    measure();
    inner_parts();
    packets_of_1200();
    growth();
    spread();
    return 0;
}
