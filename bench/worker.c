#define _POSIX_C_SOURCE 200809L
#include "worker.h"

#include <stdlib.h>
#include <string.h>
#include <time.h>
#include <unistd.h>

#define ROUND 10e6 /* nanoseconds */

struct request {
    enum kind kind;
    size_t size;
    int timed;
    unsigned long times;
    uint8_t packet[MOST_BYTES];
};

struct reply {
    unsigned long times;
    double nanoseconds;
    size_t length;
    uint8_t answer[MOST_BYTES];
};

/* ---- the worker's end */

/* The processor's time of this process: other programs on the machine then count for little. */
static double now(void) {
    struct timespec t;
    clock_gettime(CLOCK_PROCESS_CPUTIME_ID, &t);
    return 1e9 * (double)t.tv_sec + (double)t.tv_nsec;
}

/* Reads or writes all of it; 0 at the end of the pipe. */
static int whole(ssize_t (*move)(int, void *, size_t), int fd, void *bytes, size_t len) {
    for (size_t done = 0; done < len;) {
        ssize_t n = move(fd, (char *)bytes + done, len - done);
        if (n <= 0) return 0;
        done += (size_t)n;
    }
    return 1;
}

static ssize_t put(int fd, void *bytes, size_t len) { return write(fd, bytes, len); }

static double timed(const struct side *side, unsigned long times, uint8_t *answer) {
    volatile uint8_t seen = 0;
    double start = now();
    for (unsigned long i = 0; i < times; i++) {
        side->run(answer);
        seen ^= answer[0];
    }
    return now() - start;
}

static void serve(const struct side *side, const struct request *asked, struct reply *told) {
    if (!side->prepare(asked->kind, asked->size, asked->packet)) {
        told->length = 0;
        return;
    }
    told->length = side->run(told->answer);
    if (!asked->timed) return;
    told->times = asked->times ? asked->times : 1;
    told->nanoseconds = timed(side, told->times, told->answer);
    while (asked->times == 0 && told->nanoseconds < ROUND) {
        told->times *= 2;
        told->nanoseconds = timed(side, told->times, told->answer);
    }
}

int be_worker(const char *name) {
    static const struct side *const sides[] = {&ours, &plain, &openssl};
    static struct request asked;
    static struct reply told;
    for (size_t i = 0; i < sizeof sides / sizeof *sides; i++) {
        if (strcmp(name, sides[i]->name) != 0) continue;
        while (whole(read, STDIN_FILENO, &asked, sizeof asked)) {
            serve(sides[i], &asked, &told);
            if (!whole(put, STDOUT_FILENO, &told, sizeof told)) return 1;
        }
        return 0;
    }
    give_up("no such side");
    return 1;
}

/* ---- the asker's end */

struct worker start_worker(const char *program, const char *side, int plain) {
    int down[2], up[2];
    if (pipe(down) != 0 || pipe(up) != 0) give_up("no pipe");
    pid_t child = fork();
    if (child < 0) give_up("no process");
    if (child == 0) {
        dup2(down[0], STDIN_FILENO);
        dup2(up[1], STDOUT_FILENO);
        close(down[0]), close(down[1]), close(up[0]), close(up[1]);
        unsetenv("OPENSSL_ia32cap"), unsetenv("OPENSSL_armcap");
        if (plain) setenv("OPENSSL_ia32cap", "0:0", 1), setenv("OPENSSL_armcap", "0", 1);
        execl(program, program, "--worker", side, (char *)NULL);
        give_up("a worker did not start");
    }
    close(down[0]), close(up[1]);
    return (struct worker){down[1], up[0]};
}

static const struct reply *asked_of(struct worker w, struct request *r, const uint8_t *packet) {
    static struct reply told;
    memcpy(r->packet, packet, MOST_BYTES);
    if (!whole(put, w.ask, r, sizeof *r) || !whole(read, w.hear, &told, sizeof told)) give_up("a worker ended");
    return &told;
}

size_t answer_of(struct worker w, enum kind kind, size_t size, const uint8_t *packet, uint8_t *answer) {
    struct request r = {.kind = kind, .size = size};
    const struct reply *told = asked_of(w, &r, packet);
    memcpy(answer, told->answer, told->length);
    return told->length;
}

double time_of(struct worker w, enum kind kind, size_t size, const uint8_t *packet, unsigned long *times) {
    struct request r = {.kind = kind, .size = size, .timed = 1, .times = *times};
    const struct reply *told = asked_of(w, &r, packet);
    *times = told->times;
    return told->nanoseconds / (double)told->times;
}
