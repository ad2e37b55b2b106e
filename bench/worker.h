/* One side in a process of its own, asked over a pair of pipes. OpenSSL chooses its path when a process starts, so two of its
   processes stand beside ours and each is asked in its turn. */
#ifndef WORKER_H
#define WORKER_H

#include "work.h"

struct worker {
    int ask, hear;
};

/* Starts this program again as a worker for a side. `plain`: without the processor's own instructions for AES and GHASH. */
struct worker start_worker(const char *program, const char *side, int plain);

/* What a worker does: answers until its pipe is closed. */
int be_worker(const char *side);

/* The bytes that a side gives; the answer is its length, 0 where the side does not do that work. */
size_t answer_of(struct worker w, enum kind kind, size_t size, const uint8_t *packet, uint8_t *answer);

/* Nanoseconds that one piece of work takes, over `times` of them; 0 times are raised until they take 10 milliseconds. */
double time_of(struct worker w, enum kind kind, size_t size, const uint8_t *packet, unsigned long *times);

#endif
