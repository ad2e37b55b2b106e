/* The input of every side. */
#include "work.h"

#include <stdio.h>
#include <stdlib.h>
#include <string.h>

struct input input;

/* Bytes that follow no pattern (xorshift, 32 bits). */
static void fill(uint8_t *bytes, size_t len) {
    static uint32_t state = 2463534242u;
    for (size_t i = 0; i < len; i++) {
        state ^= state << 13;
        state ^= state >> 17;
        state ^= state << 5;
        bytes[i] = (uint8_t)state;
    }
}

void make_input(void) {
    fill(input.key, sizeof input.key);
    fill(input.nonce, sizeof input.nonce);
    fill(input.destination, sizeof input.destination);
    fill(input.bytes, sizeof input.bytes);
    input.number = 2;
}

void hashed_bytes(uint8_t *bytes, size_t size) {
    size_t bits = 8 * (size - 16);
    memcpy(bytes, input.bytes, size - 16);
    memset(bytes + size - 16, 0, 16);
    for (int i = 0; i < 8; i++) bytes[size - 16 + i] = (uint8_t)(bits >> (56 - 8 * i));
}

void give_up(const char *what) {
    fprintf(stderr, "bench: %s\n", what);
    exit(1);
}
