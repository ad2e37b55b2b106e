/* The work that is measured: each side does it on the same input and gives the same bytes. */
#ifndef WORK_H
#define WORK_H

#include <stddef.h>
#include <stdint.h>

enum kind {
    BLOCKS,     /* AES-128 of every block of `size` bytes, the key expanded once */
    COUNTER,    /* AES-128 in counter mode over `size` bytes, the key expanded once */
    GHASH,      /* GHASH over `size` bytes, with all that it makes of the hash key made afresh */
    GCM_KEPT,   /* GCM of `size` bytes, the key expanded once */
    GCM_FRESH,  /* the same, the key expanded each time */
    KEYS,       /* the client's Initial keys: `size` counts for nothing */
    SEAL_KEPT,  /* an Initial packet of `size` bytes is sealed, its keys made once */
    SEAL_FRESH, /* the same, its keys derived each time */
    OPEN_KEPT,  /* an Initial packet of `size` bytes is opened, its keys made once */
    OPEN_FRESH, /* the same, its keys derived each time */
};

/* What every side reads. */
#define MOST_BYTES 1600
#define HEADER_BYTES 22 /* of our Initial packets: an ID of 8 bytes, no source, no token, a number of 4 bytes */
#define TAG_BYTES 16

struct input {
    uint8_t key[16];
    uint8_t nonce[12];
    uint8_t destination[8];
    uint8_t bytes[MOST_BYTES];
    uint32_t number;
};
extern struct input input;

/* Fills the input, the same at each start. */
void make_input(void);

/* The bytes that GHASH takes: of the input, and as the last block the lengths of associated data that ends before it and of no text,
   since OpenSSL hashes that block itself. */
void hashed_bytes(uint8_t *bytes, size_t size);

/* A side: what it needs for a piece of work is made by `prepare`, which says 0 where it does not do that work; `run` does it once
   and gives the length of its answer. An opening reads `packet`, which `prepare` is given. */
struct side {
    const char *name;
    int (*prepare)(enum kind kind, size_t size, const uint8_t *packet);
    size_t (*run)(uint8_t *answer);
};
extern const struct side ours, plain, openssl;

/* Where something that cannot fail has failed. */
void give_up(const char *what);

#endif
