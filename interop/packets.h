/*
 * Datagrams as values, and the library's calls over them: one step between driftwicket.h and the checks.
 */
#ifndef INTEROP_PACKETS_H
#define INTEROP_PACKETS_H

#include "driftwicket.h"

#include <stddef.h>
#include <stdint.h>

/* Senders, as dw_initial_keys takes them. */
enum sender { CLIENT = 0, SERVER = 1, SENDERS };

/* The names of levels and senders, as DW_LEVEL_ and enum sender count them. */
enum { LEVELS = 3 };
extern const char *const level_names[LEVELS];
extern const char *const sender_names[SENDERS];

struct bytes {
    uint8_t at[DW_LIMIT];
    size_t length;
};

/* What stands in a packet with a long header before its payload. An Initial has a token, and a Retry has, but no level. */
struct header {
    uint32_t version;
    uint32_t level;
    struct bytes destination;
    struct bytes source;
    struct bytes token;
    uint64_t number;
    size_t number_length;
    uint32_t any_acknowledged; /* whether anything is, and the greatest number that is */
    uint64_t acknowledged;
};

/* What dw_open reports, with the plain header and payload that it wrote. */
struct opened {
    uint64_t number;
    uint64_t number_length;
    uint64_t header_length;
    uint64_t payload_length;
    uint64_t used;
    uint8_t plain[DW_LIMIT];
};

/* A copy of `length` bytes, at most DW_LIMIT. */
struct bytes bytes_of(const void *at, size_t length);

/* `length` bytes that count on from `first`: IDs and tokens that can be told apart. */
struct bytes pattern(uint8_t first, size_t length);

int same(const void *one, size_t one_length, const void *other, size_t other_length);
int same_bytes(const struct bytes *one, const struct bytes *other);

/* Appends; what does not fit in DW_LIMIT ends the program. */
void append(struct bytes *whole, const void *at, size_t length);

/* A copy of the datagram with one bit of byte `place` turned over: another bit from byte to byte. */
struct bytes damaged(const struct bytes *datagram, size_t place);

/* The payload within what was opened. */
const uint8_t *payload_of(const struct opened *opened);

/* Whether the payload starts with a CRYPTO frame, from offset 0 on, whose message is a ClientHello. */
int starts_with_client_hello(const struct opened *opened);

/* Whether this text stands somewhere in the payload. */
int payload_holds(const struct opened *opened, const char *text);

/* The library's answers: 0 or the refusal. `opened` is meaningful where the answer is 0. */
uint32_t open_packet(const uint8_t keys[DW_KEYS_SIZE], uint64_t *expected, const struct bytes *datagram,
                     struct opened *opened);
/* Sealing is dw_seal for a header of the Initial level and dw_seal_long for others. */
uint32_t seal_packet(const uint8_t keys[DW_KEYS_SIZE], const struct header *header, const struct bytes *payload,
                     struct bytes *datagram);
/* The number stays covered by header protection, and a Retry has none: all that is said of it is 0. */
uint32_t read_header(const struct bytes *datagram, struct header *header);
uint32_t check_retry(const struct bytes *original, const struct bytes *datagram, struct header *header);
uint32_t make_retry(const struct bytes *original, const struct header *header, uint64_t low_bits,
                    struct bytes *datagram);

#endif
