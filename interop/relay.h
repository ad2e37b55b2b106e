/*
 * A relay between a client and a server of ngtcp2. It takes their datagrams apart, opens each packet with a long header
 * under the keys of its level, seals it anew and puts the datagram together again. What has a short header passes as it is.
 */
#ifndef INTEROP_RELAY_H
#define INTEROP_RELAY_H

#include "knock.h"

#include <stdio.h>

enum { MOST_PACKETS = 4 };

/* A packet with a long header on its way. */
struct carried {
    struct header header;
    struct bytes written;  /* as ngtcp2 wrote it ... */
    struct opened opened;  /* ... and what the library opened in it */
    struct bytes sealed;   /* as the library sealed it anew ... */
    struct opened again;   /* ... and what it opened in that */
};

/* A datagram taken apart. */
struct parts {
    struct carried packets[MOST_PACKETS];
    size_t count;
    struct bytes rest; /* a packet with a short header, to the datagram's end, or nothing */
};

/* What the library did with the packets of one level and sender. */
struct tally {
    unsigned seen;
    unsigned read;    /* their headers as ngtcp2 reads them */
    unsigned carried; /* opened, and sealed anew with the same number and payload */
    unsigned guarded; /* refused under other keys, as they must be */
};

struct relay {
    uint32_t version;
    FILE *record;
    char written[48]; /* names in the record: as ngtcp2 wrote ... */
    char sealed[48];  /* ... and as the library sealed */
    uint8_t keys[LEVELS][SENDERS][DW_KEYS_SIZE];
    int known[LEVELS][SENDERS];
    uint64_t expected[LEVELS][SENDERS];
    struct tally tallies[LEVELS][SENDERS];
    unsigned seen; /* packets with long headers, of all levels and senders */
    unsigned lost; /* datagrams that were not taken apart to the end, and passed as they came */
};

struct relay relay_of(uint32_t version, const char *kind, FILE *record);

/* Makes Initial keys by the client's destination ID; answers whether it succeeded. */
int relay_knows(struct relay *relay, const struct knock *knock);

/* Makes the keys of the other levels by what TLS has logged at this peer so far. */
void relay_learns(struct relay *relay, const struct peer *peer);

/* Takes a datagram apart and answers what is handed on for it: put together anew, or as it came where `parts` is empty. */
struct bytes relay_pass(struct relay *relay, enum sender sender, const struct bytes *datagram, struct parts *parts);

/* Notes a Retry of the library's, which has nothing to open. */
void relay_note_retry(struct relay *relay, const struct bytes *retry);

#endif
