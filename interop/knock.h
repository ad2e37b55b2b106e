/*
 * A client of ngtcp2 that knocks, and a server of ngtcp2 that could answer it.
 */
#ifndef INTEROP_KNOCK_H
#define INTEROP_KNOCK_H

#include "packets.h"
#include "peer.h"

/* What a client was told, and the datagram that it wrote last. */
struct knock {
    uint32_t version;
    struct bytes destination;
    struct bytes source;
    struct bytes token;
    struct bytes datagram;
};

ngtcp2_cid id_of(const struct bytes *id);

/* IDs and a token of these lengths, and no datagram yet. */
struct knock knock_of(uint32_t version, size_t destination, size_t source, size_t token);

/* The functions below answer whether they succeeded. */

/* Makes the client and lets it write its first datagram, which must have at least 1,200 bytes (RFC 9000 section 14.1). */
int knock_first(struct peer *client, struct knock *knock);

/* The same by a client that resumes and sends this data early (RFC 9001 section 4.6). */
int knock_resuming(struct peer *client, struct knock *knock, const struct kept *kept, const struct bytes *data);

/* Hands the client this Retry and lets it write again, which it does under the Retry's ID and with its token. */
int knock_again(struct peer *client, struct knock *knock, const struct header *retry_header,
                const struct bytes *retry);

/* A server for the client; `original` is the ID of its very first Initial, another one than now after a Retry. */
int answer_knock(struct peer *server, const struct knock *knock, const struct bytes *original);

/* The library's keys for what this sender writes. */
int keys_of(const struct knock *knock, enum sender sender, uint8_t keys[DW_KEYS_SIZE]);

#endif
