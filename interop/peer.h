/*
 * One end of a QUIC connection of ngtcp2 over GnuTLS, without sockets: datagrams are handed over as bytes.
 *
 * ngtcp2 and GnuTLS do everything here, packet protection included; nothing of driftwicket is used. Functions that answer
 * an int give 0 where they succeed and ngtcp2's or GnuTLS's own negative number where not.
 */
#ifndef INTEROP_PEER_H
#define INTEROP_PEER_H

#include <gnutls/gnutls.h>
#include <netinet/in.h>
#include <ngtcp2/ngtcp2.h>
#include <ngtcp2/ngtcp2_crypto.h>
#include <stddef.h>
#include <stdint.h>
#include <stdio.h>

/* The server's name in the ClientHello. */
#define PEER_SERVER_NAME "driftwicket.example"

/* The first bit of a packet: whether its header is long (RFC 9000 section 17). */
#define LONG_HEADER 0x80

/* The secrets that GnuTLS logs for packets with long headers, from a hash of 32 bytes. */
enum secret { EARLY_OF_CLIENT, HANDSHAKE_OF_CLIENT, HANDSHAKE_OF_SERVER, SECRETS };
#define PEER_SECRET_SIZE 32

/* How much early data a server takes. */
#define PEER_EARLY_SIZE 4096

/* A peer must stay where it was made: GnuTLS and ngtcp2 keep its address. */
struct peer {
    ngtcp2_conn *connection;
    ngtcp2_crypto_conn_ref reference;
    gnutls_session_t session;
    gnutls_certificate_credentials_t credentials;
    struct sockaddr_in own_address;
    struct sockaddr_in other_address;
    ngtcp2_path path;
    unsigned initial_crypto; /* bytes of CRYPTO frames that came in Initials */
    unsigned retries;        /* Retry packets that were accepted */
    int logged[SECRETS];     /* which secrets GnuTLS has logged */
    uint8_t secrets[SECRETS][PEER_SECRET_SIZE];
    int64_t stream; /* of a client that resumes: where its early data goes, and what of it isn't sent yet */
    const uint8_t *unsent;
    size_t unsent_length;
    uint8_t early[PEER_EARLY_SIZE]; /* of a server: the early data that came */
    size_t early_length;
};

/* What a client keeps of a connection, to resume by (RFC 9001 section 4.6.1 and RFC 9000 section 7.4.1). */
struct kept {
    gnutls_datum_t session;
    ngtcp2_transport_params parameters;
};

/* What a server is told about the Initial that it is made for. */
struct first_initial {
    const ngtcp2_cid *client;   /* the client's Source Connection ID */
    const ngtcp2_cid *original; /* the Destination Connection ID of the client's very first Initial */
    const ngtcp2_cid *retry;    /* the Source Connection ID of the Retry, or NULL where there was none */
};

/* Where the logged secrets go as well, in the form that Wireshark reads; nowhere at the start. */
extern FILE *peer_key_log;

/*
 * How many packets with long headers ngtcp2 has decrypted, tag and all, and the number length of the last of them, which
 * it found under the header protection. Of every connection: ngtcp2's callback does not say of which.
 */
extern unsigned peer_decrypted;
extern size_t peer_number_length;

/*
 * Whether a peer clears the fixed bit of its packets, as RFC 9287 lets it once the other has announced that it may.
 * ngtcp2 always announces it and draws lots by its `rand` callback; here the lot is chosen. 0 at the start: the bit stays.
 */
extern int peer_clears_fixed_bit;

/* A client that will write its first Initial with these IDs and this token (of length 0 for none). */
int peer_client(struct peer *peer, uint32_t version, const ngtcp2_cid *destination, const ngtcp2_cid *source,
                const uint8_t *token, size_t token_length);

/* A server under the ID `own`, with a certificate that it has signed itself. */
int peer_server(struct peer *peer, uint32_t version, const ngtcp2_cid *own, const struct first_initial *first);

/* Keeps what the client has of its server, which must have sent a ticket. peer_forget frees it. */
int peer_keep(struct peer *client, struct kept *kept);
void peer_forget(struct kept *kept);

/* Lets a client that has written nothing yet resume, and send this data early; the data must stay where it is. */
int peer_resume(struct peer *client, const struct kept *kept, const uint8_t *data, size_t length);

/* Writes the next datagram and answers its length: 0 where there is nothing to send or an error came up. */
size_t peer_write(struct peer *peer, uint8_t *datagram, size_t room);

/* Hands a datagram to the peer and answers what ngtcp2 said of it. A dropped packet is no error: it answers 0. */
int peer_read(struct peer *peer, const uint8_t *datagram, size_t length);

void peer_end(struct peer *peer);

#endif
