#include "peer.h"

#include "tls.h"

#include <arpa/inet.h>
#include <gnutls/crypto.h>
#include <string.h>

/* What ngtcp2 takes for no stream at all. */
#define NO_STREAM (-1)

unsigned peer_decrypted;
size_t peer_number_length;
int peer_clears_fixed_bit;

/* A clock that goes on by a millisecond whenever it is read, so that no run depends on the machine's speed. */
static ngtcp2_tstamp now(void)
{
    static ngtcp2_tstamp clock = NGTCP2_SECONDS;
    clock += NGTCP2_MILLISECONDS;
    return clock;
}

static ngtcp2_conn *connection_of(ngtcp2_crypto_conn_ref *reference)
{
    const struct peer *peer = reference->user_data;
    return peer->connection;
}

/* ngtcp2 takes these bytes for lots alone, never for keys: among them whether the fixed bit is cleared. */
static void lots(uint8_t *bytes, size_t length, const ngtcp2_rand_ctx *context)
{
    (void)context;
    memset(bytes, peer_clears_fixed_bit ? 0xff : 0x00, length);
}

static int another_id(ngtcp2_conn *connection, ngtcp2_cid *id, uint8_t *reset_token, size_t length, void *user_data)
{
    (void)connection;
    (void)user_data;
    id->datalen = length;
    if (gnutls_rnd(GNUTLS_RND_NONCE, id->data, length) != 0 ||
        gnutls_rnd(GNUTLS_RND_NONCE, reset_token, NGTCP2_STATELESS_RESET_TOKENLEN) != 0)
        return NGTCP2_ERR_CALLBACK_FAILURE;
    return 0;
}

/* ngtcp2's own decryption, counted where a long header succeeds; the plain header is the associated data. */
static int counted_decrypt(uint8_t *plain, const ngtcp2_crypto_aead *aead, const ngtcp2_crypto_aead_ctx *key,
                           const uint8_t *protected, size_t length, const uint8_t *nonce, size_t nonce_length,
                           const uint8_t *associated, size_t associated_length)
{
    int answer = ngtcp2_crypto_decrypt_cb(plain, aead, key, protected, length, nonce, nonce_length, associated,
                                          associated_length);
    if (answer == 0 && (associated[0] & LONG_HEADER) != 0) {
        peer_decrypted++;
        peer_number_length = 1 + (associated[0] & 0x03u);
    }
    return answer;
}

static int noted_crypto(ngtcp2_conn *connection, ngtcp2_crypto_level level, uint64_t offset, const uint8_t *data,
                        size_t length, void *user_data)
{
    struct peer *peer = user_data;
    if (level == NGTCP2_CRYPTO_LEVEL_INITIAL)
        peer->initial_crypto += (unsigned)length;
    return ngtcp2_crypto_recv_crypto_data_cb(connection, level, offset, data, length, user_data);
}

static int noted_retry(ngtcp2_conn *connection, const ngtcp2_pkt_hd *header, void *user_data)
{
    struct peer *peer = user_data;
    peer->retries++;
    return ngtcp2_crypto_recv_retry_cb(connection, header, user_data);
}

/* RFC 9001 section 4.6: what came before the handshake was complete came in 0-RTT packets, and is kept. */
static int noted_stream(ngtcp2_conn *connection, uint32_t flags, int64_t stream, uint64_t offset, const uint8_t *data,
                        size_t length, void *user_data, void *stream_user_data)
{
    struct peer *peer = user_data;
    (void)connection;
    (void)stream;
    (void)stream_user_data;
    if ((flags & NGTCP2_STREAM_DATA_FLAG_EARLY) == 0 || offset != peer->early_length ||
        length > sizeof peer->early - peer->early_length)
        return NGTCP2_ERR_CALLBACK_FAILURE;
    memcpy(peer->early + peer->early_length, data, length);
    peer->early_length += length;
    return 0;
}

static ngtcp2_callbacks callbacks(void)
{
    ngtcp2_callbacks all;
    memset(&all, 0, sizeof all);
    all.client_initial = ngtcp2_crypto_client_initial_cb;
    all.recv_client_initial = ngtcp2_crypto_recv_client_initial_cb;
    all.recv_crypto_data = noted_crypto;
    all.recv_retry = noted_retry;
    all.recv_stream_data = noted_stream;
    all.encrypt = ngtcp2_crypto_encrypt_cb;
    all.decrypt = counted_decrypt;
    all.hp_mask = ngtcp2_crypto_hp_mask_cb;
    all.rand = lots;
    all.get_new_connection_id = another_id;
    all.update_key = ngtcp2_crypto_update_key_cb;
    all.delete_crypto_aead_ctx = ngtcp2_crypto_delete_crypto_aead_ctx_cb;
    all.delete_crypto_cipher_ctx = ngtcp2_crypto_delete_crypto_cipher_ctx_cb;
    all.get_path_challenge_data = ngtcp2_crypto_get_path_challenge_data_cb;
    all.version_negotiation = ngtcp2_crypto_version_negotiation_cb;
    return all;
}

static ngtcp2_settings settings(const uint8_t *token, size_t token_length)
{
    ngtcp2_settings all;
    ngtcp2_settings_default(&all);
    all.initial_ts = now();
    all.token.base = (uint8_t *)token;
    all.token.len = token_length;
    return all;
}

static struct sockaddr_in address(const char *host, uint16_t port)
{
    struct sockaddr_in made;
    memset(&made, 0, sizeof made);
    made.sin_family = AF_INET;
    made.sin_port = htons(port);
    (void)inet_pton(AF_INET, host, &made.sin_addr);
    return made;
}

/* The addresses are never used to send: ngtcp2 wants a path. */
static void set_path(struct peer *peer, struct sockaddr_in own, struct sockaddr_in other)
{
    peer->own_address = own;
    peer->other_address = other;
    ngtcp2_addr_init(&peer->path.local, (ngtcp2_sockaddr *)&peer->own_address, sizeof own);
    ngtcp2_addr_init(&peer->path.remote, (ngtcp2_sockaddr *)&peer->other_address, sizeof other);
}

/* A server takes one stream of the client's, which is enough for early data. */
static ngtcp2_transport_params parameters_of(const struct first_initial *first)
{
    ngtcp2_transport_params all;
    ngtcp2_transport_params_default(&all);
    if (first == NULL)
        return all;
    all.initial_max_streams_uni = 1;
    all.initial_max_stream_data_uni = PEER_EARLY_SIZE;
    all.initial_max_data = PEER_EARLY_SIZE;
    all.original_dcid = *first->original;
    if (first->retry != NULL) {
        all.retry_scid = *first->retry;
        all.retry_scid_present = 1;
    }
    return all;
}

/* What client and server have in common at first. */
static int start(struct peer *peer, unsigned side)
{
    memset(peer, 0, sizeof *peer);
    peer->stream = NO_STREAM;
    peer->reference.get_conn = connection_of;
    peer->reference.user_data = peer;
    return tls_start(peer, side);
}

int peer_client(struct peer *peer, uint32_t version, const ngtcp2_cid *destination, const ngtcp2_cid *source,
                const uint8_t *token, size_t token_length)
{
    ngtcp2_callbacks all = callbacks();
    ngtcp2_settings chosen = settings(token, token_length);
    ngtcp2_transport_params parameters = parameters_of(NULL);
    int answer = start(peer, GNUTLS_CLIENT);
    set_path(peer, address("192.0.2.1", 50000), address("192.0.2.2", 443));
    if (answer == 0)
        answer = ngtcp2_conn_client_new(&peer->connection, destination, source, &peer->path, version, &all, &chosen,
                                        &parameters, NULL, peer);
    if (answer == 0)
        ngtcp2_conn_set_tls_native_handle(peer->connection, peer->session);
    return answer;
}

int peer_server(struct peer *peer, uint32_t version, const ngtcp2_cid *own, const struct first_initial *first)
{
    ngtcp2_callbacks all = callbacks();
    ngtcp2_settings chosen = settings(NULL, 0);
    ngtcp2_transport_params parameters = parameters_of(first);
    int answer = start(peer, GNUTLS_SERVER);
    set_path(peer, address("192.0.2.2", 443), address("192.0.2.1", 50000));
    if (answer == 0)
        answer = ngtcp2_conn_server_new(&peer->connection, first->client, own, &peer->path, version, &all, &chosen,
                                        &parameters, NULL, peer);
    if (answer == 0)
        ngtcp2_conn_set_tls_native_handle(peer->connection, peer->session);
    return answer;
}

int peer_keep(struct peer *client, struct kept *kept)
{
    if ((gnutls_session_get_flags(client->session) & GNUTLS_SFLAGS_SESSION_TICKET) == 0)
        return GNUTLS_E_REQUESTED_DATA_NOT_AVAILABLE;
    kept->parameters = *ngtcp2_conn_get_remote_transport_params(client->connection);
    return gnutls_session_get_data2(client->session, &kept->session);
}

int peer_resume(struct peer *client, const struct kept *kept, const uint8_t *data, size_t length)
{
    int answer = gnutls_session_set_data(client->session, kept->session.data, kept->session.size);
    if (answer != 0)
        return answer;
    client->unsent = data;
    client->unsent_length = length;
    ngtcp2_conn_set_early_remote_transport_params(client->connection, &kept->parameters);
    return ngtcp2_conn_open_uni_stream(client->connection, &client->stream, NULL);
}

void peer_forget(struct kept *kept)
{
    gnutls_free(kept->session.data);
    memset(kept, 0, sizeof *kept);
}

size_t peer_write(struct peer *peer, uint8_t *datagram, size_t room)
{
    ngtcp2_ssize taken = 0;
    ngtcp2_ssize length =
        ngtcp2_conn_write_stream(peer->connection, NULL, NULL, datagram, room, &taken, NGTCP2_WRITE_STREAM_FLAG_NONE,
                                 peer->stream, peer->unsent, peer->unsent_length, now());
    if (taken > 0) {
        peer->unsent += taken;
        peer->unsent_length -= (size_t)taken;
    }
    if (peer->unsent_length == 0)
        peer->stream = NO_STREAM;
    return length > 0 ? (size_t)length : 0;
}

int peer_read(struct peer *peer, const uint8_t *datagram, size_t length)
{
    return ngtcp2_conn_read_pkt(peer->connection, &peer->path, NULL, datagram, length, now());
}

void peer_end(struct peer *peer)
{
    if (peer->connection != NULL)
        ngtcp2_conn_del(peer->connection);
    tls_end(peer);
    memset(peer, 0, sizeof *peer);
}
