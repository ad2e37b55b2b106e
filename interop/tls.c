#include "tls.h"

#include "hex.h"

#include <gnutls/x509.h>
#include <ngtcp2/ngtcp2_crypto_gnutls.h>
#include <string.h>
#include <time.h>

/*
 * QUIC asks for TLS 1.3 without the changes that old middle boxes need (RFC 9001 section 8.4). The suite is the one whose
 * packets the library protects.
 */
static const char priorities[] = "NORMAL:-VERS-ALL:+VERS-TLS1.3:-CIPHER-ALL:+AES-128-GCM:%DISABLE_TLS13_COMPAT_MODE";

/* The names that the key log has for enum secret. */
static const char *const labels[SECRETS] = {
    "CLIENT_EARLY_TRAFFIC_SECRET", "CLIENT_HANDSHAKE_TRAFFIC_SECRET", "SERVER_HANDSHAKE_TRAFFIC_SECRET"};

/* RFC 9001 section 4.6.1: the one size of early data that a ticket for QUIC may name. */
#define EARLY_DATA_SIZE 0xffffffffu

/* Netscape's comment, an extension that nobody judges: it gives the certificate the size of a usual chain. */
#define COMMENT "2.16.840.1.113730.1.13"
#define COMMENT_SIZE 1000

FILE *peer_key_log;

/* A line of the key log, which names a connection by the random bytes of its ClientHello. */
static void write_key_log(gnutls_session_t session, const char *label, const gnutls_datum_t *secret)
{
    gnutls_datum_t client, server;
    gnutls_session_get_random(session, &client, &server);
    fprintf(peer_key_log, "%s ", label);
    write_hex(peer_key_log, client.data, client.size);
    fputc(' ', peer_key_log);
    write_hex(peer_key_log, secret->data, secret->size);
    fputc('\n', peer_key_log);
}

/* GnuTLS's callback: keeps the secrets of packets with long headers, and leaves the others. */
static int log_secret(gnutls_session_t session, const char *label, const gnutls_datum_t *secret)
{
    const ngtcp2_crypto_conn_ref *reference = gnutls_session_get_ptr(session);
    struct peer *peer = reference->user_data;
    unsigned which = 0;
    while (which < SECRETS && strcmp(label, labels[which]) != 0)
        which++;
    if (which == SECRETS || secret->size != PEER_SECRET_SIZE)
        return 0;
    memcpy(peer->secrets[which], secret->data, PEER_SECRET_SIZE);
    peer->logged[which] = 1;
    if (peer_key_log != NULL)
        write_key_log(session, label, secret);
    return 0;
}

/* A fresh P-256 key and a certificate for it, signed by itself. */
static int own_certificate(gnutls_certificate_credentials_t credentials)
{
    static const uint8_t comment[COMMENT_SIZE];
    gnutls_x509_privkey_t key;
    gnutls_x509_crt_t certificate;
    time_t today = time(NULL);
    int answer;
    if (gnutls_x509_privkey_init(&key) != 0 || gnutls_x509_crt_init(&certificate) != 0)
        return GNUTLS_E_MEMORY_ERROR;
    answer = gnutls_x509_privkey_generate(key, GNUTLS_PK_ECDSA, GNUTLS_CURVE_TO_BITS(GNUTLS_ECC_CURVE_SECP256R1), 0);
    if (answer == 0)
        answer = gnutls_x509_crt_set_dn(certificate, "CN=" PEER_SERVER_NAME, NULL);
    if (answer == 0)
        answer = gnutls_x509_crt_set_version(certificate, 3);
    if (answer == 0)
        answer = gnutls_x509_crt_set_serial(certificate, "\x01", 1);
    if (answer == 0)
        answer = gnutls_x509_crt_set_activation_time(certificate, today - 3600);
    if (answer == 0)
        answer = gnutls_x509_crt_set_expiration_time(certificate, today + 3600);
    if (answer == 0)
        answer = gnutls_x509_crt_set_extension_by_oid(certificate, COMMENT, comment, sizeof comment, 0);
    if (answer == 0)
        answer = gnutls_x509_crt_set_key(certificate, key);
    if (answer == 0)
        answer = gnutls_x509_crt_sign2(certificate, certificate, key, GNUTLS_DIG_SHA256, 0);
    if (answer == 0)
        answer = gnutls_certificate_set_x509_key(credentials, &certificate, 1, key);
    gnutls_x509_crt_deinit(certificate);
    gnutls_x509_privkey_deinit(key);
    return answer;
}

/* Every ticket counts as new: nobody replays one here. */
static int never_seen(void *nothing, time_t until, const gnutls_datum_t *key, const gnutls_datum_t *data)
{
    (void)nothing;
    (void)until;
    (void)key;
    (void)data;
    return 0;
}

/* All servers here are one: they read each other's tickets, and take early data with them. */
static int give_tickets(gnutls_session_t session)
{
    static gnutls_datum_t key;
    static gnutls_anti_replay_t seen;
    int answer = key.data != NULL ? 0 : gnutls_session_ticket_key_generate(&key);
    if (answer == 0 && seen == NULL)
        answer = gnutls_anti_replay_init(&seen);
    if (answer == 0)
        answer = gnutls_session_ticket_enable_server(session, &key);
    if (answer == 0)
        answer = gnutls_record_set_max_early_data_size(session, EARLY_DATA_SIZE);
    if (answer != 0)
        return answer;
    gnutls_anti_replay_set_add_function(seen, never_seen);
    gnutls_anti_replay_enable(session, seen);
    return 0;
}

static int configure_server(struct peer *peer)
{
    int answer = own_certificate(peer->credentials);
    if (answer == 0)
        answer = give_tickets(peer->session);
    return answer == 0 ? ngtcp2_crypto_gnutls_configure_server_session(peer->session) : answer;
}

static int configure_client(struct peer *peer)
{
    int answer = gnutls_server_name_set(peer->session, GNUTLS_NAME_DNS, PEER_SERVER_NAME, strlen(PEER_SERVER_NAME));
    return answer == 0 ? ngtcp2_crypto_gnutls_configure_client_session(peer->session) : answer;
}

/* RFC 9001 section 8.3: QUIC has no EndOfEarlyData. */
int tls_start(struct peer *peer, unsigned side)
{
    int answer = gnutls_certificate_allocate_credentials(&peer->credentials);
    if (answer == 0)
        answer = gnutls_init(&peer->session, side | GNUTLS_ENABLE_EARLY_DATA | GNUTLS_NO_END_OF_EARLY_DATA);
    if (answer == 0)
        answer = gnutls_priority_set_direct(peer->session, priorities, NULL);
    if (answer == 0)
        answer = gnutls_credentials_set(peer->session, GNUTLS_CRD_CERTIFICATE, peer->credentials);
    if (answer != 0)
        return answer;
    gnutls_session_set_ptr(peer->session, &peer->reference);
    gnutls_session_set_keylog_function(peer->session, log_secret);
    return side == GNUTLS_SERVER ? configure_server(peer) : configure_client(peer);
}

void tls_end(struct peer *peer)
{
    if (peer->session != NULL)
        gnutls_deinit(peer->session);
    if (peer->credentials != NULL)
        gnutls_certificate_free_credentials(peer->credentials);
}
