#include "check.h"
#include "exchange.h"
#include "knock.h"

#include <ngtcp2/ngtcp2_crypto.h>

#define LOW_BITS 0x0d

/* The library's Retry: ngtcp2 drops damaged copies; the Retry itself brings an Initial under its ID, with its token. */
static void check_retry_obeyed(uint32_t version)
{
    struct peer client;
    struct knock knock = knock_of(version, 8, 8, 0);
    struct header header, found;
    struct bytes retry;
    struct opened opened;
    uint8_t keys[DW_KEYS_SIZE];
    uint64_t expected = 0;
    size_t place, dropped = 0;
    int ready = knock_first(&client, &knock);
    header.version = version;
    header.destination = knock.source;
    header.source = pattern(0xe0, 20);
    header.token = pattern(0x31, 77);
    ready = ready && make_retry(&knock.destination, &header, LOW_BITS, &retry) == 0;
    for (place = 0; ready && place < retry.length; place++) {
        struct bytes copy = damaged(&retry, place);
        dropped += peer_read(&client, copy.at, copy.length) == 0 && client.retries == 0;
    }
    check(ready && dropped == retry.length, "ngtcp2's client drops %zu damaged copies of the library's Retry", dropped);
    ready = ready && knock_again(&client, &knock, &header, &retry);
    check(ready && (retry.at[0] & 0x0f) == LOW_BITS,
          "ngtcp2's client accepts the library's Retry, whose low bits are those that were asked for");
    ready = ready && read_header(&knock.datagram, &found) == 0;
    check(ready && same_bytes(&found.destination, &header.source) && same_bytes(&found.token, &header.token),
          "ngtcp2's Initial after it goes to the Retry's ID and carries its token");
    ready = ready && keys_of(&knock, CLIENT, keys) && open_packet(keys, &expected, &knock.datagram, &opened) == 0;
    check(ready && opened.number == 1 && starts_with_client_hello(&opened),
          "the library opens that Initial with keys from the Retry's ID, as number 1");
    peer_end(&client);
}

/* A Retry of ngtcp2's under this header. */
static struct bytes written_by_ngtcp2(const struct bytes *original, const struct header *header)
{
    struct bytes retry;
    ngtcp2_cid destination = id_of(&header->destination);
    ngtcp2_cid source = id_of(&header->source);
    ngtcp2_cid first = id_of(original);
    ngtcp2_ssize length = ngtcp2_crypto_write_retry(retry.at, sizeof retry.at, header->version, &destination, &source,
                                                    &first, header->token.at, header->token.length);
    retry.length = length > 0 ? (size_t)length : 0;
    return retry;
}

/* ngtcp2's Retry: the library finds its tag right, refuses damaged copies and would have written the same bytes. */
static void check_retry_checked(uint32_t version)
{
    struct bytes original = pattern(0x83, 8), own, retry;
    struct header header, found;
    size_t place, refused = 0;
    header.version = version;
    header.destination = pattern(0xc1, 5);
    header.source = pattern(0xe0, 18);
    header.token = pattern(0x31, 64);
    retry = written_by_ngtcp2(&original, &header);
    check(check_retry(&original, &retry, &found) == DW_OK && found.version == version &&
              same_bytes(&found.destination, &header.destination) && same_bytes(&found.source, &header.source) &&
              same_bytes(&found.token, &header.token),
          "the library accepts ngtcp2's Retry, with its IDs and token");
    check(make_retry(&original, &header, retry.at[0] & 0x0f, &own) == 0 && same_bytes(&own, &retry),
          "the library writes the same %zu bytes of Retry as ngtcp2", retry.length);
    for (place = 0; place < retry.length; place++) {
        struct bytes copy = damaged(&retry, place);
        refused += check_retry(&original, &copy, &found) != DW_OK;
    }
    check(refused > 0 && refused == retry.length, "%zu damaged copies of ngtcp2's Retry are refused", refused);
}

void check_retries(uint32_t version)
{
    check_retry_obeyed(version);
    check_retry_checked(version);
}
