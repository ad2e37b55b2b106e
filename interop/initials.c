#include "check.h"
#include "exchange.h"
#include "knock.h"

#include <ngtcp2/ngtcp2_crypto.h>
#include <stdio.h>
#include <string.h>

/* Frames (RFC 9000 section 19): their types, and an ACK of packet 0 alone. */
#define FRAME_PADDING 0x00
#define FRAME_PING 0x01
#define FRAME_CLOSE 0x1c
static const uint8_t ack_of_0[] = {0x02, 0x00, 0x00, 0x00, 0x00};

#define CONNECTION_REFUSED 0x02
static const char reason[] = "the wicket is shut";

/* The header of ngtcp2's first Initial names what ngtcp2 was told; its payload is a ClientHello for the server's name. */
static void check_first_initial(uint32_t version, size_t destination, size_t source, size_t token)
{
    struct peer client;
    struct knock knock = knock_of(version, destination, source, token);
    struct header header;
    struct opened opened;
    uint8_t keys[DW_KEYS_SIZE], others[DW_KEYS_SIZE];
    uint64_t expected = 0;
    uint32_t answer;
    char shape[80];
    int ready = knock_first(&client, &knock) && keys_of(&knock, CLIENT, keys) && keys_of(&knock, SERVER, others);
    sprintf(shape, "ngtcp2's Initial, IDs of %zu and %zu bytes, token of %zu", destination, source, token);
    answer = ready ? read_header(&knock.datagram, &header) : UINT32_MAX;
    check(answer == 0 && header.version == version && header.level == DW_LEVEL_INITIAL &&
              same_bytes(&header.destination, &knock.destination) && same_bytes(&header.source, &knock.source) &&
              same_bytes(&header.token, &knock.token),
          "%s: level, version, IDs and token are read as ngtcp2 was told them", shape);
    answer = ready ? open_packet(keys, &expected, &knock.datagram, &opened) : UINT32_MAX;
    check(answer == 0 && opened.number == 0 && expected == 1 && opened.used == knock.datagram.length,
          "%s: opened as number 0, all %zu bytes used", shape, knock.datagram.length);
    check(answer == 0 && starts_with_client_hello(&opened) && payload_holds(&opened, PEER_SERVER_NAME),
          "%s: the payload is a CRYPTO frame with a ClientHello for " PEER_SERVER_NAME, shape);
    expected = 0;
    answer = ready ? open_packet(others, &expected, &knock.datagram, &opened) : UINT32_MAX;
    check((answer == DW_REFUSED_RESERVED || answer == DW_REFUSED_TAG) && expected == 0,
          "%s: the server's keys do not open it (refusal %u)", shape, (unsigned)answer);
    peer_end(&client);
}

/* One bit of each byte turned over, byte after byte: none of the copies is opened. */
static void check_damaged_first_initial(uint32_t version)
{
    struct peer client;
    struct knock knock = knock_of(version, 8, 8, 4);
    struct opened opened;
    uint8_t keys[DW_KEYS_SIZE];
    uint64_t expected = 0;
    size_t place, refused = 0;
    int ready = knock_first(&client, &knock) && keys_of(&knock, CLIENT, keys);
    for (place = 0; ready && place < knock.datagram.length; place++) {
        struct bytes copy = damaged(&knock.datagram, place);
        refused += open_packet(keys, &expected, &copy, &opened) != 0 && expected == 0;
    }
    check(ready && refused == knock.datagram.length, "%zu damaged copies of ngtcp2's Initial are refused", refused);
    peer_end(&client);
}

/* An Initial of the server to this client, sealed by the library. */
static int seal_answer(const struct knock *knock, uint64_t number, size_t number_length, const struct bytes *payload,
                       struct bytes *datagram)
{
    uint8_t keys[DW_KEYS_SIZE];
    struct header header;
    header.level = DW_LEVEL_INITIAL;
    header.destination = knock->source;
    header.source = pattern(0x51, 8);
    header.token.length = 0;
    header.number = number;
    header.number_length = number_length;
    header.any_acknowledged = 0;
    header.acknowledged = 0;
    return keys_of(knock, SERVER, keys) && seal_packet(keys, &header, payload, datagram) == 0;
}

/* ngtcp2 decrypts what the library seals as a server, under the greatest number that can be told at first. */
static void check_answer_read(uint32_t version, size_t number_length)
{
    static const uint8_t frames[] = {FRAME_PING, FRAME_PADDING, FRAME_PADDING, FRAME_PADDING};
    struct peer client;
    struct knock knock = knock_of(version, 8, 8, 0);
    struct bytes payload = bytes_of(ack_of_0, sizeof ack_of_0), datagram;
    uint64_t number = (UINT64_C(1) << (8 * number_length - 1)) - 2;
    unsigned before = peer_decrypted;
    int ready;
    append(&payload, frames, sizeof frames);
    ready = knock_first(&client, &knock) && seal_answer(&knock, number, number_length, &payload, &datagram);
    check(ready && peer_read(&client, datagram.at, datagram.length) == 0 && peer_decrypted == before + 1 &&
              peer_number_length == number_length,
          "ngtcp2's client decrypts the library's Initial with ACK and PING, number %llu in %zu bytes",
          (unsigned long long)number, number_length);
    peer_end(&client);
}

/* CONNECTION_CLOSE for no frame in particular (RFC 9000 section 19.19), with `before` in front of it. */
static struct bytes close_after(const uint8_t *before, size_t length)
{
    static const uint8_t frame[] = {FRAME_CLOSE, CONNECTION_REFUSED, 0, sizeof reason - 1};
    struct bytes payload = bytes_of(before, length);
    append(&payload, frame, sizeof frame);
    append(&payload, reason, sizeof reason - 1);
    return payload;
}

/* Whether ngtcp2 has read the close that the library sealed, word for word. */
static int was_closed(struct peer *client)
{
    ngtcp2_connection_close_error error;
    ngtcp2_conn_get_connection_close_error(client->connection, &error);
    return error.type == NGTCP2_CONNECTION_CLOSE_ERROR_CODE_TYPE_TRANSPORT && error.error_code == CONNECTION_REFUSED &&
           same(error.reason, error.reasonlen, reason, sizeof reason - 1);
}

/* ngtcp2 drops every damaged copy of a close, and obeys the close itself. */
static void check_close_obeyed(uint32_t version)
{
    struct peer client;
    struct knock knock = knock_of(version, 8, 8, 0);
    struct bytes payload = close_after(ack_of_0, sizeof ack_of_0), datagram;
    unsigned before = peer_decrypted;
    size_t place, dropped = 0;
    int ready = knock_first(&client, &knock) && seal_answer(&knock, 1, 2, &payload, &datagram);
    for (place = 0; ready && place < datagram.length; place++) {
        struct bytes copy = damaged(&datagram, place);
        dropped += peer_read(&client, copy.at, copy.length) == 0 && peer_decrypted == before && !was_closed(&client);
    }
    check(ready && dropped == datagram.length, "ngtcp2's client drops %zu damaged copies of the library's close",
          dropped);
    check(ready && peer_read(&client, datagram.at, datagram.length) == NGTCP2_ERR_DRAINING && was_closed(&client),
          "ngtcp2's client obeys the library's close, and knows its error code and reason");
    peer_end(&client);
}

/* The library opens a close that ngtcp2 wrote for a server. */
static void check_close_opened(uint32_t version)
{
    struct knock knock = knock_of(version, 8, 5, 0);
    ngtcp2_cid destination = id_of(&knock.source), source = id_of(&knock.destination);
    struct bytes frame = close_after(ack_of_0, 0), datagram;
    struct opened opened;
    uint8_t keys[DW_KEYS_SIZE];
    uint64_t expected = 0;
    int ready;
    ngtcp2_ssize length =
        ngtcp2_crypto_write_connection_close(datagram.at, sizeof datagram.at, version, &destination, &source,
                                             CONNECTION_REFUSED, (const uint8_t *)reason, sizeof reason - 1);
    datagram.length = length > 0 ? (size_t)length : 0;
    ready = keys_of(&knock, SERVER, keys) && open_packet(keys, &expected, &datagram, &opened) == 0;
    check(ready && opened.number == 0 && opened.used == datagram.length &&
              same(payload_of(&opened), (size_t)opened.payload_length, frame.at, frame.length),
          "the library opens a server's close that ngtcp2 wrote, byte for byte");
}

/* RFC 9287 lets ngtcp2's server clear the fixed bit; the library keeps to RFC 9000 section 17.2 and refuses it. */
static void check_fixed_bit(uint32_t version)
{
    struct peer client, server;
    struct knock knock = knock_of(version, 8, 8, 0);
    struct bytes datagram;
    struct opened opened;
    uint8_t keys[DW_KEYS_SIZE];
    uint64_t expected = 0;
    int ready;
    peer_clears_fixed_bit = 1;
    ready = knock_first(&client, &knock) && keys_of(&knock, SERVER, keys);
    ready = answer_knock(&server, &knock, &knock.destination) && ready;
    ready = ready && peer_read(&server, knock.datagram.at, knock.datagram.length) == 0;
    datagram.length = ready ? peer_write(&server, datagram.at, sizeof datagram.at) : 0;
    check(datagram.length > 0 && (datagram.at[0] & 0xc0) == 0x80 &&
              open_packet(keys, &expected, &datagram, &opened) == DW_REFUSED_FORM,
          "an Initial of ngtcp2's server with its fixed bit cleared (RFC 9287) is refused with 2");
    peer_clears_fixed_bit = 0;
    peer_end(&client);
    peer_end(&server);
}

void check_initials(uint32_t version)
{
    size_t number_length;
    check_first_initial(version, 8, 0, 0);
    check_first_initial(version, 8, 5, 0);
    check_first_initial(version, 20, 20, 16);
    check_first_initial(version, 18, 8, 70);
    check_damaged_first_initial(version);
    for (number_length = 1; number_length <= 4; number_length++)
        check_answer_read(version, number_length);
    check_close_obeyed(version);
    check_close_opened(version);
    check_fixed_bit(version);
}
