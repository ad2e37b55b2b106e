#include "packets.h"

#include <stdio.h>
#include <stdlib.h>
#include <string.h>

#define FRAME_CRYPTO 0x06
#define CLIENT_HELLO 0x01

const char *const level_names[LEVELS] = {"Initial", "0-RTT", "Handshake"};
const char *const sender_names[SENDERS] = {"client", "server"};

struct bytes bytes_of(const void *at, size_t length)
{
    struct bytes made;
    made.length = 0;
    append(&made, at, length);
    return made;
}

struct bytes pattern(uint8_t first, size_t length)
{
    struct bytes made;
    size_t i;
    made.length = length;
    for (i = 0; i < length; i++)
        made.at[i] = (uint8_t)(first + i);
    return made;
}

int same(const void *one, size_t one_length, const void *other, size_t other_length)
{
    return one_length == other_length && (one_length == 0 || memcmp(one, other, one_length) == 0);
}

int same_bytes(const struct bytes *one, const struct bytes *other)
{
    return same(one->at, one->length, other->at, other->length);
}

void append(struct bytes *whole, const void *at, size_t length)
{
    if (length > DW_LIMIT - whole->length) {
        fprintf(stderr, "more than %d bytes\n", DW_LIMIT);
        exit(2);
    }
    memcpy(whole->at + whole->length, at, length);
    whole->length += length;
}

struct bytes damaged(const struct bytes *datagram, size_t place)
{
    struct bytes copy = *datagram;
    copy.at[place] ^= (uint8_t)(1u << place % 8);
    return copy;
}

const uint8_t *payload_of(const struct opened *opened)
{
    return opened->plain + opened->header_length;
}

/* RFC 9000 section 19.6: type, offset, length, data; a ClientHello is longer than a one-byte length could say. */
int starts_with_client_hello(const struct opened *opened)
{
    const uint8_t *payload = payload_of(opened);
    return opened->payload_length > 5 && payload[0] == FRAME_CRYPTO && payload[1] == 0 && payload[2] >> 6 == 1 &&
           payload[4] == CLIENT_HELLO;
}

int payload_holds(const struct opened *opened, const char *text)
{
    size_t size = strlen(text);
    uint64_t i;
    for (i = 0; i + size <= opened->payload_length; i++)
        if (memcmp(payload_of(opened) + i, text, size) == 0)
            return 1;
    return 0;
}

uint32_t open_packet(const uint8_t keys[DW_KEYS_SIZE], uint64_t *expected, const struct bytes *datagram,
                     struct opened *opened)
{
    uint64_t report[DW_OPENED_REPORT] = {0};
    uint32_t answer =
        dw_open(keys, expected, datagram->at, datagram->length, opened->plain, sizeof opened->plain, report);
    opened->number = report[DW_OPENED_NUMBER];
    opened->number_length = report[DW_OPENED_NUMBER_LEN];
    opened->header_length = report[DW_OPENED_HEADER_LEN];
    opened->payload_length = report[DW_OPENED_PAYLOAD_LEN];
    opened->used = report[DW_OPENED_USED];
    return answer;
}

uint32_t seal_packet(const uint8_t keys[DW_KEYS_SIZE], const struct header *header, const struct bytes *payload,
                     struct bytes *datagram)
{
    uint64_t report[DW_SEALED_REPORT] = {0};
    const struct bytes *destination = &header->destination, *source = &header->source, *token = &header->token;
    uint32_t answer;
    if (header->level == DW_LEVEL_INITIAL)
        answer = dw_seal(keys, header->number, header->any_acknowledged, header->acknowledged, header->number_length,
                         destination->at, destination->length, source->at, source->length, token->at, token->length,
                         payload->at, payload->length, datagram->at, sizeof datagram->at, report);
    else
        answer = dw_seal_long(keys, header->number, header->any_acknowledged, header->acknowledged,
                              header->number_length, destination->at, destination->length, source->at, source->length,
                              payload->at, payload->length, datagram->at, sizeof datagram->at, report);
    datagram->length = (size_t)report[DW_SEALED_LEN];
    return answer;
}

/* A part of a datagram, where a report names its place and behind that its length. */
static struct bytes part(const struct bytes *datagram, const uint64_t *place)
{
    return bytes_of(datagram->at + place[0], (size_t)place[1]);
}

/* The IDs and the token of a datagram, by their places in a report; a header that is only read has no number yet. */
static void take_fields(const struct bytes *datagram, const uint64_t *destination, const uint64_t *source,
                        const uint64_t *token, struct header *header)
{
    header->destination = part(datagram, destination);
    header->source = part(datagram, source);
    header->token = part(datagram, token);
    header->number = 0;
    header->number_length = 0;
    header->any_acknowledged = 0;
    header->acknowledged = 0;
}

uint32_t read_header(const struct bytes *datagram, struct header *header)
{
    uint64_t report[DW_HEADER_REPORT] = {0};
    uint32_t answer = dw_read_header(datagram->at, datagram->length, report);
    header->version = (uint32_t)report[DW_HEADER_VERSION];
    header->level = (uint32_t)report[DW_HEADER_LEVEL];
    take_fields(datagram, report + DW_HEADER_DESTINATION_AT, report + DW_HEADER_SOURCE_AT, report + DW_HEADER_TOKEN_AT,
                header);
    return answer;
}

uint32_t check_retry(const struct bytes *original, const struct bytes *datagram, struct header *header)
{
    uint64_t report[DW_CHECKED_REPORT] = {0};
    uint32_t answer = dw_check_retry(original->at, original->length, datagram->at, datagram->length, report);
    header->version = (uint32_t)report[DW_CHECKED_VERSION];
    take_fields(datagram, report + DW_CHECKED_DESTINATION_AT, report + DW_CHECKED_SOURCE_AT,
                report + DW_CHECKED_TOKEN_AT, header);
    return answer;
}

uint32_t make_retry(const struct bytes *original, const struct header *header, uint64_t low_bits,
                    struct bytes *datagram)
{
    uint64_t report[DW_WRITTEN_REPORT] = {0};
    uint32_t answer = dw_write_retry(header->version, original->at, original->length, header->destination.at,
                                     header->destination.length, header->source.at, header->source.length,
                                     header->token.at, header->token.length, low_bits, datagram->at,
                                     sizeof datagram->at, report);
    datagram->length = (size_t)report[DW_WRITTEN_LEN];
    return answer;
}
