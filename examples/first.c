/* A first use of the library: a client seals an Initial packet and then a Handshake packet, and a server opens them. */
#include <inttypes.h>
#include <stdio.h>
#include <string.h>

#include "driftwicket.h"

static void print_hex(const char *name, const uint8_t *bytes, size_t len)
{
    printf("%s ", name);
    for (size_t i = 0; i < len; i++)
        printf("%02x", bytes[i]);
    printf("\n");
}

/* Whether an answer is a refusal, which is then told. */
static int refused(uint32_t answer)
{
    if (answer != DW_OK)
        printf("refusal %" PRIu32 ": %s\n", answer, dw_refusal_words(answer));
    return answer != DW_OK;
}

/* After the first flight: TLS has handed both sides the client's secret of the Handshake level. */
static int handshake(const uint8_t *destination, size_t destination_len)
{
    const uint8_t secret[DW_SECRET_SIZE] = "thirty-two bytes, as TLS has it";
    const char *text = "hello again";
    uint8_t keys[DW_KEYS_SIZE], packet[DW_LIMIT], plain[DW_LIMIT];
    uint64_t sealed[DW_SEALED_REPORT], header[DW_HEADER_REPORT], opened[DW_OPENED_REPORT], expected = 0;

    if (refused(dw_install_keys(DW_VERSION_1, DW_LEVEL_HANDSHAKE, 0, secret, keys)))
        return 1;
    if (refused(dw_seal_long(keys, 0, 0, 0, 1, destination, destination_len, NULL, 0,
                             (const uint8_t *)text, strlen(text), packet, sizeof packet, sealed)))
        return 1;

    /* The server: the header tells the level, and so which keys and which expected number are meant. */
    if (refused(dw_read_header(packet, (size_t)sealed[DW_SEALED_LEN], header)))
        return 1;
    if (header[DW_HEADER_LEVEL] != DW_LEVEL_HANDSHAKE)
        return 1;
    if (refused(dw_open(keys, &expected, packet, (size_t)sealed[DW_SEALED_LEN], plain, sizeof plain, opened)))
        return 1;
    print_hex("sealed ", packet, (size_t)sealed[DW_SEALED_LEN]);
    printf("payload %.*s\n", (int)opened[DW_OPENED_PAYLOAD_LEN], (const char *)plain + opened[DW_OPENED_HEADER_LEN]);
    return 0;
}

int main(void)
{
    /* The client chose this destination connection ID at random. */
    const uint8_t destination[] = {0x83, 0x94, 0xc8, 0xf0, 0x3e, 0x51, 0x57, 0x08};
    const char *text = "hello, archive";
    uint8_t keys[DW_KEYS_SIZE], packet[DW_LIMIT], plain[DW_LIMIT];
    uint64_t sealed[DW_SEALED_REPORT], header[DW_HEADER_REPORT], opened[DW_OPENED_REPORT], expected = 0;

    /* The client: its keys, and packet number 2 in one byte. Nothing is acknowledged yet; no source ID and no token. */
    if (refused(dw_initial_keys(DW_VERSION_1, destination, sizeof destination, 0, keys)))
        return 1;
    if (refused(dw_seal(keys, 2, 0, 0, 1, destination, sizeof destination, NULL, 0, NULL, 0,
                        (const uint8_t *)text, strlen(text), packet, sizeof packet, sealed)))
        return 1;
    size_t length = (size_t)sealed[DW_SEALED_LEN];

    /* The server: it finds the destination ID in the header, and makes the client's keys from it. */
    if (refused(dw_read_header(packet, length, header)))
        return 1;
    if (refused(dw_initial_keys((uint32_t)header[DW_HEADER_VERSION], packet + header[DW_HEADER_DESTINATION_AT],
                                (size_t)header[DW_HEADER_DESTINATION_LEN], 0, keys)))
        return 1;
    if (refused(dw_open(keys, &expected, packet, length, plain, sizeof plain, opened)))
        return 1;

    print_hex("sealed ", packet, length);
    print_hex("header ", plain, (size_t)opened[DW_OPENED_HEADER_LEN]);
    printf("payload %.*s\n", (int)opened[DW_OPENED_PAYLOAD_LEN], (const char *)plain + opened[DW_OPENED_HEADER_LEN]);
    printf("number  %" PRIu64 ", and %" PRIu64 " is expected next\n", opened[DW_OPENED_NUMBER], expected);

    /* A packet with one bit turned over is refused, and nothing that was lent has changed: it is dropped. */
    packet[length - 1] ^= 1;
    printf("damaged ");
    if (!refused(dw_open(keys, &expected, packet, length, plain, sizeof plain, opened)))
        return 1;
    return handshake(destination, sizeof destination);
}
