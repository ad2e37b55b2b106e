/*
 * The library's calls, one request to a line of the input, and a line for each answer.
 *
 *     seal VERSION LEVEL FROM SENDER NUMBER ACKNOWLEDGED LENGTH DESTINATION SOURCE TOKEN PAYLOAD
 *     open VERSION LEVEL FROM SENDER DATAGRAM
 *     retry VERSION ORIGINAL DESTINATION SOURCE TOKEN LOW-BITS
 *
 * Numbers are decimal, ACKNOWLEDGED may be "none"; IDs, token, payload and datagram are hex, "-" for nothing. LEVEL is
 * Initial, 0-RTT or Handshake; FROM is what the keys are made from, an ID for Initials and a secret for the others; SENDER
 * is client or server. The answers are the packet, or for one that is opened "opened LEVEL DESTINATION SOURCE TOKEN NUMBER
 * LENGTH PAYLOAD", or "refused" and the refusal's number.
 */
#include "hex.h"
#include "packets.h"

#include <inttypes.h>
#include <stdio.h>
#include <stdlib.h>
#include <string.h>

#define LONGEST_LINE 16384

static void stop(const char *fault)
{
    fprintf(stderr, "library: %s\n", fault);
    exit(2);
}

static const char *next_word(void)
{
    const char *word = strtok(NULL, " \n");
    if (word == NULL)
        stop("a word is missing");
    return word;
}

static uint64_t next_number(void)
{
    char *end;
    uint64_t number = strtoumax(next_word(), &end, 10);
    if (*end != '\0')
        stop("not a number");
    return number;
}

static struct bytes next_bytes(void)
{
    const char *word = next_word();
    struct bytes made;
    made.length = 0;
    if (strcmp(word, "-") == 0)
        return made;
    for (; *word != '\0'; word += 2) {
        unsigned value = 0;
        uint8_t byte;
        if (strlen(word) < 2 || sscanf(word, "%2x", &value) != 1)
            stop("not hex");
        byte = (uint8_t)value;
        append(&made, &byte, 1);
    }
    return made;
}

static void print_bytes(const uint8_t *at, size_t length)
{
    write_hex(stdout, at, length);
    if (length == 0)
        putchar('-');
}

static void answer(uint32_t refusal, const struct bytes *packet)
{
    if (refusal != DW_OK)
        printf("refused %" PRIu32, refusal);
    else
        print_bytes(packet->at, packet->length);
    putchar('\n');
}

/* The place of the next word among these names. */
static uint32_t next_among(const char *const *names, uint32_t count)
{
    const char *word = next_word();
    uint32_t i;
    for (i = 0; i < count; i++)
        if (strcmp(word, names[i]) == 0)
            return i;
    stop("neither a level nor a sender");
    return count;
}

/* Keys of the next version, level, origin and sender; answers 0 or the refusal. */
static uint32_t next_keys(uint32_t *level, uint8_t keys[DW_KEYS_SIZE])
{
    uint32_t version = (uint32_t)next_number(), sender;
    struct bytes from;
    *level = next_among(level_names, LEVELS);
    from = next_bytes();
    sender = next_among(sender_names, SENDERS);
    if (*level == DW_LEVEL_INITIAL)
        return dw_initial_keys(version, from.at, from.length, sender, keys);
    if (from.length != DW_SECRET_SIZE)
        stop("not a secret");
    return dw_install_keys(version, *level, sender, from.at, keys);
}

static void seal_next(void)
{
    struct header header;
    struct bytes payload, packet;
    uint8_t keys[DW_KEYS_SIZE];
    uint32_t refusal = next_keys(&header.level, keys);
    const char *acknowledged;
    header.number = next_number();
    acknowledged = next_word();
    header.any_acknowledged = strcmp(acknowledged, "none") != 0;
    header.acknowledged = header.any_acknowledged ? strtoumax(acknowledged, NULL, 10) : 0;
    header.number_length = (size_t)next_number();
    header.destination = next_bytes();
    header.source = next_bytes();
    header.token = next_bytes();
    payload = next_bytes();
    if (refusal == DW_OK)
        refusal = seal_packet(keys, &header, &payload, &packet);
    answer(refusal, &packet);
}

static void write_retry(void)
{
    struct bytes original, packet;
    struct header header;
    uint32_t refusal;
    header.version = (uint32_t)next_number();
    original = next_bytes();
    header.destination = next_bytes();
    header.source = next_bytes();
    header.token = next_bytes();
    refusal = make_retry(&original, &header, next_number(), &packet);
    answer(refusal, &packet);
}

static void print_opened(const struct header *header, const struct opened *opened)
{
    printf("opened %s ", level_names[header->level]);
    print_bytes(header->destination.at, header->destination.length);
    putchar(' ');
    print_bytes(header->source.at, header->source.length);
    putchar(' ');
    print_bytes(header->token.at, header->token.length);
    printf(" %" PRIu64 " %" PRIu64 " ", opened->number, opened->number_length);
    print_bytes(payload_of(opened), (size_t)opened->payload_length);
    putchar('\n');
}

static void open_next(void)
{
    struct header header;
    struct opened opened;
    uint8_t keys[DW_KEYS_SIZE];
    uint64_t expected = 0;
    uint32_t level, refusal = next_keys(&level, keys);
    struct bytes datagram = next_bytes();
    if (refusal == DW_OK)
        refusal = open_packet(keys, &expected, &datagram, &opened);
    if (refusal == DW_OK)
        refusal = read_header(&datagram, &header);
    if (refusal == DW_OK && header.level < LEVELS)
        print_opened(&header, &opened);
    else
        printf("refused %" PRIu32 "\n", refusal);
}

int main(void)
{
    static char line[LONGEST_LINE];
    while (fgets(line, sizeof line, stdin) != NULL) {
        const char *word = strtok(line, " \n");
        if (word != NULL && strcmp(word, "seal") == 0)
            seal_next();
        else if (word != NULL && strcmp(word, "open") == 0)
            open_next();
        else if (word != NULL && strcmp(word, "retry") == 0)
            write_retry();
        else
            stop("neither seal nor open nor retry");
    }
    return 0;
}
