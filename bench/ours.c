/* Our side: the library's entry points, and its inner parts alone from the crate `measured`. */
#include "driftwicket.h"
#include "measured.h"
#include "work.h"

#include <string.h>

static struct {
    enum kind kind;
    size_t size;
    const uint8_t *packet;
    uint8_t schedule[176];
    uint8_t blocks[MOST_BYTES];
    uint8_t keys[DW_KEYS_SIZE];
} at;

static void derive(void) {
    if (dw_initial_keys(DW_VERSION_1, input.destination, sizeof input.destination, 0, at.keys) != DW_OK)
        give_up("our keys were refused");
}

static int prepare(enum kind kind, size_t size, const uint8_t *packet) {
    at.kind = kind;
    at.size = size;
    at.packet = packet;
    memcpy(at.blocks, input.bytes, size);
    if (kind == GHASH) hashed_bytes(at.blocks, size);
    dw_measure_expand_key(input.key, at.schedule);
    derive();
    return 1;
}

static size_t seal(uint8_t *answer) {
    uint64_t report[DW_SEALED_REPORT];
    size_t payload = at.size - HEADER_BYTES - TAG_BYTES;
    if (dw_seal(at.keys, input.number, 0, 0, 4, input.destination, sizeof input.destination, input.bytes, 0, input.bytes, 0,
                input.bytes, payload, answer, MOST_BYTES, report) != DW_OK)
        give_up("our seal was refused");
    return report[DW_SEALED_LEN];
}

static size_t open_packet(uint8_t *answer) {
    uint64_t expected = input.number, report[DW_OPENED_REPORT];
    if (dw_open(at.keys, &expected, at.packet, at.size, answer, MOST_BYTES, report) != DW_OK)
        give_up("our opening was refused");
    return report[DW_OPENED_HEADER_LEN] + report[DW_OPENED_PAYLOAD_LEN];
}

static size_t gcm(uint8_t *answer) {
    if (dw_measure_gcm(at.schedule, input.nonce, input.bytes, HEADER_BYTES, input.bytes, at.size, answer, MOST_BYTES) != 1)
        give_up("our GCM was refused");
    return at.size + TAG_BYTES;
}

/* AES of every block, on words or, where that is 0, on bytes. */
static size_t blocks(uint32_t words, uint8_t *answer) {
    dw_measure_blocks(words, at.schedule, at.blocks, at.size);
    memcpy(answer, at.blocks, at.size);
    return at.size;
}

static size_t counter(uint8_t *answer) {
    if (dw_measure_counter(at.schedule, input.nonce, input.bytes, at.size, answer, MOST_BYTES) != 1)
        give_up("our counter mode was refused");
    return at.size;
}

static size_t run(uint8_t *answer) {
    switch (at.kind) {
    case BLOCKS:
        return blocks(1, answer);
    case COUNTER:
        return counter(answer);
    case GHASH:
        dw_measure_ghash(input.key, at.blocks, at.size, answer);
        return 16;
    case GCM_FRESH:
        dw_measure_expand_key(input.key, at.schedule);
        return gcm(answer);
    case GCM_KEPT:
        return gcm(answer);
    case KEYS:
        derive();
        memcpy(answer, at.keys + 5, 44); /* behind version and level */
        return 44;
    case SEAL_FRESH:
        derive();
        return seal(answer);
    case SEAL_KEPT:
        return seal(answer);
    case OPEN_FRESH:
        derive();
        return open_packet(answer);
    case OPEN_KEPT:
        return open_packet(answer);
    }
    return 0;
}

const struct side ours = {"ours", prepare, run};

/* The plain way, as the papers have it, from the same crate: AES on bytes (FIPS 197), and GHASH bit by bit (SP 800-38D section 6.3). */
static int prepare_plain(enum kind kind, size_t size, const uint8_t *packet) {
    prepare(kind, size, packet);
    return kind == BLOCKS || kind == GHASH;
}

static size_t run_plain(uint8_t *answer) {
    if (at.kind == BLOCKS) return blocks(0, answer);
    dw_measure_ghash_by_bits(input.key, at.blocks, at.size, answer);
    return 16;
}

const struct side plain = {"plain", prepare_plain, run_plain};
