#include "relay.h"

#include "hex.h"

#include <string.h>

/* Where the level stands in a key record. */
#define LEVEL_AT 4

/* How ngtcp2 counts the levels' types. */
static const uint8_t types[LEVELS] = {NGTCP2_PKT_INITIAL, NGTCP2_PKT_0RTT, NGTCP2_PKT_HANDSHAKE};

/* Whose packets a secret protects, by enum secret. */
static const struct {
    uint32_t level;
    enum sender sender;
} uses[SECRETS] = {{DW_LEVEL_ZERO_RTT, CLIENT}, {DW_LEVEL_HANDSHAKE, CLIENT}, {DW_LEVEL_HANDSHAKE, SERVER}};

struct relay relay_of(uint32_t version, const char *kind, FILE *record)
{
    struct relay relay;
    memset(&relay, 0, sizeof relay);
    relay.version = version;
    relay.record = record;
    sprintf(relay.written, "ngtcp2-%08lx-%s", (unsigned long)version, kind);
    sprintf(relay.sealed, "sealed-%08lx-%s", (unsigned long)version, kind);
    return relay;
}

int relay_knows(struct relay *relay, const struct knock *knock)
{
    int *known = relay->known[DW_LEVEL_INITIAL];
    known[CLIENT] = keys_of(knock, CLIENT, relay->keys[DW_LEVEL_INITIAL][CLIENT]);
    known[SERVER] = keys_of(knock, SERVER, relay->keys[DW_LEVEL_INITIAL][SERVER]);
    return known[CLIENT] && known[SERVER];
}

void relay_learns(struct relay *relay, const struct peer *peer)
{
    unsigned i;
    for (i = 0; i < SECRETS; i++)
        if (peer->logged[i])
            relay->known[uses[i].level][uses[i].sender] =
                dw_install_keys(relay->version, uses[i].level, uses[i].sender, peer->secrets[i],
                                relay->keys[uses[i].level][uses[i].sender]) == DW_OK;
}

/* Whether these bytes stand where a report names a place and behind that a length. */
static int stands_at(const struct bytes *datagram, const uint64_t *place, const uint8_t *bytes, size_t length)
{
    return same(datagram->at + place[0], (size_t)place[1], bytes, length);
}

/*
 * Where the packet ends, if ngtcp2 finds the same level, IDs, token and Length in its header, and 0 if not. A token that
 * isn't there has no place.
 */
static size_t agreed_end(const struct bytes *datagram)
{
    ngtcp2_pkt_hd found;
    uint64_t report[DW_HEADER_REPORT];
    ngtcp2_ssize number_at = ngtcp2_pkt_decode_hd_long(&found, datagram->at, datagram->length);
    uint32_t answer = dw_read_header(datagram->at, datagram->length, report);
    if (number_at < 0 || answer != DW_OK || report[DW_HEADER_LEVEL] >= LEVELS)
        return 0;
    if (found.type != types[report[DW_HEADER_LEVEL]] || found.version != report[DW_HEADER_VERSION] ||
        !stands_at(datagram, report + DW_HEADER_DESTINATION_AT, found.dcid.data, found.dcid.datalen) ||
        !stands_at(datagram, report + DW_HEADER_SOURCE_AT, found.scid.data, found.scid.datalen) ||
        !stands_at(datagram, report + DW_HEADER_TOKEN_AT, found.token.base, found.token.len))
        return 0;
    if ((report[DW_HEADER_LEVEL] == DW_LEVEL_INITIAL) != (report[DW_HEADER_TOKEN_AT] != 0) ||
        report[DW_HEADER_NUMBER_AT] != (uint64_t)number_at || report[DW_HEADER_LENGTH] != found.len)
        return 0;
    return (size_t)number_at + found.len;
}

/* Keys that differ in their level alone are of another type: 6. One number more is tried, which names no such level. */
static int guarded_by_level(const uint8_t keys[DW_KEYS_SIZE], const struct carried *packet)
{
    uint8_t other[DW_KEYS_SIZE];
    struct opened opened;
    uint64_t expected = 0;
    uint8_t level;
    memcpy(other, keys, sizeof other);
    for (level = 0; level <= LEVELS; level++) {
        other[LEVEL_AT] = level;
        if (level != packet->header.level &&
            open_packet(other, &expected, &packet->written, &opened) != DW_REFUSED_TYPE)
            return 0;
    }
    return 1;
}

/* The other side's keys of the same level don't open it; of 0-RTT there are none (RFC 9001 section 5.6). */
static int guarded_by_side(const struct relay *relay, enum sender sender, const struct carried *packet)
{
    enum sender other = sender == CLIENT ? SERVER : CLIENT;
    uint32_t level = packet->header.level, answer;
    struct opened opened;
    uint64_t expected = 0;
    if (level == DW_LEVEL_ZERO_RTT)
        return 1;
    answer = open_packet(relay->keys[level][other], &expected, &packet->written, &opened);
    return relay->known[level][other] && (answer == DW_REFUSED_RESERVED || answer == DW_REFUSED_RANGE ||
                                          answer == DW_REFUSED_TAG);
}

/* No secret makes keys for Initials, or 0-RTT keys for a server: 6. */
static int guarded_by_install(uint32_t version, uint32_t level)
{
    static const uint8_t secret[DW_SECRET_SIZE];
    uint8_t keys[DW_KEYS_SIZE];
    if (level == DW_LEVEL_HANDSHAKE)
        return 1;
    return dw_install_keys(version, level, SERVER, secret, keys) == DW_REFUSED_TYPE &&
           (level == DW_LEVEL_ZERO_RTT || dw_install_keys(version, level, CLIENT, secret, keys) == DW_REFUSED_TYPE);
}

/* Each of the two sealings refuses the other's levels with 6. */
static int guarded_by_form(const uint8_t keys[DW_KEYS_SIZE], const struct carried *packet)
{
    struct header other = packet->header;
    struct bytes sealed;
    other.level = packet->header.level == DW_LEVEL_INITIAL ? DW_LEVEL_HANDSHAKE : DW_LEVEL_INITIAL;
    return seal_packet(keys, &other, &packet->written, &sealed) == DW_REFUSED_TYPE;
}

/* PADDING before the payload, so that the packet doesn't become shorter: a STREAM frame may reach to its end. */
static uint32_t seal_padded(const uint8_t keys[DW_KEYS_SIZE], struct carried *packet)
{
    static const uint8_t padding[DW_LIMIT];
    struct bytes plain = bytes_of(payload_of(&packet->opened), (size_t)packet->opened.payload_length), payload;
    uint32_t answer = seal_packet(keys, &packet->header, &plain, &packet->sealed);
    if (answer != DW_OK || packet->sealed.length >= packet->written.length)
        return answer;
    payload = bytes_of(padding, packet->written.length - packet->sealed.length);
    append(&payload, plain.at, plain.length);
    return seal_packet(keys, &packet->header, &payload, &packet->sealed);
}

/* Seals with other number lengths in turn; answers whether that opens to the same number and, behind PADDING, payload. */
static int seal_anew(const struct relay *relay, const uint8_t keys[DW_KEYS_SIZE], uint64_t expected,
                     struct carried *packet)
{
    const struct opened *opened = &packet->opened, *again = &packet->again;
    packet->header.number = opened->number;
    packet->header.number_length = 1 + relay->seen % 4;
    if (seal_padded(keys, packet) != DW_OK || open_packet(keys, &expected, &packet->sealed, &packet->again) != DW_OK)
        return 0;
    return again->number == opened->number && again->number_length == packet->header.number_length &&
           again->used == packet->sealed.length && again->payload_length >= opened->payload_length &&
           memcmp(payload_of(again) + (again->payload_length - opened->payload_length), payload_of(opened),
                  (size_t)opened->payload_length) == 0;
}

/* Opens the packet that begins `rest` and seals it anew; answers whether it could. */
static int carry(struct relay *relay, enum sender sender, const struct bytes *rest, struct carried *packet)
{
    uint32_t level = LEVELS;
    const uint8_t *keys;
    struct tally *tally;
    uint64_t expected;
    size_t end = agreed_end(rest);
    if (read_header(rest, &packet->header) == DW_OK)
        level = packet->header.level;
    if (level >= LEVELS || !relay->known[level][sender])
        return 0;
    keys = relay->keys[level][sender];
    expected = relay->expected[level][sender];
    tally = &relay->tallies[level][sender];
    tally->seen++;
    relay->seen++;
    tally->read += end > 0;
    if (open_packet(keys, &relay->expected[level][sender], rest, &packet->opened) != DW_OK ||
        packet->opened.used != end)
        return 0;
    packet->written = bytes_of(rest->at, end);
    if (!seal_anew(relay, keys, expected, packet))
        return 0;
    tally->carried++;
    tally->guarded += guarded_by_level(keys, packet) && guarded_by_side(relay, sender, packet) &&
                      guarded_by_form(keys, packet) && guarded_by_install(relay->version, level);
    return 1;
}

/* RFC 9000 section 12.2: one packet stands behind the other, and one with a short header reaches to the end. */
static int take_apart(struct relay *relay, enum sender sender, const struct bytes *datagram, struct parts *parts)
{
    parts->rest = *datagram;
    parts->count = 0;
    while (parts->rest.length > 0 && (parts->rest.at[0] & LONG_HEADER) != 0) {
        struct carried *packet = &parts->packets[parts->count];
        if (parts->count == MOST_PACKETS || !carry(relay, sender, &parts->rest, packet))
            return 0;
        parts->count++;
        parts->rest = bytes_of(parts->rest.at + packet->written.length, parts->rest.length - packet->written.length);
    }
    return 1;
}

static struct bytes put_together(const struct parts *parts)
{
    struct bytes datagram;
    size_t i;
    datagram.length = 0;
    for (i = 0; i < parts->count; i++)
        append(&datagram, parts->packets[i].sealed.at, parts->packets[i].sealed.length);
    append(&datagram, parts->rest.at, parts->rest.length);
    return datagram;
}

/* The start of a line of the record, which exchange.c describes. */
static void note_datagram(FILE *record, const char *flow, enum sender sender, const struct bytes *datagram)
{
    fprintf(record, "%s %s ", flow, sender_names[sender]);
    write_hex(record, datagram->at, datagram->length);
}

static void note_packet(FILE *record, uint32_t level, const struct opened *opened)
{
    fprintf(record, " %s:%llu:%llu:", level_names[level], (unsigned long long)opened->number,
            (unsigned long long)opened->number_length);
    write_hex(record, payload_of(opened), (size_t)opened->payload_length);
}

/* A line of the record: as ngtcp2 wrote the packets, or as the library sealed them anew. */
static void note(const struct relay *relay, int anew, enum sender sender, const struct bytes *datagram,
                 const struct parts *parts)
{
    size_t i;
    note_datagram(relay->record, anew ? relay->sealed : relay->written, sender, datagram);
    for (i = 0; i < parts->count; i++) {
        const struct carried *packet = &parts->packets[i];
        note_packet(relay->record, packet->header.level, anew ? &packet->again : &packet->opened);
    }
    fputc('\n', relay->record);
}

void relay_note_retry(struct relay *relay, const struct bytes *retry)
{
    note_datagram(relay->record, relay->written, SERVER, retry);
    fputs(" Retry\n", relay->record);
    note_datagram(relay->record, relay->sealed, SERVER, retry);
    fputs(" Retry\n", relay->record);
}

struct bytes relay_pass(struct relay *relay, enum sender sender, const struct bytes *datagram, struct parts *parts)
{
    struct bytes sealed;
    if (!take_apart(relay, sender, datagram, parts)) {
        relay->lost++;
        parts->count = 0;
        return *datagram;
    }
    sealed = put_together(parts);
    if (parts->count > 0) {
        note(relay, 0, sender, datagram, parts);
        note(relay, 1, sender, &sealed, parts);
    }
    return sealed;
}
