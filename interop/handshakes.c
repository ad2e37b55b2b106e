#include "check.h"
#include "exchange.h"
#include "relay.h"

#include <string.h>

/* In full, or by a ticket of the plain one, with early data; either at once or after a Retry of the library's. */
static const struct kind {
    const char *name;
    int resumed;
    int retried;
} kinds[] = {{"plain", 0, 0}, {"retried", 0, 1}, {"resumed", 1, 0}, {"resumed-retried", 1, 1}};

/* How much early data is sent: too much for the datagram that begins with the ClientHello. */
#define EARLY_DATA 1400

/* Copies of a packet with one bit turned over, byte after byte. */
struct damage {
    size_t copies; /* of what ngtcp2 wrote and of what the library sealed: these the library refuses ... */
    size_t refused;
    size_t sealed; /* ... and of what the library sealed: these ngtcp2 drops */
    size_t dropped;
};

/* A client and a server of ngtcp2, and the library between them. */
struct meeting {
    struct peer peers[SENDERS];
    struct knock knock;
    struct bytes original; /* the destination ID of the client's very first Initial */
    struct relay relay;
    struct parts parts;                     /* of the datagram that is on its way */
    unsigned handed_on;                     /* packets that the library sealed and the other peer got */
    struct damage damages[LEVELS][SENDERS]; /* of the first packet that its receiver could read on its own */
};

static enum sender other_than(enum sender sender)
{
    return sender == CLIENT ? SERVER : CLIENT;
}

static size_t count_refused(const uint8_t keys[DW_KEYS_SIZE], uint64_t number, const struct bytes *packet)
{
    struct opened opened;
    uint64_t expected = number;
    size_t place, refused = 0;
    for (place = 0; place < packet->length; place++) {
        struct bytes copy = damaged(packet, place);
        refused += open_packet(keys, &expected, &copy, &opened) != DW_OK && expected == number;
    }
    return refused;
}

static size_t count_dropped(struct peer *to, const struct bytes *packet)
{
    unsigned before = peer_decrypted;
    size_t place, dropped = 0;
    for (place = 0; place < packet->length; place++) {
        struct bytes copy = damaged(packet, place);
        dropped += peer_read(to, copy.at, copy.length) == 0 && peer_decrypted == before;
    }
    return dropped;
}

/* Whether TLS has given this peer the keys for what the other one sends at this level. Initials are left to initials.c. */
static int has_keys(const struct peer *peer, uint32_t level, enum sender sender)
{
    if (level == DW_LEVEL_HANDSHAKE)
        return peer->logged[sender == CLIENT ? HANDSHAKE_OF_CLIENT : HANDSHAKE_OF_SERVER];
    return level == DW_LEVEL_ZERO_RTT && peer->logged[EARLY_OF_CLIENT];
}

static void try_damaged(struct meeting *meeting, enum sender sender, const struct carried *packet)
{
    struct peer *to = &meeting->peers[other_than(sender)];
    uint32_t level = packet->header.level;
    struct damage *damage = &meeting->damages[level][sender];
    const uint8_t *keys = meeting->relay.keys[level][sender];
    if (damage->copies > 0 || !has_keys(to, level, sender))
        return;
    damage->copies = packet->written.length + packet->sealed.length;
    damage->refused = count_refused(keys, packet->opened.number, &packet->written) +
                      count_refused(keys, packet->opened.number, &packet->sealed);
    damage->sealed = packet->sealed.length;
    damage->dropped = count_dropped(to, &packet->sealed);
}

/* What is handed on for a datagram of this sender. */
static struct bytes relayed(struct meeting *meeting, enum sender sender, const struct bytes *datagram)
{
    relay_learns(&meeting->relay, &meeting->peers[CLIENT]);
    relay_learns(&meeting->relay, &meeting->peers[SERVER]);
    return relay_pass(&meeting->relay, sender, datagram, &meeting->parts);
}

/* Hands the other peer what was sealed; answers whether ngtcp2 took it. */
static int hand_on(struct meeting *meeting, enum sender sender, const struct bytes *sealed)
{
    meeting->handed_on += (unsigned)meeting->parts.count;
    return peer_read(&meeting->peers[other_than(sender)], sealed->at, sealed->length) == 0;
}

static int pass(struct meeting *meeting, enum sender sender, const struct bytes *datagram)
{
    struct bytes sealed = relayed(meeting, sender, datagram);
    size_t i;
    for (i = 0; i < meeting->parts.count; i++)
        try_damaged(meeting, sender, &meeting->parts.packets[i]);
    return hand_on(meeting, sender, &sealed);
}

/* Everything that one peer has to send goes through the relay to the other; answers whether that one took it all. */
static int pass_all(struct meeting *meeting, enum sender sender)
{
    struct bytes datagram;
    int taken = 1;
    while ((datagram.length = peer_write(&meeting->peers[sender], datagram.at, sizeof datagram.at)) > 0)
        taken = pass(meeting, sender, &datagram) && taken;
    return taken;
}

/* The library answers the first Initial with a Retry in the server's place. */
static int retry_between(struct meeting *meeting)
{
    struct knock *knock = &meeting->knock;
    struct header header;
    struct bytes retry;
    (void)relayed(meeting, CLIENT, &knock->datagram);
    header.version = knock->version;
    header.destination = knock->source;
    header.source = pattern(0xe0, 18);
    header.token = pattern(0x31, 70);
    if (make_retry(&knock->destination, &header, 0x0a, &retry) != 0)
        return 0;
    relay_note_retry(&meeting->relay, &retry);
    return knock_again(&meeting->peers[CLIENT], knock, &header, &retry) && relay_knows(&meeting->relay, knock);
}

/* Whether ngtcp2 finds in the packet's header what the client was told, and would take it for a first Initial. */
static int header_read(const struct knock *knock, const struct bytes *sealed)
{
    ngtcp2_pkt_hd header;
    return ngtcp2_accept(&header, sealed->at, sealed->length) == 0 && header.version == knock->version &&
           same(header.dcid.data, header.dcid.datalen, knock->destination.at, knock->destination.length) &&
           same(header.scid.data, header.scid.datalen, knock->source.at, knock->source.length) &&
           same(header.token.base, header.token.len, knock->token.at, knock->token.length);
}

/* ngtcp2's server gets no ClientHello from a damaged Initial, and reads it in the Initial itself. */
static void check_server_reads(struct meeting *meeting)
{
    const struct knock *knock = &meeting->knock;
    const struct peer *server = &meeting->peers[SERVER];
    struct peer stranger;
    struct bytes sealed = relayed(meeting, CLIENT, &knock->datagram);
    size_t initial = meeting->parts.count > 0 ? meeting->parts.packets[0].sealed.length : sealed.length;
    struct bytes copy = damaged(&sealed, initial - 1);
    unsigned before = peer_decrypted;
    int ready = answer_knock(&stranger, knock, &meeting->original);
    check(header_read(knock, &sealed), "ngtcp2 reads version, IDs and token of the library's client Initial");
    if (ready)
        (void)peer_read(&stranger, copy.at, copy.length);
    check(ready && peer_decrypted == before && stranger.initial_crypto == 0,
          "ngtcp2's server does not decrypt a damaged copy of the library's client Initial");
    peer_end(&stranger);
    check(hand_on(meeting, CLIENT, &sealed) && peer_decrypted == before + meeting->handed_on &&
              server->initial_crypto > 0,
          "ngtcp2's server decrypts the library's client Initial and reads its ClientHello");
}

/* What the library did with the packets of a level and sender. */
static void check_packets(const struct meeting *meeting, const char *kind, uint32_t level, enum sender sender)
{
    static const char *const guards[LEVELS] = {"the other side's open none, and no secret makes such keys",
                                               "a server is given none", "the other side's open none"};
    const struct tally *tally = &meeting->relay.tallies[level][sender];
    char what[80];
    sprintf(what, "%s handshake: %u %s packets of the %s", kind, tally->seen, level_names[level],
            sender_names[sender]);
    check(tally->seen > 0 && tally->read == tally->seen, "%s: headers read as ngtcp2 reads them", what);
    check(tally->seen > 0 && tally->carried == tally->seen,
          "%s: opened and sealed anew, number and payload the same", what);
    check(tally->seen > 0 && tally->guarded == tally->seen,
          "%s: keys of another level get 6, in opening and in sealing; %s", what, guards[level]);
}

static void check_damage(const struct meeting *meeting, const char *kind, uint32_t level, enum sender sender)
{
    const struct damage *damage = &meeting->damages[level][sender];
    char what[80];
    sprintf(what, "%s handshake: a %s packet of the %s", kind, level_names[level], sender_names[sender]);
    check(damage->copies > 0 && damage->refused == damage->copies, "%s: the library refuses %zu damaged copies", what,
          damage->refused);
    check(damage->sealed > 0 && damage->dropped == damage->sealed,
          "%s: ngtcp2 drops %zu damaged copies of the library's", what, damage->dropped);
}

/* The server's Handshake packet stands behind its Initial where there is no certificate: no damaged copy was tried. */
static void check_early(const struct meeting *meeting, const char *kind, const struct bytes *early)
{
    const struct peer *server = &meeting->peers[SERVER];
    check_packets(meeting, kind, DW_LEVEL_ZERO_RTT, CLIENT);
    check_damage(meeting, kind, DW_LEVEL_ZERO_RTT, CLIENT);
    check(same(server->early, server->early_length, early->at, early->length),
          "%s handshake: the server has the %zu bytes of early data", kind, early->length);
}

static void check_full(const struct meeting *meeting, const char *kind)
{
    check_damage(meeting, kind, DW_LEVEL_HANDSHAKE, CLIENT);
    check_damage(meeting, kind, DW_LEVEL_HANDSHAKE, SERVER);
}

/* From the first Initial of the client to the end of the handshake. */
static void check_run(struct meeting *meeting, const char *kind)
{
    unsigned rounds, before = peer_decrypted;
    int taken = 1;
    check_server_reads(meeting);
    for (rounds = 0; rounds < 10; rounds++)
        taken = pass_all(meeting, CLIENT) && pass_all(meeting, SERVER) && taken;
    check(taken && ngtcp2_conn_get_handshake_completed(meeting->peers[CLIENT].connection) &&
              ngtcp2_conn_get_handshake_completed(meeting->peers[SERVER].connection),
          "%s handshake: ngtcp2's client and server complete it", kind);
    check(meeting->relay.lost == 0, "%s handshake: every datagram was taken apart and put together anew", kind);
    check(peer_decrypted == before + meeting->handed_on,
          "%s handshake: ngtcp2 decrypts all %u packets that the library sealed", kind, meeting->handed_on);
    check_packets(meeting, kind, DW_LEVEL_INITIAL, CLIENT);
    check_packets(meeting, kind, DW_LEVEL_INITIAL, SERVER);
    check_packets(meeting, kind, DW_LEVEL_HANDSHAKE, CLIENT);
    check_packets(meeting, kind, DW_LEVEL_HANDSHAKE, SERVER);
}

/* The client's first datagram is written, and a server stands ready for it. */
static int begin(struct meeting *meeting, const struct kind *kind, const struct kept *kept, const struct bytes *early)
{
    struct peer *client = &meeting->peers[CLIENT];
    struct knock *knock = &meeting->knock;
    int ready = kind->resumed ? kept->session.data != NULL && knock_resuming(client, knock, kept, early)
                              : knock_first(client, knock);
    ready = ready && relay_knows(&meeting->relay, knock);
    ready = ready && (!kind->retried || retry_between(meeting));
    return ready && answer_knock(&meeting->peers[SERVER], knock, &meeting->original);
}

/* A handshake in which every packet with a long header is opened and sealed by the library. The first one is kept. */
static void check_handshake(uint32_t version, const struct kind *kind, struct kept *kept, FILE *record)
{
    static struct meeting meeting;
    struct bytes early = pattern(0x61, EARLY_DATA);
    int ready;
    memset(&meeting, 0, sizeof meeting);
    meeting.knock = knock_of(version, 8, 8, 0);
    meeting.original = meeting.knock.destination;
    meeting.relay = relay_of(version, kind->name, record);
    ready = begin(&meeting, kind, kept, &early);
    check(ready, "%s handshake: ngtcp2's client and server begin it, the library between them", kind->name);
    if (ready)
        check_run(&meeting, kind->name);
    if (ready && kind->resumed)
        check_early(&meeting, kind->name, &early);
    else if (ready)
        check_full(&meeting, kind->name);
    if (kept->session.data == NULL)
        check(ready && peer_keep(&meeting.peers[CLIENT], kept) == 0,
              "%s handshake: ngtcp2's client has a ticket to resume by", kind->name);
    peer_end(&meeting.peers[CLIENT]);
    peer_end(&meeting.peers[SERVER]);
}

void check_handshakes(uint32_t version, FILE *record)
{
    struct kept kept;
    size_t i;
    memset(&kept, 0, sizeof kept);
    for (i = 0; i < sizeof kinds / sizeof *kinds; i++)
        check_handshake(version, &kinds[i], &kept, record);
    peer_forget(&kept);
}
