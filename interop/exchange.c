/*
 * Checks of driftwicket against ngtcp2 in both directions: what the one writes, the other must read, and what was damaged
 * on the way, neither may take.
 *
 * Usage: exchange RECORD SECRETS. Each check prints a line that starts with "ok" or "FAILED"; the last line counts them.
 * RECORD gets the datagrams of the relayed handshakes, one to a line, for a third reader:
 *     flow sender datagram packet...
 * where a packet is Initial, 0-RTT or Handshake, with what the library opened in it, as level:number:number-length:payload,
 * or is the word Retry. Datagram and payload are in hex. SECRETS gets the secrets that TLS logged, as Wireshark reads them.
 */
#include "exchange.h"

#include "check.h"
#include "packets.h"
#include "peer.h"

static void check_version(uint32_t version, const char *name, FILE *record)
{
    check_version_name = name;
    check_initials(version);
    check_retries(version);
    check_handshakes(version, record);
}

int main(int argc, char **argv)
{
    FILE *record = argc == 3 ? fopen(argv[1], "w") : NULL;
    peer_key_log = argc == 3 ? fopen(argv[2], "w") : NULL;
    if (record == NULL || peer_key_log == NULL) {
        fprintf(stderr, "usage: exchange RECORD SECRETS, which must be writable\n");
        return 2;
    }
    check_version(DW_VERSION_1, "version 1", record);
    check_version(DW_DRAFT_2, "version 2 draft", record);
    if (fclose(record) != 0 || fclose(peer_key_log) != 0) {
        perror("exchange");
        return 2;
    }
    return check_verdict();
}
