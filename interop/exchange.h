/*
 * The checks of driftwicket against ngtcp2, a function for each kind of packet. Each is run for both versions.
 */
#ifndef INTEROP_EXCHANGE_H
#define INTEROP_EXCHANGE_H

#include <stdint.h>
#include <stdio.h>

/* Initials of one's writing, the other's reading. */
void check_initials(uint32_t version);

/* Retry packets likewise. */
void check_retries(uint32_t version);

/* Whole handshakes, whose datagrams are written to `record` as exchange.c says. */
void check_handshakes(uint32_t version, FILE *record);

#endif
