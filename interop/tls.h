/*
 * TLS of GnuTLS for a peer: its session, the server's certificate, the secrets that are logged, and session tickets.
 */
#ifndef INTEROP_TLS_H
#define INTEROP_TLS_H

#include "peer.h"

/* A session of one side, GNUTLS_CLIENT or GNUTLS_SERVER; answers 0 or GnuTLS's negative number. */
int tls_start(struct peer *peer, unsigned side);

void tls_end(struct peer *peer);

#endif
