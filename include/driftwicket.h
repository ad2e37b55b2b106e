/*
 * Driftwicket: QUIC packet protection for C and C++.
 *
 * The library makes the keys of Initial packets and, from the secrets that TLS hands over, those of 0-RTT and Handshake
 * packets, seals and opens the packets of these three levels, shortens and recovers packet numbers, and writes and
 * checks Retry packets, for QUIC version 1 (RFC 9000 and RFC 9001) and for the version 2 draft 0x709a50c4. It leaves
 * out the TLS handshake, the frames inside a payload, timers, and the rule that a client's datagram has 1,200 bytes or
 * more. It does not hide its timing.
 *
 * Each function is proved: for all input its answer, its report and every byte that it was lent are what its contract
 * says (specs/Promises.antt in the crates whose names begin with c_), it ends, and it touches nothing else.
 *
 * THE ANSWER of every function is DW_OK (0), or the number of a refusal (enum dw_refusal; dw_refusal_words tells it).
 *
 * THE REPORT is what a function has to tell beside that: numbers, whose places the enum before the function names, and
 * by its last name how many they are. Where a name ends in AT it is a place in the datagram, and where it ends in LEN
 * it is how many bytes stand there. The report is written with the answer 0 alone.
 *
 * A REFUSAL changes nothing: report, output, keys and expected number stay as they were, to the last byte. Where
 * several things are wrong, the refusal is the first that applies in the order given with the function.
 *
 * DROP a packet that dw_open refuses with 9, 10 or 11, or dw_check_retry with 11, and close nothing. Anybody on the
 * path can bring these about: rubbish, damage and packets sealed with other keys get any of them. Of packets sealed
 * with other keys three in four get 9, for the reserved bits are judged before the tag. So 9 is not the connection
 * error of RFC 9000 section 17.2, which is for bits that are authentic.
 *
 * MEMORY. The library allocates nothing, keeps nothing between calls and has no state of its own. The caller lends:
 *   - a pointer followed by a length names that many bytes, which must be there for the time of the call. Where the
 *     length is 0 nothing is read or written, and the pointer may be NULL;
 *   - a pointer to keys, to an expected number or to a report is never NULL and has the room that its declaration says,
 *     and numbers stand where a uint64_t may stand;
 *   - what is written (output, keys, expected number, report) overlaps nothing else that the same call is lent. What is
 *     only read may overlap;
 *   - a length is at most PTRDIFF_MAX, as it is for every object in C.
 * No other demand is made: no number, length or byte is wrong to pass, and what cannot be done is refused.
 *
 * THREADS. Any number of calls may run at the same time, as long as none writes what another one reads or writes.
 *
 * Link with libdriftwicket.a, which `make lib` builds and which needs nothing but memcpy, memmove and memset of the C
 * library.
 */
#ifndef DRIFTWICKET_H
#define DRIFTWICKET_H

#include <stddef.h>
#include <stdint.h>

#if defined(SIZE_MAX) && SIZE_MAX != UINT64_MAX
#error "Driftwicket is for machines whose size_t has 64 bits."
#endif

#ifdef __cplusplus
extern "C" {
#endif

/* The version of this library. */
#define DW_LIBRARY_VERSION_MAJOR 0
#define DW_LIBRARY_VERSION_MINOR 4
#define DW_LIBRARY_VERSION_PATCH 0

/* The versions of QUIC. */
#define DW_VERSION_1 0x00000001u /* RFC 9000 */
#define DW_DRAFT_2 0x709a50c4u   /* the version 2 draft */

/* The levels of protection (RFC 9001 section 4). A packet with a long header says its level by its type. */
#define DW_LEVEL_INITIAL 0u
#define DW_LEVEL_ZERO_RTT 1u
#define DW_LEVEL_HANDSHAKE 2u

/* Sizes, in bytes. */
#define DW_KEYS_SIZE 49     /* keys: version (4, most significant byte first), level (1), key (16), iv (12), hp (16) */
#define DW_SECRET_SIZE 32   /* a secret of TLS, for the suites whose hash is SHA-256 */
#define DW_TAG_SIZE 16      /* the tag at the end of a packet */
#define DW_LIMIT 1500       /* the largest datagram that is read, and the largest packet that is written */
#define DW_LONGEST_ID 20    /* the longest connection ID */
#define DW_LONGEST_NUMBER 4 /* the longest packet number in a packet */

/* The answers. */
enum dw_refusal {
    DW_OK = 0,                /* done */
    DW_REFUSED_SIZE = 1,      /* the datagram is empty, or over 1,500 bytes as it came or would be written */
    DW_REFUSED_FORM = 2,      /* the form bit or the fixed bit of the first byte is clear */
    DW_REFUSED_NOT_WHOLE = 3, /* a field isn't whole */
    DW_REFUSED_VERSION = 4,   /* the version is unknown, or isn't that of the keys */
    DW_REFUSED_LONG_ID = 5,   /* a connection ID is over 20 bytes */
    DW_REFUSED_TYPE = 6,      /* the packet's type isn't of the keys' level, or the level isn't one for this function */
    DW_REFUSED_SHORT = 7,     /* Length is below 20; in sealing, number and payload have fewer than 4 bytes together */
    DW_REFUSED_ROOM = 8,      /* the output is smaller than what would be written */
    DW_REFUSED_RESERVED = 9,  /* the reserved bits aren't zero once the header's mask is off: see DROP above */
    DW_REFUSED_RANGE = 10,    /* the expected number is above 2^62, or another number above 2^62 - 1; see DROP above */
    DW_REFUSED_TAG = 11,      /* the tag doesn't match: see DROP above */
    DW_REFUSED_LENGTH = 12,   /* the number's length isn't 1 to 4, or is too short for the gap or the short number */
    DW_REFUSED_NO_TOKEN = 13, /* the Retry token is empty */
    DW_REFUSED_GAP = 14       /* the acknowledged number isn't below the number, or the gap is 2^31 or more */
};

/* An answer in words. */
static inline const char *dw_refusal_words(uint32_t answer)
{
    switch (answer) {
    case DW_OK: return "done";
    case DW_REFUSED_SIZE: return "the datagram is empty, or over 1,500 bytes";
    case DW_REFUSED_FORM: return "the form bit or the fixed bit is clear";
    case DW_REFUSED_NOT_WHOLE: return "a field isn't whole";
    case DW_REFUSED_VERSION: return "the version is unknown, or not that of the keys";
    case DW_REFUSED_LONG_ID: return "a connection ID is over 20 bytes";
    case DW_REFUSED_TYPE: return "the packet's type, or the level, isn't one for this";
    case DW_REFUSED_SHORT: return "Length is below 20, or there is too little to seal";
    case DW_REFUSED_ROOM: return "the output is too small";
    case DW_REFUSED_RESERVED: return "the reserved bits aren't zero after unmasking";
    case DW_REFUSED_RANGE: return "a number is out of range";
    case DW_REFUSED_TAG: return "the tag doesn't match";
    case DW_REFUSED_LENGTH: return "the number's length isn't 1 to 4, or is too short";
    case DW_REFUSED_NO_TOKEN: return "the Retry token is empty";
    case DW_REFUSED_GAP: return "the acknowledged number isn't below the number, or no length covers the gap";
    default: return "no refusal has this number";
    }
}

/*
 * RFC 9000 section 16: reads the variable-length integer at the start of `bytes`. Bytes behind it aren't looked at.
 *
 * Refusal: DW_REFUSED_NOT_WHOLE.
 */
enum dw_integer_report {
    DW_INTEGER_VALUE, /* the value */
    DW_INTEGER_TAKEN, /* how many bytes it took: 1, 2, 4 or 8 */
    DW_INTEGER_REPORT
};
uint32_t dw_read_integer(const uint8_t *bytes, size_t len, uint64_t report[DW_INTEGER_REPORT]);

/*
 * RFC 9000 section 17.1: the fewest bytes in which a packet number may be sent.
 *
 * `number` is the full number. `any_acknowledged` is 0 where the other side has acknowledged nothing, and
 * `acknowledged` then doesn't count; anything else says that `acknowledged` is the greatest number that it has
 * acknowledged.
 *
 * Refusals, in this order: DW_REFUSED_RANGE, DW_REFUSED_GAP.
 */
enum dw_smallest_report {
    DW_SMALLEST_LEN, /* the length, from 1 to 4 */
    DW_SMALLEST_REPORT
};
uint32_t dw_smallest_length(uint64_t number, uint32_t any_acknowledged, uint64_t acknowledged,
                            uint64_t report[DW_SMALLEST_REPORT]);

/*
 * RFC 9000 section 17.1: a packet number as it is sent, in `length` bytes. The length may be more than the smallest.
 *
 * `number`, `any_acknowledged` and `acknowledged` are those of dw_smallest_length.
 *
 * Refusals, in this order: DW_REFUSED_RANGE, DW_REFUSED_GAP, DW_REFUSED_LENGTH.
 */
enum dw_shortened_report {
    DW_SHORTENED_NUMBER, /* the short number */
    DW_SHORTENED_REPORT
};
uint32_t dw_shorten(uint64_t number, uint32_t any_acknowledged, uint64_t acknowledged, size_t length,
                    uint64_t report[DW_SHORTENED_REPORT]);

/*
 * RFC 9000 appendix A.3: the full number that a short one of `length` bytes stands for.
 *
 * `expected` is one above the greatest number opened so far, or 0 before any. `truncated` is the short number.
 *
 * Refusals, in this order: DW_REFUSED_RANGE (expected), DW_REFUSED_LENGTH, DW_REFUSED_RANGE (recovered).
 */
enum dw_recovered_report {
    DW_RECOVERED_NUMBER, /* the full number */
    DW_RECOVERED_REPORT
};
uint32_t dw_recover(uint64_t expected, uint64_t truncated, size_t length, uint64_t report[DW_RECOVERED_REPORT]);

/*
 * RFC 9001 section 5.2: the keys with which one side protects its Initial packets.
 *
 * `destination` is the Destination Connection ID of the client's first Initial, or after a Retry the one that the Retry
 * set. `server` is 0 for the client's keys and anything else for the server's. Both sides of a connection need both: a
 * client seals with the client's keys and opens with the server's.
 *
 * There is no report. `keys` holds, with the answer 0, the version (4 bytes, most significant first), the level (1,
 * which is DW_LEVEL_INITIAL), key (16), iv (12) and hp (16).
 * Refusals, in this order: DW_REFUSED_VERSION, DW_REFUSED_LONG_ID.
 */
uint32_t dw_initial_keys(uint32_t version, const uint8_t *destination, size_t destination_len, uint32_t server,
                         uint8_t keys[DW_KEYS_SIZE]);

/*
 * RFC 9001 section 5.1: the keys with which one side protects its packets of a level, from the secret that TLS hands
 * over for that side and level. The secret is of a suite with AES-128-GCM and SHA-256.
 *
 * `level` is DW_LEVEL_ZERO_RTT or DW_LEVEL_HANDSHAKE. `server` is 0 for keys with which the client sends and anything
 * else for those with which the server does.
 *
 * There is no report. `keys` holds, with the answer 0, what it holds after dw_initial_keys, with this level.
 * Refusals, in this order: DW_REFUSED_VERSION; DW_REFUSED_TYPE for the Initial level, whose keys dw_initial_keys makes,
 * for a number that names no level, and for 0-RTT where the server would send.
 */
uint32_t dw_install_keys(uint32_t version, uint32_t level, uint32_t server, const uint8_t secret[DW_SECRET_SIZE],
                         uint8_t keys[DW_KEYS_SIZE]);

/*
 * RFC 9001 section 5: seals an Initial packet, of the keys' version, at the start of `out`. The keys are of the Initial
 * level.
 *
 * `number`, `any_acknowledged`, `acknowledged` and `length` are those of dw_shorten: the number goes into the packet in
 * `length` bytes. Then come the connection IDs, the token and the payload. Each may be empty, but `length` and the
 * payload's length are 4 or more together. The same number must never be sealed twice with the same keys: the library
 * doesn't remember numbers.
 *
 * The bytes of `out` behind the packet stay as they were.
 * Refusals, in this order: DW_REFUSED_VERSION (the keys'), DW_REFUSED_TYPE (the keys' level), DW_REFUSED_RANGE,
 * DW_REFUSED_GAP, DW_REFUSED_LENGTH, DW_REFUSED_LONG_ID, DW_REFUSED_SHORT, DW_REFUSED_SIZE, DW_REFUSED_ROOM.
 */
enum dw_sealed_report {
    DW_SEALED_LEN, /* the packet's length */
    DW_SEALED_REPORT
};
uint32_t dw_seal(const uint8_t keys[DW_KEYS_SIZE], uint64_t number, uint32_t any_acknowledged, uint64_t acknowledged,
                 size_t length, const uint8_t *destination, size_t destination_len, const uint8_t *source,
                 size_t source_len, const uint8_t *token, size_t token_len, const uint8_t *payload, size_t payload_len,
                 uint8_t *out, size_t out_len, uint64_t report[DW_SEALED_REPORT]);

/*
 * RFC 9001 section 5: seals a packet without a token, 0-RTT or Handshake, by the level of the keys. All else is as
 * dw_seal has it, the refusals and their order too.
 */
uint32_t dw_seal_long(const uint8_t keys[DW_KEYS_SIZE], uint64_t number, uint32_t any_acknowledged,
                      uint64_t acknowledged, size_t length, const uint8_t *destination, size_t destination_len,
                      const uint8_t *source, size_t source_len, const uint8_t *payload, size_t payload_len,
                      uint8_t *out, size_t out_len, uint64_t report[DW_SEALED_REPORT]);

/*
 * RFC 9001 section 5: opens the packet that begins a datagram, of the level of the keys.
 *
 * `keys` are the sender's. `*expected` is one above the greatest number opened so far, or 0 before any; with the answer
 * 0 it becomes the larger of itself and one above the number opened. A repeated packet opens again. `out` needs as many
 * bytes as the packet has, less 16; with the answer 0 its start holds the header without its mask, number included, and
 * behind it the payload. The bytes behind those stay as they were. Nothing is written before the tag has been compared.
 * Initial and Handshake packets are numbered apart (RFC 9000 section 12.3): each level needs an expected number of its
 * own.
 *
 * Bytes behind the packet aren't looked at: another packet may stand there.
 * Refusals, in this order: DW_REFUSED_RANGE (expected), DW_REFUSED_VERSION (the keys'), then the header's (see
 * dw_read_header; a known version that isn't the keys' is DW_REFUSED_VERSION too, and a type that isn't of the keys'
 * level is DW_REFUSED_TYPE), DW_REFUSED_ROOM, DW_REFUSED_RESERVED, DW_REFUSED_RANGE (recovered), DW_REFUSED_TAG. What
 * the last three ask of a caller is said under DROP, at the top.
 */
enum dw_opened_report {
    DW_OPENED_NUMBER,      /* the full number */
    DW_OPENED_NUMBER_LEN,  /* its length in the packet */
    DW_OPENED_HEADER_LEN,  /* the header's length, number included */
    DW_OPENED_PAYLOAD_LEN, /* the payload's, which stands behind the header */
    DW_OPENED_USED,        /* how many bytes of the datagram the packet took */
    DW_OPENED_REPORT
};
uint32_t dw_open(const uint8_t keys[DW_KEYS_SIZE], uint64_t *expected, const uint8_t *datagram, size_t datagram_len,
                 uint8_t *out, size_t out_len, uint64_t report[DW_OPENED_REPORT]);

/*
 * RFC 9000 sections 17.2.2 to 17.2.4: where the fields of an Initial, 0-RTT or Handshake packet stand in a datagram,
 * and its level. It needs no keys: this is how a server learns the destination ID that Initial keys are made from, and
 * how a receiver learns which keys a packet needs. Nothing of it is authentic until the packet has been opened.
 *
 * A place counts bytes from the datagram's start, and an empty part's is where it would start. 0-RTT and Handshake
 * packets have no token: its place and length are 0 then.
 * Refusals: DW_REFUSED_SIZE, DW_REFUSED_FORM, and then field by field in the packet's order. Each field is first whole
 * (DW_REFUSED_NOT_WHOLE) and then right: the version DW_REFUSED_VERSION, and after it the type DW_REFUSED_TYPE, which
 * here is for Retry alone; an ID's length DW_REFUSED_LONG_ID, even where its bytes aren't there; Length
 * DW_REFUSED_SHORT before its end is looked for (DW_REFUSED_NOT_WHOLE).
 */
enum dw_header_report {
    DW_HEADER_VERSION,
    DW_HEADER_DESTINATION_AT,
    DW_HEADER_DESTINATION_LEN,
    DW_HEADER_SOURCE_AT,
    DW_HEADER_SOURCE_LEN,
    DW_HEADER_TOKEN_AT,
    DW_HEADER_TOKEN_LEN,
    DW_HEADER_LENGTH,    /* the value of Length: number, payload and tag */
    DW_HEADER_NUMBER_AT, /* where the number starts, masked still */
    DW_HEADER_LEVEL,     /* DW_LEVEL_INITIAL, DW_LEVEL_ZERO_RTT or DW_LEVEL_HANDSHAKE */
    DW_HEADER_REPORT
};
uint32_t dw_read_header(const uint8_t *datagram, size_t datagram_len, uint64_t report[DW_HEADER_REPORT]);

/*
 * RFC 9000 section 17.2.5 and RFC 9001 section 5.8: writes a Retry packet at the start of `out`.
 *
 * `original` is the Destination Connection ID of the Initial that the Retry answers. `low_bits` modulo 16 becomes the
 * first byte's low four bits, which have no meaning.
 *
 * The bytes of `out` behind the packet stay as they were.
 * Refusals, in this order: DW_REFUSED_VERSION, DW_REFUSED_LONG_ID (original, destination, source), DW_REFUSED_NO_TOKEN,
 * DW_REFUSED_SIZE, DW_REFUSED_ROOM.
 */
enum dw_written_report {
    DW_WRITTEN_LEN, /* the packet's length */
    DW_WRITTEN_REPORT
};
uint32_t dw_write_retry(uint32_t version, const uint8_t *original, size_t original_len, const uint8_t *destination,
                        size_t destination_len, const uint8_t *source, size_t source_len, const uint8_t *token,
                        size_t token_len, uint64_t low_bits, uint8_t *out, size_t out_len,
                        uint64_t report[DW_WRITTEN_REPORT]);

/*
 * RFC 9001 section 5.8: checks that a datagram is a Retry packet that answers the Initial sent to `original`. The
 * packet is the whole datagram.
 *
 * Refusals: DW_REFUSED_LONG_ID (original), then as dw_read_header to the source ID; fewer than 16 bytes behind it are
 * DW_REFUSED_NOT_WHOLE, and exactly 16 are DW_REFUSED_NO_TOKEN; then DW_REFUSED_TAG.
 */
enum dw_checked_report {
    DW_CHECKED_VERSION,
    DW_CHECKED_DESTINATION_AT,
    DW_CHECKED_DESTINATION_LEN,
    DW_CHECKED_SOURCE_AT,
    DW_CHECKED_SOURCE_LEN,
    DW_CHECKED_TOKEN_AT,
    DW_CHECKED_TOKEN_LEN,
    DW_CHECKED_REPORT
};
uint32_t dw_check_retry(const uint8_t *original, size_t original_len, const uint8_t *datagram, size_t datagram_len,
                        uint64_t report[DW_CHECKED_REPORT]);

#ifdef __cplusplus
}
#endif

#endif
