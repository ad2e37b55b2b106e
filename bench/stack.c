/* How much stack each function of the library takes: it is called on a stack of its own that was painted before, and what lost its
   paint is counted, from its caller's frame down. The calls are the longest that there are: packets of 1,500 bytes, IDs of 20,
   both versions. */
#define _XOPEN_SOURCE 700
#include "driftwicket.h"

#include <stdio.h>
#include <string.h>
#include <ucontext.h>

#define STACK 65536
#define TOKEN 100

static uint8_t stack[STACK];
static ucontext_t outside, inside;

/* What the calls are lent; none of it stands on the stack that is measured. */
static struct {
    uint32_t version;
    uint8_t keys[DW_KEYS_SIZE];
    uint8_t secret[DW_SECRET_SIZE];
    uint8_t handshake[DW_KEYS_SIZE];
    uint8_t id[DW_LONGEST_ID];
    uint8_t token[TOKEN];
    uint8_t payload[DW_LIMIT];
    uint8_t packet[DW_LIMIT];
    uint8_t retry[DW_LIMIT];
    uint8_t out[DW_LIMIT];
    uint64_t expected;
    uint64_t report[DW_HEADER_REPORT];
    uint32_t answer;
} lent;

/* Of a packet of 1,500 bytes, what is left for the payload, and of a Retry for the token. */
#define PAYLOAD (DW_LIMIT - 1 - 4 - 2 * (1 + DW_LONGEST_ID) - 2 - TOKEN - 2 - DW_LONGEST_NUMBER - DW_TAG_SIZE)
#define RETRY_TOKEN (DW_LIMIT - 1 - 4 - 2 * (1 + DW_LONGEST_ID) - DW_TAG_SIZE)

static void nothing(void) { lent.answer = DW_OK; }

static void read_integer(void) { lent.answer = dw_read_integer(lent.payload, sizeof lent.payload, lent.report); }

static void smallest_length(void) { lent.answer = dw_smallest_length(0x7ffffff0, 1, 9, lent.report); }

static void shorten(void) { lent.answer = dw_shorten(0x7ffffff0, 1, 9, 4, lent.report); }

static void recover(void) { lent.answer = dw_recover(0xa82f30eb, 0x9b32, 2, lent.report); }

static void initial_keys(void) { lent.answer = dw_initial_keys(lent.version, lent.id, sizeof lent.id, 1, lent.keys); }

static void install_keys(void) {
    lent.answer = dw_install_keys(lent.version, DW_LEVEL_HANDSHAKE, 1, lent.secret, lent.handshake);
}

static void seal_long(void) {
    lent.answer = dw_seal_long(lent.handshake, 2, 0, 0, DW_LONGEST_NUMBER, lent.id, sizeof lent.id, lent.id, sizeof lent.id,
                               lent.payload, PAYLOAD, lent.packet, sizeof lent.packet, lent.report);
}

static void seal(void) {
    lent.answer = dw_seal(lent.keys, 2, 0, 0, DW_LONGEST_NUMBER, lent.id, sizeof lent.id, lent.id, sizeof lent.id, lent.token,
                          sizeof lent.token, lent.payload, PAYLOAD, lent.packet, sizeof lent.packet, lent.report);
}

static void open_packet(void) {
    lent.answer = dw_open(lent.keys, &lent.expected, lent.packet, sizeof lent.packet, lent.out, sizeof lent.out, lent.report);
}

static void read_header(void) { lent.answer = dw_read_header(lent.packet, sizeof lent.packet, lent.report); }

static void write_retry(void) {
    lent.answer = dw_write_retry(lent.version, lent.id, sizeof lent.id, lent.id, sizeof lent.id, lent.id, sizeof lent.id,
                                 lent.payload, RETRY_TOKEN, 9, lent.retry, sizeof lent.retry, lent.report);
}

static void check_retry(void) {
    lent.answer = dw_check_retry(lent.id, sizeof lent.id, lent.retry, sizeof lent.retry, lent.report);
}

/* In an order in which each finds what it reads: a packet is opened after it was sealed, with the same keys. */
static const struct {
    const char *name;
    void (*call)(void);
} calls[] = {
    {"dw_read_integer", read_integer}, {"dw_smallest_length", smallest_length}, {"dw_shorten", shorten},
    {"dw_recover", recover},           {"dw_initial_keys", initial_keys},       {"dw_install_keys", install_keys},
    {"dw_seal_long", seal_long},       {"dw_seal", seal},                       {"dw_open", open_packet},
    {"dw_read_header", read_header},   {"dw_write_retry", write_retry},         {"dw_check_retry", check_retry},
};
#define CALLS (sizeof calls / sizeof *calls)

static void on_painted_stack(void (*call)(void), int paint) {
    memset(stack, paint, sizeof stack);
    getcontext(&inside);
    inside.uc_stack.ss_sp = stack;
    inside.uc_stack.ss_size = sizeof stack;
    inside.uc_link = &outside;
    makecontext(&inside, call, 0);
    swapcontext(&outside, &inside);
}

/* How far down the stack the call goes. It was made once before, for then the dynamic linker looks for memcpy on the same stack; and
   of two paints one shows a byte that happens to have the other's colour. */
static size_t depth(void (*call)(void)) {
    static const int paints[] = {0x5a, 0xa5};
    size_t deepest = 0;
    call();
    for (size_t p = 0; p < 2; p++) {
        size_t left = 0;
        on_painted_stack(call, paints[p]);
        while (left < sizeof stack && stack[left] == paints[p]) left++;
        if (sizeof stack - left > deepest) deepest = sizeof stack - left;
    }
    return deepest;
}

int main(void) {
    static const uint32_t versions[] = {DW_VERSION_1, DW_DRAFT_2};
    size_t most[CALLS] = {0}, without = depth(nothing);
    for (size_t v = 0; v < 2; v++) {
        lent.version = versions[v];
        for (size_t i = 0; i < CALLS; i++) {
            size_t taken = depth(calls[i].call) - without;
            if (lent.answer != DW_OK) {
                fprintf(stderr, "stack: %s: refusal %u, %s\n", calls[i].name, (unsigned)lent.answer, dw_refusal_words(lent.answer));
                return 1;
            }
            if (taken > most[i]) most[i] = taken;
        }
    }
    printf("| function | stack, bytes |\n|---|---|\n");
    for (size_t i = 0; i < CALLS; i++) printf("| `%s` | %zu |\n", calls[i].name, most[i]);
    return 0;
}
