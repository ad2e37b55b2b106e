/* OpenSSL's side: the same work by its public interface. Which path it takes, its portable or its hardware one, is decided when the
   program starts, by the environment (main.c). Ciphers and HKDF are fetched once, and contexts are kept. */
#include "work.h"

#include <openssl/core_names.h>
#include <openssl/evp.h>
#include <openssl/kdf.h>
#include <openssl/modes.h>
#include <openssl/params.h>
#include <string.h>

static struct {
    enum kind kind;
    size_t size;
    const uint8_t *packet;
    uint8_t blocks[MOST_BYTES];
    uint8_t keys[44]; /* key, iv, hp */
    EVP_CIPHER_CTX *ecb, *ctr, *gcm, *ungcm, *hp;
    EVP_KDF_CTX *hkdf;
    GCM128_CONTEXT *hash;
} at;

static void must(int done) {
    if (done != 1) give_up("OpenSSL failed");
}

/* ---- keys: RFC 9001 section 5.2 */

static void hkdf(int mode, const uint8_t *key, size_t key_len, const char *name, const uint8_t *salt_or_info, size_t len, uint8_t *out,
                 size_t out_len) {
    OSSL_PARAM how[] = {
        OSSL_PARAM_construct_int(OSSL_KDF_PARAM_MODE, &mode),
        OSSL_PARAM_construct_utf8_string(OSSL_KDF_PARAM_DIGEST, (char *)"SHA256", 0),
        OSSL_PARAM_construct_octet_string(OSSL_KDF_PARAM_KEY, (void *)key, key_len),
        OSSL_PARAM_construct_octet_string(name, (void *)salt_or_info, len),
        OSSL_PARAM_construct_end(),
    };
    EVP_KDF_CTX_reset(at.hkdf);
    must(EVP_KDF_derive(at.hkdf, out, out_len, how));
}

static void expand(const uint8_t secret[32], const char *label, uint8_t *out, size_t out_len) {
    uint8_t info[32] = {0, (uint8_t)out_len, (uint8_t)strlen(label)};
    memcpy(info + 3, label, strlen(label));
    hkdf(EVP_KDF_HKDF_MODE_EXPAND_ONLY, secret, 32, OSSL_KDF_PARAM_INFO, info, strlen(label) + 4, out, out_len);
}

static void derive(void) {
    static const uint8_t salt[20] = {0x38, 0x76, 0x2c, 0xf7, 0xf5, 0x59, 0x34, 0xb3, 0x4d, 0x17,
                                     0x9a, 0xe6, 0xa4, 0xc8, 0x0c, 0xad, 0xcc, 0xbb, 0x7f, 0x0a};
    uint8_t initial[32], client[32];
    hkdf(EVP_KDF_HKDF_MODE_EXTRACT_ONLY, input.destination, sizeof input.destination, OSSL_KDF_PARAM_SALT, salt, sizeof salt, initial, 32);
    expand(initial, "tls13 client in", client, 32);
    expand(client, "tls13 quic key", at.keys, 16);
    expand(client, "tls13 quic iv", at.keys + 16, 12);
    expand(client, "tls13 quic hp", at.keys + 28, 16);
}

static void set_keys(void) {
    must(EVP_EncryptInit_ex(at.gcm, NULL, NULL, at.keys, NULL));
    must(EVP_DecryptInit_ex(at.ungcm, NULL, NULL, at.keys, NULL));
    must(EVP_EncryptInit_ex(at.hp, NULL, NULL, at.keys + 28, NULL));
}

/* ---- packets: RFC 9001 sections 5.3 and 5.4 */

static void nonce_of(uint32_t number, uint8_t nonce[12]) {
    memcpy(nonce, at.keys + 16, 12);
    for (int i = 0; i < 4; i++) nonce[8 + i] ^= (uint8_t)(number >> (24 - 8 * i));
}

static void mask_of(const uint8_t *sample, uint8_t mask[16]) {
    int n;
    must(EVP_EncryptUpdate(at.hp, mask, &n, sample, 16));
}

static size_t seal(uint8_t *answer) {
    int n;
    uint8_t nonce[12], mask[16];
    int payload = (int)(at.size - HEADER_BYTES - TAG_BYTES);
    size_t length = (size_t)payload + 4 + TAG_BYTES;
    uint8_t *number = answer + HEADER_BYTES - 4, *body = answer + HEADER_BYTES;
    memcpy(answer, "\xc3\0\0\0\1\x08", 6);
    memcpy(answer + 6, input.destination, 8);
    answer[14] = answer[15] = 0;
    answer[16] = (uint8_t)(0x40 | length >> 8);
    answer[17] = (uint8_t)length;
    for (int i = 0; i < 4; i++) number[i] = (uint8_t)(input.number >> (24 - 8 * i));
    nonce_of(input.number, nonce);
    must(EVP_EncryptInit_ex(at.gcm, NULL, NULL, NULL, nonce));
    must(EVP_EncryptUpdate(at.gcm, NULL, &n, answer, HEADER_BYTES));
    must(EVP_EncryptUpdate(at.gcm, body, &n, input.bytes, payload));
    must(EVP_EncryptFinal_ex(at.gcm, body + n, &n));
    must(EVP_CIPHER_CTX_ctrl(at.gcm, EVP_CTRL_AEAD_GET_TAG, TAG_BYTES, body + payload));
    mask_of(number + 4, mask);
    answer[0] ^= mask[0] & 0x0f;
    for (int i = 0; i < 4; i++) number[i] ^= mask[1 + i];
    return at.size;
}

static size_t open_packet(uint8_t *answer) {
    int n;
    uint8_t nonce[12], mask[16];
    int payload = (int)(at.size - HEADER_BYTES - TAG_BYTES);
    uint8_t *number = answer + HEADER_BYTES - 4;
    uint32_t full = 0;
    memcpy(answer, at.packet, HEADER_BYTES);
    mask_of(at.packet + HEADER_BYTES, mask);
    answer[0] ^= mask[0] & 0x0f;
    for (int i = 0; i < 4; i++) {
        number[i] ^= mask[1 + i];
        full = full << 8 | number[i];
    }
    nonce_of(full, nonce);
    must(EVP_DecryptInit_ex(at.ungcm, NULL, NULL, NULL, nonce));
    must(EVP_DecryptUpdate(at.ungcm, NULL, &n, answer, HEADER_BYTES));
    must(EVP_DecryptUpdate(at.ungcm, answer + HEADER_BYTES, &n, at.packet + HEADER_BYTES, payload));
    must(EVP_CIPHER_CTX_ctrl(at.ungcm, EVP_CTRL_AEAD_SET_TAG, TAG_BYTES, (void *)(at.packet + HEADER_BYTES + payload)));
    must(EVP_DecryptFinal_ex(at.ungcm, answer + HEADER_BYTES + n, &n));
    return at.size - TAG_BYTES;
}

/* ---- the inner parts */

/* GCM's own first counter block for a text: the nonce and the number 2. */
static size_t counter(uint8_t *answer) {
    int n;
    uint8_t first[16] = {[15] = 2};
    memcpy(first, input.nonce, sizeof input.nonce);
    must(EVP_EncryptInit_ex(at.ctr, NULL, NULL, NULL, first));
    must(EVP_EncryptUpdate(at.ctr, answer, &n, input.bytes, (int)at.size));
    return at.size;
}

static size_t gcm(const uint8_t *key, uint8_t *answer) {
    int n;
    must(EVP_EncryptInit_ex(at.gcm, NULL, NULL, key, input.nonce));
    must(EVP_EncryptUpdate(at.gcm, NULL, &n, input.bytes, HEADER_BYTES));
    must(EVP_EncryptUpdate(at.gcm, answer, &n, input.bytes, (int)at.size));
    must(EVP_EncryptFinal_ex(at.gcm, answer + n, &n));
    must(EVP_CIPHER_CTX_ctrl(at.gcm, EVP_CTRL_AEAD_GET_TAG, TAG_BYTES, answer + at.size));
    return at.size + TAG_BYTES;
}

/* Stands in for the block cipher: the hash key for the block of zeros, and zeros for the first counter block. OpenSSL's tag is then
   its GHASH alone. */
static void no_cipher(const unsigned char in[16], unsigned char out[16], const void *key) {
    static const unsigned char zeros[16];
    memcpy(out, in[15] == 0 ? key : zeros, 16);
}

static size_t ghash(uint8_t *answer) {
    CRYPTO_gcm128_init(at.hash, (void *)input.key, no_cipher);
    CRYPTO_gcm128_setiv(at.hash, input.nonce, 12);
    must(CRYPTO_gcm128_aad(at.hash, at.blocks, at.size - 16) + 1);
    CRYPTO_gcm128_tag(at.hash, answer, 16);
    return 16;
}

static EVP_CIPHER_CTX *context(const char *name, int encrypts) {
    EVP_CIPHER *cipher = EVP_CIPHER_fetch(NULL, name, NULL);
    EVP_CIPHER_CTX *made = EVP_CIPHER_CTX_new();
    if (cipher == NULL || made == NULL) give_up("OpenSSL has no such cipher");
    must(EVP_CipherInit_ex(made, cipher, NULL, NULL, NULL, encrypts));
    EVP_CIPHER_CTX_set_padding(made, 0);
    EVP_CIPHER_free(cipher);
    return made;
}

static int prepare(enum kind kind, size_t size, const uint8_t *packet) {
    if (at.gcm == NULL) {
        EVP_KDF *kdf = EVP_KDF_fetch(NULL, "HKDF", NULL);
        at.gcm = context("AES-128-GCM", 1);
        at.ungcm = context("AES-128-GCM", 0);
        at.hp = context("AES-128-ECB", 1);
        at.ecb = context("AES-128-ECB", 1);
        at.hkdf = EVP_KDF_CTX_new(kdf);
        EVP_KDF_free(kdf);
        at.hash = CRYPTO_gcm128_new((void *)input.key, no_cipher);
        at.ctr = context("AES-128-CTR", 1);
        must(EVP_EncryptInit_ex(at.ecb, NULL, NULL, input.key, NULL));
        must(EVP_EncryptInit_ex(at.ctr, NULL, NULL, input.key, NULL));
    }
    at.kind = kind;
    at.size = size;
    at.packet = packet;
    memcpy(at.blocks, input.bytes, size);
    if (kind == GHASH) hashed_bytes(at.blocks, size);
    derive();
    set_keys();
    if (kind == GCM_KEPT) must(EVP_EncryptInit_ex(at.gcm, NULL, NULL, input.key, NULL));
    return 1;
}

static size_t run(uint8_t *answer) {
    int n;
    switch (at.kind) {
    case BLOCKS:
        must(EVP_EncryptUpdate(at.ecb, at.blocks, &n, at.blocks, (int)at.size));
        memcpy(answer, at.blocks, at.size);
        return at.size;
    case COUNTER:
        return counter(answer);
    case GHASH:
        return ghash(answer);
    case GCM_KEPT:
        return gcm(NULL, answer);
    case GCM_FRESH:
        return gcm(input.key, answer);
    case KEYS:
        derive();
        memcpy(answer, at.keys, 44);
        return 44;
    case SEAL_FRESH:
        derive();
        must(EVP_EncryptInit_ex(at.gcm, NULL, NULL, at.keys, NULL));
        must(EVP_EncryptInit_ex(at.hp, NULL, NULL, at.keys + 28, NULL));
        return seal(answer);
    case SEAL_KEPT:
        return seal(answer);
    case OPEN_FRESH:
        derive();
        must(EVP_DecryptInit_ex(at.ungcm, NULL, NULL, at.keys, NULL));
        must(EVP_EncryptInit_ex(at.hp, NULL, NULL, at.keys + 28, NULL));
        return open_packet(answer);
    case OPEN_KEPT:
        return open_packet(answer);
    }
    return 0;
}

const struct side openssl = {"openssl", prepare, run};
