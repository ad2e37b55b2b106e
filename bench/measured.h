/* The functions of the crate `measured` (crates/measured/src/lib.rt says what each answers). */
#ifndef MEASURED_H
#define MEASURED_H

#include <stddef.h>
#include <stdint.h>

void dw_measure_expand_key(const uint8_t key[16], uint8_t schedule[176]);
void dw_measure_blocks(uint32_t words, const uint8_t schedule[176], uint8_t *buffer, size_t len);
uint32_t dw_measure_counter(const uint8_t schedule[176], const uint8_t nonce[12], const uint8_t *text, size_t text_len, uint8_t *out,
                            size_t out_len);
void dw_measure_ghash(const uint8_t key[16], const uint8_t *source, size_t len, uint8_t out[16]);
void dw_measure_ghash_by_bits(const uint8_t key[16], const uint8_t *source, size_t len, uint8_t out[16]);
uint32_t dw_measure_gcm(const uint8_t schedule[176], const uint8_t nonce[12], const uint8_t *associated, size_t associated_len,
                        const uint8_t *text, size_t text_len, uint8_t *out, size_t out_len);

#endif
