/*
 * Bytes as hex digits.
 */
#ifndef INTEROP_HEX_H
#define INTEROP_HEX_H

#include <stddef.h>
#include <stdint.h>
#include <stdio.h>

void write_hex(FILE *file, const uint8_t *at, size_t length);

#endif
