#include "hex.h"

void write_hex(FILE *file, const uint8_t *at, size_t length)
{
    size_t i;
    for (i = 0; i < length; i++)
        fprintf(file, "%02x", at[i]);
}
