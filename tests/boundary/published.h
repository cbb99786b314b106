/* The units that IEEE 1619 publishes for AES-256 in XTS: vectors 10 to 14, of 512 bytes each. */
#ifndef PUBLISHED_H
#define PUBLISHED_H

#include <stdint.h>

#define PUBLISHED_UNITS 5

struct published_unit {
    uint64_t tweak_number;
    const char *enciphered; /* in hexadecimal digits */
};

extern const struct published_unit published_units[PUBLISHED_UNITS];

/* The key of all of them, the data's half first, in hexadecimal digits. */
extern const char *const published_key;

#endif
