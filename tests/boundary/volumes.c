/* The volumes of the worked cases: M, and N hidden in it. Their headers, layouts and views. */
#include "volumes.h"

#include <string.h>

#define LAYOUT_M {HOST_SIZE, ONDRISTELA_KIND_STANDARD, ONDRISTELA_MAGIC_TRUE, 5, 1792, 131072, 786432, 0, 512}
#define LAYOUT_N {HOST_SIZE, ONDRISTELA_KIND_HIDDEN, ONDRISTELA_MAGIC_TRUE, 5, 1792, 655360, 262144, 0, 512}

const struct fields volume_m = {"TRUE", 5, {0x07, 0x00}, 0, 786432, 131072, 786432, 0, 512, 0};
const struct fields volume_n = {"TRUE", 5, {0x07, 0x00}, 262144, 262144, 655360, 262144, 0, 512, 0};

const struct ondristela_layout layout_m = LAYOUT_M;
const struct ondristela_layout layout_n = LAYOUT_N;

const struct ondristela_view plain_m = {LAYOUT_M, 0, 0, 0, 0};
const struct ondristela_view protected_m = {LAYOUT_M, 1, 655360, 917504, 0};

static void store_big_endian(uint8_t *bytes, size_t size, uint64_t number)
{
    while (size > 0) {
        size--;
        bytes[size] = number & 0xFF;
        number >>= 8;
    }
}

void make_header(uint8_t *header, const struct fields *fields)
{
    memset(header, 0, ONDRISTELA_HEADER_SIZE);
    memset(header, 0x5A, 64); /* the salt */
    memcpy(header + 64, fields->magic, 4);
    store_big_endian(header + 68, 2, fields->version);
    memcpy(header + 70, fields->min_program_version, 2);
    store_big_endian(header + 92, 8, fields->hidden_size);
    store_big_endian(header + 100, 8, fields->data_size);
    store_big_endian(header + 108, 8, fields->data_start);
    store_big_endian(header + 116, 8, fields->encrypted_size);
    store_big_endian(header + 124, 4, fields->flags);
    store_big_endian(header + 128, 4, fields->sector_size);
    header[251] = fields->reserved;
    memset(header + 256, 0xC3, 256); /* the keys */
    store_big_endian(header + 72, 4, ondristela_crc32(header + 256, 256));
    store_big_endian(header + 252, 4, ondristela_crc32(header + 64, 188));
}

int same_layout(const struct ondristela_layout *layout, const struct ondristela_layout *expected)
{
    return memcmp(layout, expected, sizeof *layout) == 0;
}

int same_view(const struct ondristela_view *view, const struct ondristela_view *expected)
{
    return memcmp(view, expected, sizeof *view) == 0;
}
