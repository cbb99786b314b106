/* The volumes of the worked cases: M, and N hidden in it. Their headers, layouts and views. */
#ifndef VOLUMES_H
#define VOLUMES_H

#include <stdint.h>

#include "ondristela.h"

#define HOST_SIZE 1048576

/* The fields of a header. */
struct fields {
    const char *magic;
    uint64_t version;
    uint8_t min_program_version[2];
    uint64_t hidden_size;
    uint64_t data_size;
    uint64_t data_start;
    uint64_t encrypted_size;
    uint64_t flags;
    uint64_t sector_size;
    uint8_t reserved; /* byte 251 */
};

extern const struct fields volume_m, volume_n;
extern const struct ondristela_layout layout_m, layout_n;

/* Views of M: alone, and with N protected. */
extern const struct ondristela_view plain_m, protected_m;

/* Stores the 512 bytes of a header with these fields and right checksums. */
void make_header(uint8_t *header, const struct fields *fields);

int same_layout(const struct ondristela_layout *layout, const struct ondristela_layout *expected);
int same_view(const struct ondristela_view *view, const struct ondristela_view *expected);

#endif
