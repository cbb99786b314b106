/* Calls of the header writer, each with a check of what it leaves in memory. */
#ifndef REQUESTS_H
#define REQUESTS_H

#include <stddef.h>
#include <stdint.h>

#include "volumes.h"

/* What is passed to the writer; salt, keys and header by their lengths. */
struct request {
    const char *magic;
    uint16_t version;
    uint16_t min_program_version;
    uint8_t code;
    uint64_t host_size;
    uint64_t data_start;
    uint64_t data_size;
    uint64_t sector_size;
    size_t salt_size;
    size_t keys_size;
    size_t header_size;
};

/* For the headers of M and N. */
extern const struct request request_m, request_n;

/* Writes with the salt and the keys of make_header, and lengths that are at most a byte too long. A refusal must
 * leave every byte as it was, an acceptance those behind the header. */
uint64_t write_request(const struct request *request);

/* Whether the header is written that make_header makes of these fields, and opens with this layout. */
int writes(const struct request *request, const struct fields *fields,
           const struct ondristela_layout *expected);

#endif
