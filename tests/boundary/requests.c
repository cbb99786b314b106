/* Calls of the header writer, each with a check of what it leaves in memory. */
#include "requests.h"

#include <string.h>

#include "calls.h"
#include "check.h"

const struct request request_m = {"TRUE", 5, 1792, 0, HOST_SIZE, 131072, 786432, 512, 64, 256, 512};
const struct request request_n = {"TRUE", 5, 1792, 1, HOST_SIZE, 655360, 262144, 512, 64, 256, 512};

/* The header that was written last, and a byte behind it. */
static uint8_t written[ONDRISTELA_HEADER_SIZE + 1];

uint64_t write_request(const struct request *request)
{
    uint8_t magic[4], salt[ONDRISTELA_SALT_SIZE + 1], keys[ONDRISTELA_KEYS_SIZE + 1];
    uint64_t answer;
    size_t header_size;

    memcpy(magic, request->magic, sizeof magic);
    memset(salt, 0x5A, sizeof salt);
    memset(keys, 0xC3, sizeof keys);
    fill(written, sizeof written);
    answer = ondristela_write_header(magic, request->version, request->min_program_version, request->code,
                                     request->host_size, request->data_start, request->data_size,
                                     request->sector_size, salt, request->salt_size, keys,
                                     request->keys_size, written, request->header_size);
    header_size = answer == ONDRISTELA_ACCEPTED ? ONDRISTELA_HEADER_SIZE : 0;
    return is_filled(written + header_size, sizeof written - header_size) ? answer : CHANGED;
}

int writes(const struct request *request, const struct fields *fields,
           const struct ondristela_layout *expected)
{
    uint8_t header[ONDRISTELA_HEADER_SIZE];
    struct ondristela_layout layout;

    make_header(header, fields);
    return write_request(request) == ONDRISTELA_ACCEPTED && memcmp(written, header, sizeof header) == 0
           && open_all(written, sizeof header, &request->code, 1, request->host_size, &layout)
                  == ONDRISTELA_ACCEPTED
           && same_layout(&layout, expected);
}
