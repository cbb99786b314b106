/* The calls without an image that several files make, each with a check of what it leaves in memory. */
#ifndef CALLS_H
#define CALLS_H

#include <stddef.h>
#include <stdint.h>

#include "volumes.h"

/* Opens and asks for the keys. Both calls must give the same answer: the keys are bytes 256 to 511 of the
 * accepted candidate, and a refusal stores nothing. */
uint64_t open_all(const uint8_t *candidates, size_t candidates_size, const uint8_t *codes, size_t codes_size,
                  uint64_t host_size, struct ondristela_layout *layout);

/* The same for one candidate with these fields. */
uint64_t open_one(const struct fields *fields, uint8_t code, uint64_t host_size,
                  struct ondristela_layout *layout);

/* Whether the user sector is mapped to the host sector, and the host sector to the user sector. */
int maps(const struct ondristela_layout *layout, uint64_t user, uint64_t host);

/* Whether a user sector, a host sector, or an outer and a hidden layout are refused, with nothing stored. */
int refuses_user(const struct ondristela_layout *layout, uint64_t user, uint64_t refusal);
int refuses_host(const struct ondristela_layout *layout, uint64_t host, uint64_t refusal);
int refuses_pair(const struct ondristela_layout *outer, const struct ondristela_layout *hidden,
                 uint64_t refusal);

#endif
