/* Reads and writes of plaintext on an image of their own, as large as the worked cases' host, each with a check of what
 * it leaves in memory, and that the extent call judges it alike. */
#ifndef PLAIN_IMAGE_H
#define PLAIN_IMAGE_H

#include <stddef.h>
#include <stdint.h>

#include "ondristela.h"

/* The key of the calls below. A test may change it. */
extern uint8_t plain_key[ONDRISTELA_KEY_SIZE];

/* Writes plaintext that no earlier call wrote. Each sector must be stored as ondristela_encipher makes it. Image, view
 * and sector must be left as docs/RULES.md says, buffer and key as they were. */
uint64_t write_plain_at(struct ondristela_view *view, size_t image_size, uint64_t first, uint64_t count,
                        size_t buffer_size);

/* Reads plaintext. Each sector must be what ondristela_decipher makes of the image's. Buffer and sector must be left as
 * docs/RULES.md says, the image, what follows the buffer and the key as they were. */
uint64_t read_plain_at(const struct ondristela_view *view, size_t image_size, uint64_t first, uint64_t count,
                       size_t buffer_size);

/* The same with the right sizes of image and buffer. */
uint64_t write_plain(struct ondristela_view *view, uint64_t first, uint64_t count);
uint64_t read_plain(const struct ondristela_view *view, uint64_t first, uint64_t count);

/* Whether they are refused with this number and tell this sector. */
int refuses_plain_write(struct ondristela_view *view, uint64_t first, uint64_t count, uint64_t refusal,
                        uint64_t sector);
int refuses_plain_read(const struct ondristela_view *view, uint64_t first, uint64_t count, uint64_t refusal,
                       uint64_t sector);

/* Whether what is written as plaintext is read again so, and a raw read gives other bytes. */
int gives_back(struct ondristela_view *view, uint64_t first, uint64_t count);

#endif
