/* Reads and writes of one image of the worked cases' host, each with a check of what it leaves in memory, and of
 * what the extent call says beforehand. */
#ifndef IMAGE_H
#define IMAGE_H

#include <stddef.h>
#include <stdint.h>

#include "ondristela.h"

/* Fills the image with bytes that differ from one sector to the next. Comes before reads and writes. */
void fill_image(void);

/* Writes bytes that no earlier call wrote. Image, view and sector must be left as docs/RULES.md says. */
uint64_t write_at(struct ondristela_view *view, size_t image_size, uint64_t first, uint64_t count,
                  size_t buffer_size);

/* Reads. Buffer and sector must be left as docs/RULES.md says, the image and what follows the buffer as they
 * were. */
uint64_t read_at(const struct ondristela_view *view, size_t image_size, uint64_t first, uint64_t count,
                 size_t buffer_size);

/* The same with the right sizes of image and buffer. */
uint64_t write_sectors(struct ondristela_view *view, uint64_t first, uint64_t count);
uint64_t read_sectors(const struct ondristela_view *view, uint64_t first, uint64_t count);

/* Whether they are refused with this number and tell this sector. */
int refuses_write(struct ondristela_view *view, uint64_t first, uint64_t count, uint64_t refusal,
                  uint64_t sector);
int refuses_read(const struct ondristela_view *view, uint64_t first, uint64_t count, uint64_t refusal,
                 uint64_t sector);

#endif
