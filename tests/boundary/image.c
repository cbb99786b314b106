/* Reads and writes of one image of the worked cases' host, each with a check of what it leaves in memory, and of
 * what the extent call says beforehand. */
#include "image.h"

#include <string.h>

#include "check.h"
#include "volumes.h"

/* One sector more than a call may read or write. */
#define BUFFER_SIZE (129 * ONDRISTELA_SECTOR_SIZE)

static uint8_t image[HOST_SIZE], expected_image[HOST_SIZE];
static uint8_t buffer[BUFFER_SIZE], expected_buffer[BUFFER_SIZE];

void fill_image(void)
{
    size_t index;

    for (index = 0; index < sizeof image; index++)
        image[index] = (index * 31 + index / 512) & 0xFF;
}

/* What a call answers and stores. A read or write stores no offset. */
struct told {
    uint64_t answer, offset, sector;
};

/* What the last read or write told. */
static struct told last;

static struct told nothing_told(void)
{
    struct told told;

    fill(&told, sizeof told);
    return told;
}

/* Whether an extent call said what the read or write then did, and accepted the offset of the extent's first byte.
 * Only 16 and 18 may set the sector. */
static int was_told(const struct ondristela_view *view, uint64_t first, const struct told *told)
{
    if (told->answer != last.answer || told->sector != last.sector)
        return 0;
    if (last.answer != ONDRISTELA_REFUSED_OUTSIDE && last.answer != ONDRISTELA_REFUSED_PROTECTED
        && !is_filled(&last.sector, sizeof last.sector))
        return 0;
    if (last.answer == ONDRISTELA_ACCEPTED)
        return told->offset == view->layout.data_start + first * 512;
    return is_filled(&told->offset, sizeof told->offset);
}

uint64_t write_at(struct ondristela_view *view, size_t image_size, uint64_t first, uint64_t count,
                  size_t buffer_size)
{
    static uint8_t byte;
    struct ondristela_view expected = *view, asked = *view;
    struct told told = nothing_told();

    byte++;
    told.answer = ondristela_write_extent(&asked, image_size, first, count, buffer_size, &told.offset,
                                          &told.sector);
    memset(buffer, byte, sizeof buffer);
    memcpy(expected_image, image, sizeof image);
    last = nothing_told();
    last.answer = ondristela_write(view, image, image_size, first, count, buffer, buffer_size, &last.sector);
    if (last.answer == ONDRISTELA_ACCEPTED)
        memset(expected_image + view->layout.data_start + first * 512, byte, buffer_size);
    if (last.answer == ONDRISTELA_REFUSED_PROTECTED)
        expected.locked = 1;
    if (!was_told(view, first, &told) || !same_view(&asked, &expected))
        return CHANGED;
    return memcmp(image, expected_image, sizeof image) == 0 && same_view(view, &expected) ? last.answer : CHANGED;
}

uint64_t read_at(const struct ondristela_view *view, size_t image_size, uint64_t first, uint64_t count,
                 size_t buffer_size)
{
    struct told told = nothing_told();

    told.answer = ondristela_read_extent(view, image_size, first, count, buffer_size, &told.offset, &told.sector);
    fill(buffer, sizeof buffer);
    fill(expected_buffer, sizeof expected_buffer);
    memcpy(expected_image, image, sizeof image);
    last = nothing_told();
    last.answer = ondristela_read(view, image, image_size, first, count, buffer, buffer_size, &last.sector);
    if (last.answer == ONDRISTELA_ACCEPTED)
        memcpy(expected_buffer, image + view->layout.data_start + first * 512, buffer_size);
    return was_told(view, first, &told) && memcmp(image, expected_image, sizeof image) == 0
           && memcmp(buffer, expected_buffer, sizeof buffer) == 0 ? last.answer : CHANGED;
}

uint64_t write_sectors(struct ondristela_view *view, uint64_t first, uint64_t count)
{
    return write_at(view, HOST_SIZE, first, count, count * ONDRISTELA_SECTOR_SIZE);
}

uint64_t read_sectors(const struct ondristela_view *view, uint64_t first, uint64_t count)
{
    return read_at(view, HOST_SIZE, first, count, count * ONDRISTELA_SECTOR_SIZE);
}

int refuses_write(struct ondristela_view *view, uint64_t first, uint64_t count, uint64_t refusal,
                  uint64_t sector)
{
    return write_sectors(view, first, count) == refusal && last.sector == sector;
}

int refuses_read(const struct ondristela_view *view, uint64_t first, uint64_t count, uint64_t refusal,
                 uint64_t sector)
{
    return read_sectors(view, first, count) == refusal && last.sector == sector;
}
