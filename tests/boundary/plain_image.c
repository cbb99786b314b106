/* Reads and writes of plaintext on an image of their own, as large as the worked cases' host, each with a check of what
 * it leaves in memory, and that the extent call judges it alike. */
#include "plain_image.h"

#include <string.h>

#include "check.h"
#include "volumes.h"

/* One sector more than a call may read or write. */
#define BUFFER_SIZE (129 * ONDRISTELA_SECTOR_SIZE)

uint8_t plain_key[ONDRISTELA_KEY_SIZE] = {0x27, 0x18, 0x28, 0x18, 0x28, 0x45, 0x90, 0x45};

static uint8_t image[HOST_SIZE], expected_image[HOST_SIZE];
static uint8_t buffer[BUFFER_SIZE], expected_buffer[BUFFER_SIZE], plaintext[BUFFER_SIZE];

/* What the last call told as the sector in the way. */
static uint64_t last_sector;

typedef void cipher(const uint8_t key[64], uint64_t tweak_number, uint8_t unit[512]);

/* Does this to each sector of those that stand on the host from this byte on. */
static void each_sector(cipher *step, uint64_t offset, uint64_t count, uint8_t *sectors)
{
    uint64_t index;

    for (index = 0; index < count; index++)
        step(plain_key, offset / 512 + index, sectors + index * 512);
}

static void fill_buffer(void)
{
    static size_t calls;
    size_t index;

    calls++;
    for (index = 0; index < sizeof buffer; index++)
        buffer[index] = (index * 13 + index / 512 + calls * 7) & 0xFF;
    memcpy(expected_buffer, buffer, sizeof buffer);
}

/* Whether image, buffer and key are as they must be. */
static int is_as_expected(const uint8_t *key)
{
    return memcmp(image, expected_image, sizeof image) == 0 && memcmp(buffer, expected_buffer, sizeof buffer) == 0
           && memcmp(key, plain_key, sizeof plain_key) == 0;
}

uint64_t write_plain_at(struct ondristela_view *view, size_t image_size, uint64_t first, uint64_t count,
                        size_t buffer_size)
{
    struct ondristela_view asked = *view;
    uint8_t key[ONDRISTELA_KEY_SIZE];
    uint64_t offset, sector, answer, judged;

    fill_buffer();
    memcpy(key, plain_key, sizeof key);
    memcpy(expected_image, image, sizeof image);
    fill(&sector, sizeof sector);
    last_sector = sector;
    judged = ondristela_write_extent(&asked, image_size, first, count, buffer_size, &offset, &sector);
    if (judged == ONDRISTELA_ACCEPTED) {
        memcpy(expected_image + offset, buffer, buffer_size);
        each_sector(ondristela_encipher, offset, count, expected_image + offset);
    }
    answer = ondristela_write_plaintext(view, key, image, image_size, first, count, buffer, buffer_size,
                                        &last_sector);
    return answer == judged && last_sector == sector && same_view(view, &asked) && is_as_expected(key)
               ? answer : CHANGED;
}

uint64_t read_plain_at(const struct ondristela_view *view, size_t image_size, uint64_t first, uint64_t count,
                       size_t buffer_size)
{
    uint8_t key[ONDRISTELA_KEY_SIZE];
    uint64_t offset, sector, answer, judged;

    fill_buffer();
    memcpy(key, plain_key, sizeof key);
    memcpy(expected_image, image, sizeof image);
    fill(&sector, sizeof sector);
    last_sector = sector;
    judged = ondristela_read_extent(view, image_size, first, count, buffer_size, &offset, &sector);
    if (judged == ONDRISTELA_ACCEPTED) {
        memcpy(expected_buffer, image + offset, buffer_size);
        each_sector(ondristela_decipher, offset, count, expected_buffer);
    }
    answer = ondristela_read_plaintext(view, key, image, image_size, first, count, buffer, buffer_size,
                                       &last_sector);
    return answer == judged && last_sector == sector && is_as_expected(key) ? answer : CHANGED;
}

uint64_t write_plain(struct ondristela_view *view, uint64_t first, uint64_t count)
{
    return write_plain_at(view, HOST_SIZE, first, count, count * ONDRISTELA_SECTOR_SIZE);
}

uint64_t read_plain(const struct ondristela_view *view, uint64_t first, uint64_t count)
{
    return read_plain_at(view, HOST_SIZE, first, count, count * ONDRISTELA_SECTOR_SIZE);
}

int refuses_plain_write(struct ondristela_view *view, uint64_t first, uint64_t count, uint64_t refusal,
                        uint64_t sector)
{
    return write_plain(view, first, count) == refusal && last_sector == sector;
}

int refuses_plain_read(const struct ondristela_view *view, uint64_t first, uint64_t count, uint64_t refusal,
                       uint64_t sector)
{
    return read_plain(view, first, count) == refusal && last_sector == sector;
}

int gives_back(struct ondristela_view *view, uint64_t first, uint64_t count)
{
    size_t size = count * ONDRISTELA_SECTOR_SIZE;
    uint64_t sector;

    if (write_plain(view, first, count) != ONDRISTELA_ACCEPTED)
        return 0;
    memcpy(plaintext, buffer, size);
    if (read_plain(view, first, count) != ONDRISTELA_ACCEPTED || memcmp(buffer, plaintext, size) != 0)
        return 0;
    return ondristela_read(view, image, HOST_SIZE, first, count, buffer, size, &sector) == ONDRISTELA_ACCEPTED
           && memcmp(buffer, plaintext, size) != 0;
}
