/* Whether the example in ondristela.h, which stands here as it does there, does what it says. */
#include <string.h>

#include "check.h"
#include "tests.h"
#include "volumes.h"

static const char *write_outer_sectors(uint8_t *image, size_t image_size, const uint8_t *outer_header,
                                       const uint8_t *hidden_header, uint64_t first, uint64_t count,
                                       const uint8_t *bytes, uint64_t *sector)
{
    const uint8_t outer_code = ONDRISTELA_LOCATION_STANDARD;
    const uint8_t hidden_code = ONDRISTELA_LOCATION_HIDDEN;
    struct ondristela_layout outer, hidden;
    struct ondristela_view view;

    if (ondristela_open(outer_header, ONDRISTELA_HEADER_SIZE, &outer_code, 1, image_size, &outer)
        != ONDRISTELA_ACCEPTED)
        return "the outer volume does not open";
    if (ondristela_open(hidden_header, ONDRISTELA_HEADER_SIZE, &hidden_code, 1, image_size, &hidden)
        != ONDRISTELA_ACCEPTED)
        return "the hidden volume does not open";
    if (ondristela_view_protected(&outer, &hidden, &view) != ONDRISTELA_ACCEPTED)
        return "the hidden volume does not lie in the outer one";
    if (count > ONDRISTELA_MAX_COUNT)
        return "so many sectors take several calls";
    switch (ondristela_write(&view, image, image_size, first, count, bytes,
                             count * ONDRISTELA_SECTOR_SIZE, sector)) {
    case ONDRISTELA_ACCEPTED:
        return NULL;
    case ONDRISTELA_REFUSED_PROTECTED:
        return "that sector is the hidden volume's; the view takes no more writes";
    case ONDRISTELA_REFUSED_UNALIGNED:
        return "the disk has larger sectors, and only whole ones can be written";
    default:
        return "the outer volume has no such sector";
    }
}

static int says(const char *answer, const char *words)
{
    return answer != NULL && strstr(answer, words) != NULL;
}

void test_example(void)
{
    static uint8_t image[HOST_SIZE], bytes[2 * ONDRISTELA_SECTOR_SIZE];
    uint8_t m[ONDRISTELA_HEADER_SIZE], n[ONDRISTELA_HEADER_SIZE], small[ONDRISTELA_HEADER_SIZE];
    uint8_t wide_m[ONDRISTELA_HEADER_SIZE], wide_n[ONDRISTELA_HEADER_SIZE];
    struct fields small_outer = volume_m, wide_outer = volume_m, wide_hidden = volume_n;
    uint64_t sector;

    make_header(m, &volume_m);
    make_header(n, &volume_n);
    small_outer.data_size = small_outer.encrypted_size = 512;
    make_header(small, &small_outer);
    wide_outer.sector_size = wide_hidden.sector_size = 4096;
    make_header(wide_m, &wide_outer);
    make_header(wide_n, &wide_hidden);
    memset(bytes, 0xE7, sizeof bytes);
    fill(&sector, sizeof sector);
    CHECK(write_outer_sectors(image, HOST_SIZE, m, n, 1022, 2, bytes, &sector) == NULL);
    CHECK(memcmp(image + 131072 + 1022 * 512, bytes, sizeof bytes) == 0);
    CHECK(says(write_outer_sectors(image, HOST_SIZE, n, n, 0, 1, bytes, &sector), "outer volume does not open"));
    CHECK(says(write_outer_sectors(image, HOST_SIZE, m, m, 0, 1, bytes, &sector), "hidden volume does not open"));
    CHECK(says(write_outer_sectors(image, HOST_SIZE, small, n, 0, 1, bytes, &sector), "does not lie in"));
    CHECK(says(write_outer_sectors(image, HOST_SIZE, m, n, 0, 129, bytes, &sector), "several calls"));
    CHECK(says(write_outer_sectors(image, HOST_SIZE, wide_m, wide_n, 0, 2, bytes, &sector), "only whole ones"));
    CHECK(is_filled(&sector, sizeof sector));
    CHECK(says(write_outer_sectors(image, HOST_SIZE, m, n, 1023, 2, bytes, &sector), "the hidden volume's"));
    CHECK(sector == 1024);
    CHECK(says(write_outer_sectors(image, HOST_SIZE, m, n, 1535, 2, bytes, &sector), "no such sector"));
    CHECK(sector == 1536);
}
