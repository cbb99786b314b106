/* Which host sector and tweak block each user sector of M and N has, and which sectors are refused. */
#include <string.h>

#include "calls.h"
#include "check.h"
#include "tests.h"

/* Whether a tweak block has these two bytes and then fourteen zeros. */
static int has_tweak(const struct ondristela_layout *layout, uint64_t user, uint8_t first, uint8_t second)
{
    uint8_t block[16], expected[16] = {0};

    expected[0] = first;
    expected[1] = second;
    fill(block, sizeof block);
    return ondristela_tweak(layout, user, block) == ONDRISTELA_ACCEPTED
           && memcmp(block, expected, sizeof block) == 0;
}

void test_sector_map(void)
{
    CHECK(maps(&layout_m, 0, 256));
    CHECK(has_tweak(&layout_m, 0, 0x00, 0x01));
    CHECK(maps(&layout_m, 1535, 1791));
    CHECK(has_tweak(&layout_m, 1535, 0xFF, 0x06));
    CHECK(refuses_user(&layout_m, 1536, ONDRISTELA_REFUSED_OUTSIDE));
    CHECK(refuses_user(&layout_m, UINT64_MAX, ONDRISTELA_REFUSED_OUTSIDE));
    CHECK(refuses_host(&layout_m, 255, ONDRISTELA_REFUSED_OUTSIDE));
    CHECK(refuses_host(&layout_m, 1792, ONDRISTELA_REFUSED_OUTSIDE));
    CHECK(refuses_host(&layout_m, UINT64_MAX, ONDRISTELA_REFUSED_OUTSIDE));
    CHECK(maps(&layout_n, 0, 1280));
    CHECK(has_tweak(&layout_n, 0, 0x00, 0x05));
    CHECK(maps(&layout_n, 511, 1791));
    CHECK(refuses_user(&layout_n, 512, ONDRISTELA_REFUSED_OUTSIDE));
    CHECK(refuses_host(&layout_n, 1279, ONDRISTELA_REFUSED_OUTSIDE));
}
