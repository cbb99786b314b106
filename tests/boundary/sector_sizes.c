/* Which sizes the disk's own sectors may have, in headers that are opened and written and in pairs of layouts, and that
 * host and data area must be of whole ones. */
#include "calls.h"
#include "check.h"
#include "requests.h"
#include "tests.h"

static const uint64_t sizes[4] = {512, 1024, 2048, 4096};

/* Whether M and N open on a disk with sectors of this size and tell it, with either magic. */
static int opens(const char *magic, uint64_t magic_number, uint64_t sector_size)
{
    struct fields m = volume_m, n = volume_n;
    struct ondristela_layout layout, expected_m = layout_m, expected_n = layout_n;

    m.magic = n.magic = magic;
    expected_m.magic = expected_n.magic = magic_number;
    m.sector_size = n.sector_size = expected_m.sector_size = expected_n.sector_size = sector_size;
    return open_one(&m, 0, HOST_SIZE, &layout) == ONDRISTELA_ACCEPTED && same_layout(&layout, &expected_m)
           && open_one(&n, 3, HOST_SIZE, &layout) == ONDRISTELA_ACCEPTED && same_layout(&layout, &expected_n);
}

/* Whether the headers of M and N are written for such a disk, as make_header makes them, and open. */
static int writes_both(uint64_t sector_size)
{
    struct request m = request_m, n = request_n;
    struct fields fields_m = volume_m, fields_n = volume_n;
    struct ondristela_layout expected_m = layout_m, expected_n = layout_n;

    m.sector_size = fields_m.sector_size = expected_m.sector_size = sector_size;
    n.sector_size = fields_n.sector_size = expected_n.sector_size = sector_size;
    return writes(&m, &fields_m, &expected_m) && writes(&n, &fields_n, &expected_n);
}

static void test_sizes(void)
{
    size_t index;

    for (index = 0; index < 4; index++) {
        CHECK(opens("VERA", ONDRISTELA_MAGIC_VERA, sizes[index]));
        CHECK(opens("TRUE", ONDRISTELA_MAGIC_TRUE, sizes[index]));
        CHECK(writes_both(sizes[index]));
    }
}

static uint64_t open_size(uint64_t sector_size)
{
    struct fields fields = volume_m;
    struct ondristela_layout layout;

    fields.sector_size = sector_size;
    return open_one(&fields, 0, HOST_SIZE, &layout);
}

static uint64_t write_size(uint64_t sector_size)
{
    struct request request = request_m;

    request.sector_size = sector_size;
    return write_request(&request);
}

/* A header has 32 bits for the size, and the writer is passed 64, of which none is cut off. */
static void test_wrong_sizes(void)
{
    static const uint64_t wrong[8] = {0, 1, 511, 513, 1536, 8192, UINT64_C(1) << 31, UINT32_MAX};
    size_t index;

    for (index = 0; index < 8; index++) {
        CHECK(open_size(wrong[index]) == ONDRISTELA_REFUSED_SECTOR_SIZE);
        CHECK(write_size(wrong[index]) == ONDRISTELA_REFUSED_SECTOR_SIZE);
    }
    for (index = 0; index < 4; index++)
        CHECK(write_size((UINT64_C(1) << 32) + sizes[index]) == ONDRISTELA_REFUSED_SECTOR_SIZE);
    CHECK(write_size(UINT64_MAX - 511) == ONDRISTELA_REFUSED_SECTOR_SIZE);
}

/* The answer for N on a disk with sectors of 4,096 bytes, the same from opening and writing. */
static uint64_t judge_wide(uint64_t host_size, uint64_t data_start, uint64_t data_size)
{
    struct request request = request_n;
    struct fields fields = volume_n;
    struct ondristela_layout layout;
    uint64_t answer;

    request.sector_size = fields.sector_size = 4096;
    request.host_size = host_size;
    request.data_start = fields.data_start = data_start;
    request.data_size = fields.hidden_size = fields.data_size = fields.encrypted_size = data_size;
    answer = write_request(&request);
    return open_one(&fields, 1, host_size, &layout) == answer ? answer : CHANGED;
}

static void test_parts(void)
{
    CHECK(judge_wide(HOST_SIZE, 655360, 262144) == ONDRISTELA_ACCEPTED);
    CHECK(judge_wide(HOST_SIZE + 512, 655360, 262144) == ONDRISTELA_REFUSED_DATA_AREA);
    CHECK(judge_wide(HOST_SIZE + 2048, 655360, 262144) == ONDRISTELA_REFUSED_DATA_AREA);
    CHECK(judge_wide(HOST_SIZE + 4096, 655360, 262144) == ONDRISTELA_ACCEPTED);
    CHECK(judge_wide(HOST_SIZE, 655360 - 512, 262144) == ONDRISTELA_REFUSED_DATA_AREA);
    CHECK(judge_wide(HOST_SIZE, 655360 - 4096, 262144) == ONDRISTELA_ACCEPTED);
    CHECK(judge_wide(HOST_SIZE, 655360, 262144 - 512) == ONDRISTELA_REFUSED_DATA_AREA);
    CHECK(judge_wide(HOST_SIZE, 655360, 262144 - 4096) == ONDRISTELA_ACCEPTED);
    CHECK(judge_wide(HOST_SIZE, 655360 + 512, 262144 - 512) == ONDRISTELA_REFUSED_DATA_AREA);
}

/* The map goes by sectors of 512 bytes whatever the disk's are. */
static void test_map(void)
{
    struct ondristela_layout layout = layout_n;

    layout.sector_size = 4096;
    CHECK(maps(&layout, 0, 1280));
    CHECK(maps(&layout, 1, 1281));
    CHECK(maps(&layout, 511, 1791));
    CHECK(refuses_user(&layout, 512, ONDRISTELA_REFUSED_OUTSIDE));
    CHECK(refuses_host(&layout, 1279, ONDRISTELA_REFUSED_OUTSIDE));
}

/* Two layouts nest only if both are of one disk's sectors. */
static void test_pairs(void)
{
    struct ondristela_layout outer = layout_m, hidden = layout_n;
    struct ondristela_view view;
    size_t index;

    for (index = 0; index < 3; index++) {
        outer.sector_size = sizes[index];
        hidden.sector_size = sizes[index + 1];
        CHECK(refuses_pair(&outer, &hidden, ONDRISTELA_REFUSED_NOT_NESTED));
        CHECK(refuses_pair(&layout_m, &hidden, ONDRISTELA_REFUSED_NOT_NESTED));
        outer.sector_size = sizes[index + 1];
        CHECK(refuses_pair(&outer, &layout_n, ONDRISTELA_REFUSED_NOT_NESTED));
        CHECK(ondristela_view_protected(&outer, &hidden, &view) == ONDRISTELA_ACCEPTED);
        CHECK(same_layout(&view.layout, &outer) && view.protected_first == 655360);
    }
}

void test_sector_sizes(void)
{
    test_sizes();
    test_wrong_sizes();
    test_parts();
    test_map();
    test_pairs();
}
