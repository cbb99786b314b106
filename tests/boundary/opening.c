/* Which layout an accepted header gives, for each location code and magic, and in which sizes of host. */
#include "calls.h"
#include "check.h"
#include "tests.h"

static void test_layouts(void)
{
    struct ondristela_layout layout;

    CHECK(open_one(&volume_m, 0, HOST_SIZE, &layout) == ONDRISTELA_ACCEPTED);
    CHECK(same_layout(&layout, &layout_m));
    CHECK(open_one(&volume_m, 2, HOST_SIZE, &layout) == ONDRISTELA_ACCEPTED);
    CHECK(same_layout(&layout, &layout_m));
    CHECK(open_one(&volume_n, 1, HOST_SIZE, &layout) == ONDRISTELA_ACCEPTED);
    CHECK(same_layout(&layout, &layout_n));
    CHECK(open_one(&volume_n, 3, HOST_SIZE, &layout) == ONDRISTELA_ACCEPTED);
    CHECK(same_layout(&layout, &layout_n));
}

/* VERA in place of TRUE, and other versions. */
static void test_versions(void)
{
    struct fields fields = volume_m;
    struct ondristela_layout layout, expected = layout_m;

    fields.magic = "VERA";
    fields.version = 2;
    fields.min_program_version[0] = 0x01;
    fields.min_program_version[1] = 0x0B;
    expected.magic = ONDRISTELA_MAGIC_VERA;
    expected.version = 2;
    expected.min_program_version = 267;
    CHECK(open_one(&fields, 0, HOST_SIZE, &layout) == ONDRISTELA_ACCEPTED);
    CHECK(same_layout(&layout, &expected));
}

static void test_host_sizes(void)
{
    struct fields fields = volume_m;
    struct ondristela_layout layout;

    CHECK(open_one(&volume_m, 0, UINT64_C(1) << 50, &layout) == ONDRISTELA_ACCEPTED);
    CHECK(layout.host_size == UINT64_C(1) << 50);
    CHECK(open_one(&volume_m, 0, (UINT64_C(1) << 50) + 512, &layout) == ONDRISTELA_REFUSED_HOST_SIZE);
    CHECK(open_one(&volume_m, 0, 262144, &layout) == ONDRISTELA_REFUSED_HOST_SIZE);

    fields.data_size = fields.encrypted_size = 512;
    CHECK(open_one(&fields, 0, 262656, &layout) == ONDRISTELA_ACCEPTED);
    CHECK(maps(&layout, 0, 256));
    CHECK(refuses_user(&layout, 1, ONDRISTELA_REFUSED_OUTSIDE));
}

void test_opening(void)
{
    test_layouts();
    test_versions();
    test_host_sizes();
}
