/* Which reads and writes are accepted, with a protected range and without, and which refusal comes first. */
#include "check.h"
#include "image.h"
#include "tests.h"
#include "volumes.h"

static void test_protection(void)
{
    struct ondristela_view view = protected_m;

    CHECK(write_sectors(&view, 1023, 1) == ONDRISTELA_ACCEPTED);
    CHECK(refuses_write(&view, 1535, 2, ONDRISTELA_REFUSED_OUTSIDE, 1536) && view.locked == 0);
    CHECK(write_sectors(&view, 1024, 0) == ONDRISTELA_ACCEPTED);
    CHECK(refuses_write(&view, 1023, 2, ONDRISTELA_REFUSED_PROTECTED, 1024) && view.locked == 1);
    CHECK(write_sectors(&view, 0, 1) == ONDRISTELA_REFUSED_LOCKED);
    CHECK(write_sectors(&view, 0, 0) == ONDRISTELA_REFUSED_LOCKED);
    CHECK(write_sectors(&view, 1024, 1) == ONDRISTELA_REFUSED_LOCKED);
    CHECK(read_sectors(&view, 0, 1) == ONDRISTELA_ACCEPTED);
    CHECK(read_sectors(&view, 1023, 2) == ONDRISTELA_ACCEPTED);
}

/* A protected range inside the extent, away from its first and last sector. */
static void test_protection_inside(void)
{
    struct ondristela_view view = protected_m;

    view.protected_first = 131072 + 10 * 512;
    view.protected_end = 131072 + 11 * 512;
    CHECK(write_sectors(&view, 9, 1) == ONDRISTELA_ACCEPTED);
    CHECK(write_sectors(&view, 11, 1) == ONDRISTELA_ACCEPTED);
    CHECK(refuses_write(&view, 9, 3, ONDRISTELA_REFUSED_PROTECTED, 10));
}

static void test_extents(void)
{
    struct ondristela_view view = plain_m;

    CHECK(write_sectors(&view, 1536, 0) == ONDRISTELA_ACCEPTED);
    CHECK(refuses_write(&view, 1536, 1, ONDRISTELA_REFUSED_OUTSIDE, 1536));
    CHECK(refuses_write(&view, 1537, 0, ONDRISTELA_REFUSED_OUTSIDE, 1537));
    CHECK(read_sectors(&view, 1536, 0) == ONDRISTELA_ACCEPTED);
    CHECK(refuses_read(&view, 1536, 1, ONDRISTELA_REFUSED_OUTSIDE, 1536));
    CHECK(refuses_read(&view, 1537, 0, ONDRISTELA_REFUSED_OUTSIDE, 1537));
    CHECK(write_sectors(&view, 0, 128) == ONDRISTELA_ACCEPTED);
    CHECK(write_sectors(&view, 1408, 128) == ONDRISTELA_ACCEPTED);
    CHECK(write_sectors(&view, 0, 129) == ONDRISTELA_REFUSED_COUNT);
    CHECK(read_sectors(&view, 0, 128) == ONDRISTELA_ACCEPTED);
    CHECK(read_sectors(&view, 0, 129) == ONDRISTELA_REFUSED_COUNT);
    CHECK(refuses_write(&view, UINT64_MAX, 1, ONDRISTELA_REFUSED_OUTSIDE, UINT64_MAX));
    CHECK(refuses_read(&view, UINT64_MAX, 1, ONDRISTELA_REFUSED_OUTSIDE, UINT64_MAX));
    CHECK(read_at(&view, HOST_SIZE, 0, UINT64_C(1) << 55, 0) == ONDRISTELA_REFUSED_COUNT);
}

/* A read and a write with every mistake, and then with one mistake fewer each time. */
static void test_order_of_checks(void)
{
    struct ondristela_view view = protected_m;

    view.locked = 1;
    view.layout.kind = 7;
    CHECK(read_at(&view, HOST_SIZE - 1, 1535, 129, 1) == ONDRISTELA_REFUSED_UNSOUND);
    CHECK(write_at(&view, HOST_SIZE - 1, 1535, 129, 1) == ONDRISTELA_REFUSED_UNSOUND);
    view.layout.kind = ONDRISTELA_KIND_STANDARD;
    CHECK(read_at(&view, HOST_SIZE - 1, 1535, 129, 1) == ONDRISTELA_REFUSED_IMAGE_SIZE);
    CHECK(write_at(&view, HOST_SIZE - 1, 1535, 129, 1) == ONDRISTELA_REFUSED_IMAGE_SIZE);
    CHECK(read_at(&view, HOST_SIZE, 1535, 129, 1) == ONDRISTELA_REFUSED_COUNT);
    CHECK(write_at(&view, HOST_SIZE, 1535, 129, 1) == ONDRISTELA_REFUSED_COUNT);
    CHECK(read_at(&view, HOST_SIZE, 1535, 2, 1) == ONDRISTELA_REFUSED_BUFFER_SIZE);
    CHECK(write_at(&view, HOST_SIZE, 1535, 2, 1) == ONDRISTELA_REFUSED_BUFFER_SIZE);
    CHECK(refuses_read(&view, 1535, 2, ONDRISTELA_REFUSED_OUTSIDE, 1536));
    CHECK(refuses_write(&view, 1535, 2, ONDRISTELA_REFUSED_OUTSIDE, 1536));
    CHECK(read_at(&view, HOST_SIZE, 1535, 1, 512) == ONDRISTELA_ACCEPTED);
    CHECK(write_at(&view, HOST_SIZE, 1535, 1, 512) == ONDRISTELA_REFUSED_LOCKED);
    view.locked = 0;
    CHECK(refuses_write(&view, 1535, 1, ONDRISTELA_REFUSED_PROTECTED, 1535));
}

void test_access(void)
{
    test_protection();
    test_protection_inside();
    test_extents();
    test_order_of_checks();
}
