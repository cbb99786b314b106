/* Which reads and writes are refused 20 on a disk with larger sectors, and which refusals come before it and after. */
#include "check.h"
#include "image.h"
#include "tests.h"
#include "volumes.h"

/* A view of M that protects N, on a disk with sectors of this size. */
static struct ondristela_view protected_on(uint64_t sector_size)
{
    struct ondristela_view view = protected_m;

    view.layout.sector_size = sector_size;
    return view;
}

/* Whether a read and a write have this answer. */
static int answers(struct ondristela_view *view, uint64_t first, uint64_t count, uint64_t answer)
{
    return read_sectors(view, first, count) == answer && write_sectors(view, first, count) == answer;
}

static void test_extents(void)
{
    struct ondristela_view view = protected_on(4096);

    CHECK(answers(&view, 0, 8, ONDRISTELA_ACCEPTED));
    CHECK(answers(&view, 8, 8, ONDRISTELA_ACCEPTED));
    CHECK(answers(&view, 896, 128, ONDRISTELA_ACCEPTED));
    CHECK(answers(&view, 8, 0, ONDRISTELA_ACCEPTED));
    CHECK(answers(&view, 1536, 0, ONDRISTELA_ACCEPTED));
    CHECK(answers(&view, 1, 1, ONDRISTELA_REFUSED_UNALIGNED));
    CHECK(answers(&view, 0, 7, ONDRISTELA_REFUSED_UNALIGNED));
    CHECK(answers(&view, 0, 9, ONDRISTELA_REFUSED_UNALIGNED));
    CHECK(answers(&view, 4, 8, ONDRISTELA_REFUSED_UNALIGNED));
    CHECK(answers(&view, 4, 4, ONDRISTELA_REFUSED_UNALIGNED));
    CHECK(answers(&view, 1, 0, ONDRISTELA_REFUSED_UNALIGNED));
    CHECK(answers(&view, UINT64_MAX, 128, ONDRISTELA_REFUSED_UNALIGNED));
}

/* How many sectors make one of the disk's: one fewer, or a start one later, is refused, except on the smallest. */
static void test_sizes(void)
{
    uint64_t unit;

    for (unit = 1; unit <= 8; unit *= 2) {
        struct ondristela_view view = protected_on(512 * unit);
        uint64_t answer = unit == 1 ? ONDRISTELA_ACCEPTED : ONDRISTELA_REFUSED_UNALIGNED;

        CHECK(answers(&view, 0, unit, ONDRISTELA_ACCEPTED));
        CHECK(answers(&view, 3 * unit, 2 * unit, ONDRISTELA_ACCEPTED));
        CHECK(answers(&view, 0, 2 * unit - 1, answer));
        CHECK(answers(&view, unit + 1, unit, answer));
        CHECK(answers(&view, 2 * unit - 1, 0, answer));
    }
}

/* 11, 13, 14 and 15 come before 20. */
static void test_checks_before(void)
{
    struct ondristela_view view = protected_on(4096);

    CHECK(read_at(&view, HOST_SIZE - 1, 1537, 129, 1) == ONDRISTELA_REFUSED_IMAGE_SIZE);
    CHECK(write_at(&view, HOST_SIZE - 1, 1537, 129, 1) == ONDRISTELA_REFUSED_IMAGE_SIZE);
    CHECK(read_at(&view, HOST_SIZE, 1537, 129, 1) == ONDRISTELA_REFUSED_COUNT);
    CHECK(write_at(&view, HOST_SIZE, 1537, 129, 1) == ONDRISTELA_REFUSED_COUNT);
    CHECK(read_at(&view, HOST_SIZE, 1537, 7, 1) == ONDRISTELA_REFUSED_BUFFER_SIZE);
    CHECK(write_at(&view, HOST_SIZE, 1537, 7, 1) == ONDRISTELA_REFUSED_BUFFER_SIZE);
    view.layout.kind = 7;
    CHECK(answers(&view, 1, 1, ONDRISTELA_REFUSED_UNSOUND));
}

/* 16, 17 and 18 come after it, and it leaves the lock as it is. */
static void test_checks_after(void)
{
    struct ondristela_view view = protected_on(4096);

    CHECK(answers(&view, 1537, 8, ONDRISTELA_REFUSED_UNALIGNED));
    CHECK(answers(&view, 1528, 12, ONDRISTELA_REFUSED_UNALIGNED));
    CHECK(refuses_read(&view, 1528, 16, ONDRISTELA_REFUSED_OUTSIDE, 1536));
    CHECK(refuses_write(&view, 1544, 0, ONDRISTELA_REFUSED_OUTSIDE, 1544));
    CHECK(write_sectors(&view, 1023, 2) == ONDRISTELA_REFUSED_UNALIGNED && view.locked == 0);
    CHECK(refuses_write(&view, 1016, 16, ONDRISTELA_REFUSED_PROTECTED, 1024) && view.locked == 1);
    CHECK(write_sectors(&view, 1023, 2) == ONDRISTELA_REFUSED_UNALIGNED);
    CHECK(write_sectors(&view, 0, 8) == ONDRISTELA_REFUSED_LOCKED);
}

/* A protected range need only be of sectors of 512 bytes. */
static void test_range(void)
{
    struct ondristela_view view = protected_on(4096);

    view.protected_first = 131072 + 11 * 512;
    view.protected_end = 131072 + 13 * 512;
    CHECK(answers(&view, 0, 8, ONDRISTELA_ACCEPTED));
    CHECK(answers(&view, 16, 8, ONDRISTELA_ACCEPTED));
    CHECK(refuses_write(&view, 0, 24, ONDRISTELA_REFUSED_PROTECTED, 11));
}

void test_unaligned(void)
{
    test_extents();
    test_sizes();
    test_checks_before();
    test_checks_after();
    test_range();
}
