/* Which sector the refusals 16 and 18 tell: the first of the extent that is past the volume's end or protected. */
#include "check.h"
#include "image.h"
#include "tests.h"
#include "volumes.h"

/* A view of M that protects its user sectors from `first` up to `end`. */
static struct ondristela_view protecting(uint64_t first, uint64_t end)
{
    struct ondristela_view view = protected_m;

    view.protected_first = 131072 + first * 512;
    view.protected_end = 131072 + end * 512;
    return view;
}

/* Whether a read and a write are refused 16 and tell this sector. */
static int is_outside(struct ondristela_view *view, uint64_t first, uint64_t count, uint64_t sector)
{
    return refuses_read(view, first, count, ONDRISTELA_REFUSED_OUTSIDE, sector)
           && refuses_write(view, first, count, ONDRISTELA_REFUSED_OUTSIDE, sector);
}

/* Whether a write through a view with this protected range is refused 18, closes the lock and tells this sector. */
static int is_protected(uint64_t range_first, uint64_t range_end, uint64_t first, uint64_t count,
                        uint64_t sector)
{
    struct ondristela_view view = protecting(range_first, range_end);

    return refuses_write(&view, first, count, ONDRISTELA_REFUSED_PROTECTED, sector) && view.locked == 1;
}

static void test_volume_end(void)
{
    struct ondristela_view view = plain_m;

    CHECK(is_outside(&view, 1500, 100, 1536));
    CHECK(is_outside(&view, 1409, 128, 1536));
    CHECK(is_outside(&view, 1535, 2, 1536));
    CHECK(is_outside(&view, 1536, 1, 1536));
    CHECK(is_outside(&view, 1536, 128, 1536));
    CHECK(is_outside(&view, 1537, 0, 1537));
    CHECK(is_outside(&view, 1537, 1, 1537));
    CHECK(is_outside(&view, UINT64_C(1) << 55, 1, UINT64_C(1) << 55));
    CHECK(is_outside(&view, UINT64_MAX - 127, 128, UINT64_MAX - 127));
    CHECK(is_outside(&view, UINT64_MAX, 0, UINT64_MAX));
    CHECK(is_outside(&view, UINT64_MAX, 1, UINT64_MAX));
    CHECK(is_outside(&view, UINT64_MAX, 128, UINT64_MAX));
}

/* A volume of one sector, and a hidden one, whose sectors count from its own data area. */
static void test_other_volumes(void)
{
    struct ondristela_view view = plain_m;

    view.layout.data_size = 512;
    CHECK(is_outside(&view, 0, 2, 1));
    CHECK(is_outside(&view, 0, 128, 1));
    CHECK(is_outside(&view, 2, 0, 2));
    view.layout = layout_n;
    CHECK(is_outside(&view, 511, 2, 512));
    CHECK(is_outside(&view, 513, 0, 513));
}

static void test_protected_ranges(void)
{
    /* To the volume's end, as N's is. */
    CHECK(is_protected(1024, 1536, 1023, 2, 1024));
    CHECK(is_protected(1024, 1536, 897, 128, 1024));
    CHECK(is_protected(1024, 1536, 1024, 1, 1024));
    CHECK(is_protected(1024, 1536, 1025, 7, 1025));
    CHECK(is_protected(1024, 1536, 1535, 1, 1535));
    /* In the middle: reached, begun in, left, and in the midst of the extent. */
    CHECK(is_protected(10, 20, 5, 6, 10));
    CHECK(is_protected(10, 20, 10, 10, 10));
    CHECK(is_protected(10, 20, 14, 2, 14));
    CHECK(is_protected(10, 20, 19, 5, 19));
    CHECK(is_protected(10, 20, 0, 128, 10));
    /* One sector: in the middle, the first and the last. */
    CHECK(is_protected(10, 11, 9, 3, 10));
    CHECK(is_protected(10, 11, 10, 1, 10));
    CHECK(is_protected(0, 1, 0, 128, 0));
    CHECK(is_protected(1535, 1536, 1408, 128, 1535));
    /* The whole volume. */
    CHECK(is_protected(0, 1536, 0, 1, 0));
    CHECK(is_protected(0, 1536, 700, 128, 700));
}

/* The largest host, which the extent calls need no image of. */
static void test_largest_host(void)
{
    const uint64_t host_size = UINT64_C(1) << 50, sectors = host_size / 512 - 512;
    struct ondristela_view view = protected_m;
    uint64_t offset, sector;

    view.layout.host_size = host_size;
    view.layout.data_size = sectors * 512;
    view.protected_first = 131072 + (sectors - 1) * 512;
    view.protected_end = 131072 + sectors * 512;
    fill(&offset, sizeof offset);
    CHECK(ondristela_read_extent(&view, host_size, sectors - 1, 2, 1024, &offset, &sector)
          == ONDRISTELA_REFUSED_OUTSIDE);
    CHECK(sector == sectors);
    CHECK(ondristela_write_extent(&view, host_size, sectors - 2, 2, 1024, &offset, &sector)
          == ONDRISTELA_REFUSED_PROTECTED);
    CHECK(sector == sectors - 1 && view.locked == 1 && is_filled(&offset, sizeof offset));
}

/* 16 comes before 17 and 18: it tells its own sector and leaves the lock as it is. */
static void test_outside_first(void)
{
    struct ondristela_view view = protecting(1024, 1536);

    CHECK(is_outside(&view, 1535, 2, 1536) && view.locked == 0);
    CHECK(is_outside(&view, 1500, 128, 1536) && view.locked == 0);
    view.locked = 1;
    CHECK(is_outside(&view, 1535, 2, 1536));
    CHECK(is_outside(&view, 1537, 0, 1537));
}

/* The other answers to extents that touch the protected range or the volume's end tell no sector. */
static void test_other_answers(void)
{
    struct ondristela_view view = protected_m;

    CHECK(read_sectors(&view, 1023, 2) == ONDRISTELA_ACCEPTED);
    CHECK(read_sectors(&view, 1535, 1) == ONDRISTELA_ACCEPTED);
    CHECK(write_sectors(&view, 1024, 0) == ONDRISTELA_ACCEPTED);
    CHECK(write_sectors(&view, 1536, 0) == ONDRISTELA_ACCEPTED);
    CHECK(write_at(&view, HOST_SIZE - 512, 1535, 2, 1024) == ONDRISTELA_REFUSED_IMAGE_SIZE);
    CHECK(read_at(&view, HOST_SIZE - 512, 1535, 2, 1024) == ONDRISTELA_REFUSED_IMAGE_SIZE);
    CHECK(write_sectors(&view, 1023, 129) == ONDRISTELA_REFUSED_COUNT);
    CHECK(read_sectors(&view, 1535, 129) == ONDRISTELA_REFUSED_COUNT);
    CHECK(write_at(&view, HOST_SIZE, 1023, 2, 1023) == ONDRISTELA_REFUSED_BUFFER_SIZE);
    CHECK(read_at(&view, HOST_SIZE, 1535, 2, 1023) == ONDRISTELA_REFUSED_BUFFER_SIZE);
    view.locked = 1;
    CHECK(write_sectors(&view, 1023, 2) == ONDRISTELA_REFUSED_LOCKED);
    CHECK(write_sectors(&view, 1024, 1) == ONDRISTELA_REFUSED_LOCKED);
    CHECK(write_sectors(&view, 1024, 0) == ONDRISTELA_REFUSED_LOCKED);
    view.layout.kind = 7;
    CHECK(write_sectors(&view, 1535, 2) == ONDRISTELA_REFUSED_UNSOUND);
    CHECK(read_sectors(&view, 1535, 2) == ONDRISTELA_REFUSED_UNSOUND);
}

void test_refused_sectors(void)
{
    test_volume_end();
    test_other_volumes();
    test_protected_ranges();
    test_largest_host();
    test_outside_first();
    test_other_answers();
}
