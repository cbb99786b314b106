/* How layouts and views with numbers that no call gives are refused, and which numbers do not matter. */
#include <string.h>

#include "calls.h"
#include "check.h"
#include "image.h"
#include "tests.h"

static int is_unsound_view(struct ondristela_view *view)
{
    return read_sectors(view, 0, 1) == ONDRISTELA_REFUSED_UNSOUND
           && write_sectors(view, 0, 1) == ONDRISTELA_REFUSED_UNSOUND;
}

/* Whether every call that takes this layout refuses it 11 and stores nothing. */
static int is_unsound(const struct ondristela_layout *layout)
{
    struct ondristela_view view = plain_m, made;

    view.layout = *layout;
    fill(&made, sizeof made);
    return refuses_user(layout, 0, ONDRISTELA_REFUSED_UNSOUND)
           && refuses_host(layout, 256, ONDRISTELA_REFUSED_UNSOUND)
           && ondristela_view_plain(layout, &made) == ONDRISTELA_REFUSED_UNSOUND
           && is_filled(&made, sizeof made)
           && refuses_pair(layout, &layout_n, ONDRISTELA_REFUSED_UNSOUND)
           && refuses_pair(&layout_m, layout, ONDRISTELA_REFUSED_UNSOUND)
           && refuses_pair(&layout_n, layout, ONDRISTELA_REFUSED_UNSOUND)
           && is_unsound_view(&view);
}

static void test_kinds(void)
{
    struct ondristela_layout layout = layout_m;

    layout.kind = 7;
    CHECK(is_unsound(&layout));
    layout.kind = UINT64_C(1) << 32;
    CHECK(is_unsound(&layout));
    layout.kind = UINT64_MAX;
    CHECK(is_unsound(&layout));
    memset(&layout, 0xFF, sizeof layout);
    CHECK(is_unsound(&layout));
    memset(&layout, 0, sizeof layout);
    CHECK(is_unsound(&layout));
}

static void test_sizes(void)
{
    struct ondristela_layout layout = layout_m;

    layout.host_size = UINT64_MAX;
    CHECK(is_unsound(&layout));
    layout = layout_m;
    layout.data_size = UINT64_MAX;
    CHECK(is_unsound(&layout));
    layout.data_size = UINT64_MAX - 511;
    CHECK(is_unsound(&layout));
    layout = layout_n;
    layout.data_start = UINT64_MAX - 511;
    layout.data_size = 1024;
    CHECK(is_unsound(&layout));
}

/* The last is 4,096 in 32 bits. */
static void test_disk_sectors(void)
{
    static const uint64_t sizes[9] = {0, 1, 511, 513, 1536, 8192, UINT64_MAX - 511, UINT64_MAX,
                                      (UINT64_C(1) << 32) + 4096};
    struct ondristela_layout m = layout_m, n = layout_n;
    size_t index;

    for (index = 0; index < 9; index++) {
        m.sector_size = n.sector_size = sizes[index];
        CHECK(is_unsound(&m));
        CHECK(is_unsound(&n));
    }
}

/* A host or a data area that is not of whole sectors of the disk's. */
static void test_parts_of_sectors(void)
{
    struct ondristela_layout layout = layout_n;

    layout.sector_size = 4096;
    layout.data_size -= 512;
    CHECK(is_unsound(&layout));
    layout.data_start += 512;
    CHECK(is_unsound(&layout));
    layout.data_size -= 4096 - 512;
    CHECK(is_unsound(&layout));
    layout.data_start = layout_n.data_start;
    layout.host_size += 2048;
    CHECK(is_unsound(&layout));
    layout.sector_size = 2048;
    CHECK(!is_unsound(&layout));
}

/* The other numbers do not matter, and come back as they are. */
static void test_other_numbers(void)
{
    struct ondristela_layout layout = layout_m;
    struct ondristela_view view;

    layout.magic = layout.version = layout.min_program_version = layout.candidate = UINT64_MAX;
    CHECK(ondristela_view_plain(&layout, &view) == ONDRISTELA_ACCEPTED && same_layout(&view.layout, &layout));
}

static int is_unsound_range(uint64_t first, uint64_t end)
{
    struct ondristela_view view = protected_m;

    view.protected_first = first;
    view.protected_end = end;
    return is_unsound_view(&view);
}

static void test_ranges(void)
{
    struct ondristela_view view = protected_m;

    CHECK(is_unsound_range(655360, 655360));
    CHECK(is_unsound_range(655360, 655360 - 512));
    CHECK(is_unsound_range(655360, 655360 + 511));
    CHECK(is_unsound_range(655360 + 1, 917504));
    CHECK(is_unsound_range(131072 - 512, 917504));
    CHECK(is_unsound_range(655360, 917504 + 512));
    view.layout = layout_n;
    CHECK(is_unsound_view(&view));

    /* Without a protected range its two numbers do not matter. */
    view = protected_m;
    view.protected_range = 0;
    view.protected_end = 1;
    CHECK(write_sectors(&view, 1024, 1) == ONDRISTELA_ACCEPTED);
}

/* Any number but 0 says that there is a protected range, and that the write lock is closed. */
static void test_booleans(void)
{
    static const uint64_t numbers[5] = {2, 256, UINT64_C(1) << 32, UINT64_C(1) << 63, UINT64_MAX};
    size_t index;

    for (index = 0; index < 5; index++) {
        struct ondristela_view view = protected_m;

        view.protected_range = numbers[index];
        CHECK(write_sectors(&view, 1023, 1) == ONDRISTELA_ACCEPTED);
        CHECK(refuses_write(&view, 1023, 2, ONDRISTELA_REFUSED_PROTECTED, 1024));
        view.locked = numbers[index];
        CHECK(write_sectors(&view, 0, 1) == ONDRISTELA_REFUSED_LOCKED);
        CHECK(read_sectors(&view, 0, 1) == ONDRISTELA_ACCEPTED);
    }
}

void test_made_up(void)
{
    test_kinds();
    test_sizes();
    test_disk_sectors();
    test_parts_of_sectors();
    test_other_numbers();
    test_ranges();
    test_booleans();
}
