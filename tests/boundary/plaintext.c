/* Which reads and writes of plaintext are accepted, what they store and give, and which refusal comes first. */
#include <string.h>

#include "check.h"
#include "plain_image.h"
#include "tests.h"
#include "volumes.h"

/* Both volumes, up to as many sectors as a call takes. */
static void test_round_trips(void)
{
    struct ondristela_view m = plain_m, n = plain_m;

    n.layout = layout_n;
    CHECK(gives_back(&m, 0, 1));
    CHECK(gives_back(&m, 3, 2));
    CHECK(gives_back(&m, 1408, 128));
    CHECK(gives_back(&n, 0, 1));
    CHECK(gives_back(&n, 384, 128));
}

/* Keys of two views, and one with equal halves. */
static void test_keys(void)
{
    struct ondristela_view view = plain_m;

    memset(plain_key, 0xA1, sizeof plain_key);
    CHECK(gives_back(&view, 5, 3));
    memset(plain_key + 32, 0xB2, 32);
    CHECK(gives_back(&view, 5, 3));
}

static void test_protection(void)
{
    struct ondristela_view view = protected_m;

    CHECK(gives_back(&view, 1023, 1));
    CHECK(refuses_plain_write(&view, 1535, 2, ONDRISTELA_REFUSED_OUTSIDE, 1536) && view.locked == 0);
    CHECK(write_plain(&view, 1024, 0) == ONDRISTELA_ACCEPTED);
    CHECK(refuses_plain_write(&view, 1023, 2, ONDRISTELA_REFUSED_PROTECTED, 1024) && view.locked == 1);
    CHECK(write_plain(&view, 0, 1) == ONDRISTELA_REFUSED_LOCKED);
    CHECK(write_plain(&view, 0, 0) == ONDRISTELA_REFUSED_LOCKED);
    CHECK(read_plain(&view, 1023, 2) == ONDRISTELA_ACCEPTED);
    view.locked = 0;
    CHECK(refuses_plain_write(&view, 1100, 128, ONDRISTELA_REFUSED_PROTECTED, 1100) && view.locked == 1);
}

static void test_extents(void)
{
    struct ondristela_view view = plain_m;

    CHECK(write_plain(&view, 1536, 0) == ONDRISTELA_ACCEPTED);
    CHECK(read_plain(&view, 1536, 0) == ONDRISTELA_ACCEPTED);
    CHECK(refuses_plain_write(&view, 1537, 0, ONDRISTELA_REFUSED_OUTSIDE, 1537));
    CHECK(refuses_plain_read(&view, 1500, 100, ONDRISTELA_REFUSED_OUTSIDE, 1536));
    CHECK(refuses_plain_read(&view, UINT64_MAX, 128, ONDRISTELA_REFUSED_OUTSIDE, UINT64_MAX));
    CHECK(refuses_plain_write(&view, UINT64_MAX, 1, ONDRISTELA_REFUSED_OUTSIDE, UINT64_MAX));
    CHECK(read_plain(&view, 0, 129) == ONDRISTELA_REFUSED_COUNT);
    CHECK(write_plain(&view, 0, 129) == ONDRISTELA_REFUSED_COUNT);
    CHECK(read_plain_at(&view, HOST_SIZE, 0, UINT64_C(1) << 55, 0) == ONDRISTELA_REFUSED_COUNT);
}

/* Whether a read and a write have this answer. */
static int answers(struct ondristela_view *view, size_t image_size, uint64_t first, uint64_t count,
                   size_t buffer_size, uint64_t answer)
{
    return read_plain_at(view, image_size, first, count, buffer_size) == answer
           && write_plain_at(view, image_size, first, count, buffer_size) == answer;
}

/* A read and a write with every mistake, and then with one mistake fewer each time, on a disk with larger sectors. */
static void test_order_of_checks(void)
{
    struct ondristela_view view = protected_m;

    view.locked = 1;
    view.layout.sector_size = 4096;
    view.layout.kind = 7;
    CHECK(answers(&view, HOST_SIZE - 1, 1537, 129, 1, ONDRISTELA_REFUSED_UNSOUND));
    view.layout.kind = ONDRISTELA_KIND_STANDARD;
    CHECK(answers(&view, HOST_SIZE - 1, 1537, 129, 1, ONDRISTELA_REFUSED_IMAGE_SIZE));
    CHECK(answers(&view, HOST_SIZE, 1537, 129, 1, ONDRISTELA_REFUSED_COUNT));
    CHECK(answers(&view, HOST_SIZE, 1537, 9, 1, ONDRISTELA_REFUSED_BUFFER_SIZE));
    CHECK(answers(&view, HOST_SIZE, 1537, 9, 9 * 512, ONDRISTELA_REFUSED_UNALIGNED));
    CHECK(answers(&view, HOST_SIZE, 1528, 9, 9 * 512, ONDRISTELA_REFUSED_UNALIGNED));
    CHECK(refuses_plain_read(&view, 1528, 16, ONDRISTELA_REFUSED_OUTSIDE, 1536));
    CHECK(refuses_plain_write(&view, 1528, 16, ONDRISTELA_REFUSED_OUTSIDE, 1536));
    CHECK(read_plain(&view, 1528, 8) == ONDRISTELA_ACCEPTED);
    CHECK(write_plain(&view, 1528, 8) == ONDRISTELA_REFUSED_LOCKED);
    view.locked = 0;
    CHECK(write_plain(&view, 1023, 2) == ONDRISTELA_REFUSED_UNALIGNED && view.locked == 0);
    CHECK(refuses_plain_write(&view, 1016, 16, ONDRISTELA_REFUSED_PROTECTED, 1024) && view.locked == 1);
    view.locked = 0;
    CHECK(gives_back(&view, 1016, 8));
}

/* No call gives such views. */
static void test_made_up_views(void)
{
    struct ondristela_view view = protected_m;

    view.protected_end = view.protected_first;
    CHECK(answers(&view, HOST_SIZE, 0, 1, 512, ONDRISTELA_REFUSED_UNSOUND));
    view.protected_range = 0;
    CHECK(gives_back(&view, 1024, 1));
    view.layout.sector_size = 513;
    CHECK(answers(&view, HOST_SIZE, 0, 1, 512, ONDRISTELA_REFUSED_UNSOUND));
    memset(&view, 0xFF, sizeof view);
    CHECK(answers(&view, HOST_SIZE, 0, 1, 512, ONDRISTELA_REFUSED_UNSOUND));
    view = protected_m;
    view.protected_range = view.layout.magic = view.layout.version = view.layout.candidate = UINT64_MAX;
    CHECK(gives_back(&view, 1022, 2));
    CHECK(refuses_plain_write(&view, 1022, 3, ONDRISTELA_REFUSED_PROTECTED, 1024) && view.locked == 1);
    view.locked = UINT64_C(1) << 32;
    CHECK(write_plain(&view, 0, 1) == ONDRISTELA_REFUSED_LOCKED);
    CHECK(read_plain(&view, 0, 1) == ONDRISTELA_ACCEPTED);
}

void test_plaintext(void)
{
    test_round_trips();
    test_keys();
    test_protection();
    test_extents();
    test_order_of_checks();
    test_made_up_views();
}
