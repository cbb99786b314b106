/* Which of several candidates is opened, which refusal is given where none is, and what is checked before. */
#include "calls.h"
#include "check.h"
#include "tests.h"

/* Candidates without a header, but for the ones that a test makes. */
static uint8_t candidates[65 * ONDRISTELA_HEADER_SIZE];
static uint8_t codes[65];

static void make_candidate(size_t index, const struct fields *fields)
{
    make_header(candidates + index * ONDRISTELA_HEADER_SIZE, fields);
}

static uint64_t open_first(size_t count, uint64_t host_size, struct ondristela_layout *layout)
{
    return open_all(candidates, count * ONDRISTELA_HEADER_SIZE, codes, count, host_size, layout);
}

static void test_counts(void)
{
    struct ondristela_layout layout, expected = layout_m;

    CHECK(open_first(0, HOST_SIZE, &layout) == ONDRISTELA_REFUSED_LENGTHS);
    CHECK(open_first(65, HOST_SIZE, &layout) == ONDRISTELA_REFUSED_LENGTHS);
    CHECK(open_first(64, HOST_SIZE, &layout) == ONDRISTELA_REFUSED_NO_HEADER);

    make_candidate(63, &volume_m);
    CHECK(open_first(64, HOST_SIZE, &layout) == ONDRISTELA_ACCEPTED);
    expected.candidate = 63;
    CHECK(same_layout(&layout, &expected));
}

/* A header that is refused does not end the search. */
static void test_refused_candidates(void)
{
    struct ondristela_layout layout;
    struct fields no_version = volume_m, no_sector_size = volume_m;

    no_version.version = 6;
    no_sector_size.sector_size = 8192;
    make_candidate(5, &no_sector_size);
    make_candidate(6, &no_version);
    CHECK(open_first(63, HOST_SIZE, &layout) == ONDRISTELA_REFUSED_SECTOR_SIZE);
    CHECK(open_first(64, HOST_SIZE, &layout) == ONDRISTELA_ACCEPTED && layout.candidate == 63);
}

/* 1, 2, 3 in this order, before any candidate. */
static void test_order_of_checks(void)
{
    struct ondristela_layout layout;

    codes[63] = 4;
    CHECK(open_all(candidates, 64 * 512 - 1, codes, 64, 0, &layout) == ONDRISTELA_REFUSED_LENGTHS);
    CHECK(open_all(candidates, 64 * 512, codes, 63, 0, &layout) == ONDRISTELA_REFUSED_LENGTHS);
    CHECK(open_first(64, 0, &layout) == ONDRISTELA_REFUSED_CODE);
    codes[63] = 0;
    CHECK(open_first(64, 0, &layout) == ONDRISTELA_REFUSED_HOST_SIZE);
}

/* In this order: the candidates that one test makes stay for the next. */
void test_search(void)
{
    test_counts();
    test_refused_candidates();
    test_order_of_checks();
}
